# What the commands share that run a program on the files of a plan: how a folder is named, what is a number in a line, and why a file has no words
# for the program. Who reads this file has a function `say`, which tells standard error, and `newline`. The copy of check-plan that install-check-plan
# makes has it in it.

# No name is an option then, nor is - the folder before this one.
path_of() { # FOLDER
    case $1 in /*) path=$1 ;; *) path=./$1 ;; esac
}

# Says of each file that is a pipe that it is waited for.
say_pipes() {
    for file in plan.lin plan.wit; do
        [ ! -p "$path/$file" ] || say "$folder/$file is a pipe; waiting for what is written to it"
    done
}

# so that a digit is one of ten
LC_ALL=C

number() { # TEXT
    case $1 in
    0) ;;
    [1-9]*) case $1 in *[!0-9]*) return 1 ;; esac ;;
    *) return 1 ;;
    esac
}

# Whether a test passes for each word of a text that single blanks part.
each() { # TEST TEXT
    rest=$2
    while "$1" "${rest%% *}"; do
        case $rest in *' '*) rest=${rest#* } ;; *) return 0 ;; esac
    done
    return 1
}

# Whether a line is that of a refusal.
is_refusal() { # LINE
    case $1 in
    *"$newline"*) return 1 ;;
    'refused '*' '*' '*' '*) return 1 ;;
    'refused '*' '*' '*) each number "${1#refused }" ;;
    *) return 1 ;;
    esac
}

# Takes what the program says of files that couldn't be read off the front of `line`, and puts their names into `unread`.
take_unread() {
    unread=' '
    for file in plan.lin plan.wit; do
        case $line in "$file couldn't be read$newline"*) unread="$unread$file " line=${line#*"$newline"} ;; esac
    done
}

# Says what a program said of its end.
say_failed() { # STATUS SAID
    say "${several:+$folder: }the program failed with status $1${2:+: $(printf '%.300s' "${2%"${newline}"*}" | tr '\n' ' ')}"
}

# Says why a file has no words for the program, if it has none. A pipe isn't touched: what is read from it is gone.
explain() { # FILE
    name=$folder/$1 file=$path/$1
    if [ ! -e "$file" ]; then reason='is absent'
    elif [ -d "$file" ]; then reason='is a folder and not a file'
    elif [ ! -r "$file" ]; then reason="can't be read"
    else
        reason=''
        case $unread in *" $1 "*) reason="couldn't be read: the system failed to give all of it" ;; esac
        if [ -f "$file" ]; then
            bytes=$(wc -c <"$file")
            if [ "$bytes" -eq 0 ]; then reason='is empty'
            elif [ -z "$reason" ] && [ "$bytes" -gt 65536 ]; then reason="is too long: it has $bytes bytes, and may have 65536"
            elif [ -z "$reason" ] && [ $((bytes % 4)) -ne 0 ]; then reason="is not in whole words: it has $bytes bytes, and a word has 4"
            fi
        fi
        [ -n "$reason" ] || return 0
    fi
    say "$name $reason"
    told=yes
}
