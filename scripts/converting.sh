# What the commands share that write a new certificate: what the program's line and the file that it tells of have to be, before the line is believed.
# Who reads this file has read answers.sh, and has `say`, `fail`, `leave` and `print`; `new` is the new file's name, `place` the folder that the program
# runs in, `folder` and `path` are the plan's. What differs are two functions: `is_written` goes on where the new file is there, with so many words, and
# `say_why` says what a refusal is about, where more can be said than its line does, and else fails.

# What a program says in a folder, on both of its outputs, and how it ended.
said_in() { # FOLDER PROGRAM ARGUMENT..
    # -P: what other programs take the name for; a variable would leave bytes of value 0 out
    { (cd -P "$1" && shift && exec "$@") 2>&1; echo "ended $?"; } | tr '\000' '?'
}

# Whether so many words, and no more than a file may have, are in a file.
is_there() { # COUNT FILE
    [ "${#1}" -le 5 ] && [ "$1" -le 16384 ] && [ -f "$2" ] && [ "$(wc -c <"$2")" -eq $(($1 * 4)) ]
}

# Whether the first word of the certificate is a number. Of a pipe, what is read is gone.
begins_with() { # NUMBER
    [ -f "$path/plan.wit" ] && [ "$(od -A n -t d4 -N 4 "$path/plan.wit" | tr -d ' ')" = "$1" ]
}

# Says what a refusal is about.
say_refused() { # LINE
    told=''
    explain plan.lin
    explain plan.wit
    [ -n "$told" ] || say_why "$1" || say "$root/explain-plan $folder says what failed, in words"
}

# Goes on by the program's line, if it is one and says what is so; else says why not, and ends.
answer() { # SAID
    line=${1%"${newline}ended 0"} status=${1##*ended } several=''
    if [ "$status" != 0 ]; then
        say_failed "$status" "$line"
        leave 3
    fi
    take_unread
    case $line in
    *"$newline"*) ;;
    "$new couldn't be written: "*)
        say "$folder/$line"
        [ ! -e "$place/plan.wit.part9" ] || say "$folder/plan.wit.part0 to $folder/plan.wit.part9 are parts that runs left which were ended; remove them"
        leave 3
        ;;
    'written '*)
        if number "${line#written }" && [ "$unread" = ' ' ]; then
            is_there "${line#written }" "$place/$new" || fail 3 "the program says '$line', but these words aren't in $folder/$new"
            is_written "${line#written }"
            leave 3
        fi
        ;;
    'refused '*)
        if is_refusal "$line"; then
            print "$line"
            say_refused "$line"
            leave 20
        fi
        ;;
    esac
    fail 3 "the program printed no line of an answer"
}
