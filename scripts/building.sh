# What the commands for plans share: whether something that they need is built from these very sources, and building it where it isn't, by one
# run at a time. Who reads this file has set `root`, the repository, and has a function `say`, which tells standard error.
#
# rt proves and builds in a crate's folder, and keeps what it made in the crate's out/. What is built of it is copied to target/, which is this
# repository's own: programs to target/bin, libraries for C to target/staticlib, and to target/log what rt said of each.
#
# Beside what is built stands a file with the kit's identity, a checksum of the sources, and one of what was built. It is written when all was
# proved, and what is built counts as that of these sources only where the file says so. Times of files say nothing: a folder that was unpacked
# or restored has those of another day.
target=$root/target lock=$root/target/check-plan.lock log=$root/target/check-plan.log

# What is wanted: `made` is its file, `tool` the command that builds it, `crate` its crate where that is rt, `with` one whose object its archive has too,
# `what` its name in messages.
want() { # program|converter|library|trimmer|grammar|explanation|definite
    tool=rt crate='' with=''
    case $1 in
    program) crate=check_plan what='the program' ;;
    converter) crate=convert_plan what='the converter' ;;
    library) crate=leukarion_c with=leukarion_trim_c what="the proved checker's library" ;;
    trimmer) crate=leukarion_trim_c what="the proved trimmer's library" ;;
    grammar) crate=leukarion_grammar_c what='the library of the replay by the grammar' ;;
    explanation) tool=cargo made=$root/compare/target/release/explain what='the explanation' ;;
    definite) tool=cargo made=$root/compare/target/release/definite what='the program for definite plans' ;;
    esac
    case $crate in
    '') ;;
    leukarion_*) made=$target/staticlib/lib$crate.a ;;
    *) made=$target/bin/$crate ;;
    esac
    sums=$made.sums
}

# The crates of the repository that it rests on, its own too.
rests_on() {
    awk -v wanted="$with $crate" '
        function visit(name,    list, i, n) {
            if (!(name in deps) || name in seen) return
            seen[name] = 1
            n = split(deps[name], list, " ")
            for (i = 1; i <= n; i++) visit(list[i])
            print name
        }
        { sub(/#.*/, "") }
        split($0, part, ":") > 1 { split(part[1], word, " "); deps[word[1]] = part[2] }
        END { n = split(wanted, own, " "); for (i = 1; i <= n; i++) visit(own[i]) }' "$root/crates.txt"
}

# The checksum of all that it is built from: crates.txt and those crates, or the packages for Rust and the library. The edits of a crate are left
# out, for nothing is built from them, and what rt keeps in its out/.
sources() (
    cd "$root" || exit 1
    if [ -n "$crate" ]; then
        names=$(rests_on) && [ -n "$names" ] || exit 1
        set -- crates.txt
        for name in $names; do set -- "$@" "crates/$name"; done
    else
        set -- target/staticlib/libleukarion_c.a compare/Cargo.toml compare/Cargo.lock compare/src rust/Cargo.toml rust/build.rs rust/src
    fi
    each=$(find -L "$@" \( -name 'must-fail*' -o -path 'crates/*/out' \) -prune -o -type f -exec sha256sum {} +) || exit 1
    printf '%s\n' "$each" | LC_ALL=C sort | sha256sum
)

# The kit's identity; without a kit, the one that it was built with.
kit() {
    if command -v rt >/dev/null; then rt version </dev/null; else sed -n 's/^kit //p' "$sums"; fi
}

# What the file beside it has to say.
checksums() {
    from=$(sources) && as=$(sha256sum <"$made") && printf 'kit %s\nsources %s\nbuilt %s\n' "$(kit)" "${from%% *}" "${as%% *}"
}

# Whether it is there, whole, and built from these sources. What can't be worked out is like no file.
current() {
    [ -f "$made" ] && [ -f "$sums" ] && [ "$(checksums 2>/dev/null && echo .)" = "$(cat "$sums" && echo .)" ]
}

# Builds it, whatever was there: rt and cargo would leave what they take for built as it is. What cargo builds is cleaned and built together. rt runs a
# program that it built, here in the crate's folder, where there is no plan, so it only says that.
anew() (
    cd "$root" && rm -f "$sums" "$made" || exit
    if [ -z "$crate" ]; then
        set -- --release --offline --quiet --manifest-path compare/Cargo.toml
        cargo clean "$@" -p compare -p leukarion && cargo build "$@" --bin explain --bin definite
        exit
    fi
    case $crate in
    leukarion_*)
        for part in $with $crate; do
            (cd "crates/$part" && rm -f "out/lib$part.a" "out/lib$part.a.stamp" && rt lib) || exit
        done
        archive $with $crate
        ;;
    *)
        cd "crates/$crate" && rm -f "out/$crate" "out/$crate.stamp" || exit
        case $crate in convert_plan) rt run -- sparse ;; *) rt run ;; esac && mkdir -p "${made%/*}" && cp "out/$crate" "$made.new"
        ;;
    esac && mv "$made.new" "$made"
)

# Puts what rt made of these libraries into one archive. Each was compiled by itself and is an object of its own, so a program gets those that it calls.
archive() { # CRATE..
    parts=$made.parts
    rm -rf "$parts" "$made.new" && mkdir -p "$parts" || return
    for part; do (cd "$parts" && ar x "$root/crates/$part/out/lib$part.a") || return; done
    ar rcsD "$made.new" "$parts"/*.o && rm -rf "$parts"
}

# Which of the crates one is, as 'N of M: '; nothing if it is none.
place_of() { # CRATE
    rests_on | awk -v name="$1" '$0 == name { at = NR } END { if (at) print at " of " NR ": " }'
}

# Takes what the tool says: all of it goes to the log, and a line for each crate that is proved anew to standard error. Whether it ended well.
hear() {
    began=$(date +%s) at='' new=0 refused='' full='' last=''
    while IFS= read -r said; do
        { printf '%s\n' "$said" >>"$log"; } 2>/dev/null
        case $said in
        *'No space left on device'* | 'rt: the disk is full'*) full=yes ;;
        'crate '*': modules loaded='*' checked='*) at=${said#crate } at=${at%%:*} new=${said##* checked=} ;;
        'logic=proved '*)
            now=$(date +%s)
            # what was kept of it is loaded, and nothing checked
            [ "$new" = 0 ] || say "$(place_of "$at")$at proved ($((now - began)) s)"
            began=$now at='' new=0
            ;;
        'logic='*) [ -z "$at" ] || refused="$refused $at NOT PROVED;" ;;
        'rt: the library '*' did not build, '*) refused="${refused:- ${said#rt: };}" ;;
        'rt: '*'; waiting for it'*) say "${said#rt: }" ;;
        'rt: '*killed*) say "${said#rt: }" ;;
        esac
        last=$said
    done
    [ "$last" != 'ended with status 0' ] || return 0
    if [ -n "$full" ]; then
        say "$what couldn't be built: No space left on device, in $root or in ${TMPDIR:-/tmp}, where temporary files are"
    else
        say "$what couldn't be built;$refused $log has what $tool said"
    fi
    return 1
}

# Proves and builds it.
prove() {
    for needed in "$tool" $(case $crate in leukarion_*) echo ar ;; esac); do
        if ! command -v "$needed" >/dev/null; then
            say "$what has to be built, and the command $needed, which builds it, can't be found"
            return 1
        fi
    done
    before=$(sources) || {
        say "$what has to be built, and its sources in $root can't be read"
        return 1
    }
    if [ -n "$crate" ]; then
        gate=$(cat "$root/kit.txt" 2>/dev/null)
        [ "$(kit)" = "$gate" ] || say "the kit here is $(kit); the gate last ran with ${gate:-none}"
        say "proving and building $what; from nothing this takes some minutes"
    else
        say "building $what; this takes about a minute"
    fi
    true >"$log" || return 1
    { anew 2>&1 </dev/null; echo "ended with status $?"; } | hear || return 1
    [ -z "$crate" ] || { mkdir -p "$target/log" && cp "$log" "$target/log/$crate.out"; } 2>/dev/null
    if [ "$(sources)" != "$before" ]; then
        say "the sources of $what changed while it was built, so it isn't used; call this again"
        return 1
    fi
    case $tool in
    rt) seal ;;
    cargo) (for other in explanation definite; do want "$other" && seal || exit 1; done) ;;
    esac
}

# Writes the file beside what was built.
seal() {
    { checksums >"$sums.new" && mv "$sums.new" "$sums"; } 2>/dev/null && return
    rm -f "$sums.new"
    say "$what is built, but its checksums can't be written to $sums"
    return 1
}

# Builds it, or waits for another run that does. The system holds the lock for as long as a process has file 9 open, rt's too: a killed run
# leaves none behind, and an rt that goes on without it isn't disturbed.
build() {
    if ! { mkdir -p "$target" && true >>"$lock"; } 2>/dev/null; then
        say "$what has to be built, and the folder $target can't be written"
        return 1
    fi
    {
        if ! command -v flock >/dev/null; then
            say "the command flock can't be found (util-linux has it): see that no other run builds meanwhile"
        elif ! flock -n 9; then
            say "another run is building; waiting for it"
            flock 9 || return
        fi
        current || prove
    } 9>>"$lock"
}
