#!/bin/sh
# Runs the program on a script; `./hy help` tells how. `./hy build` proves and builds it. Where it is missing, or was built
# from other sources or by another toolchain, the sources are run without a proof. Standard output has the program's bytes, or
# the page of help; what this script says goes to standard error, and its own failures end with status 70.

newline='
'

help() {
    cat <<'PAGE' || exit 4
hy runs a script of concurrent SQL transactions, and prints what each was told and one order in which they committed.

    ./hy run [--threads] [--no-prune] [--log] [--chunks N] [--rows N] [FILE]
                 runs the script; prints the replies, the commit order and the final tables
    ./hy check [--chunks N] [--rows N] [FILE]
                 reads the script; prints what it has, or the line and the code of its first mistake
    ./hy recover [--script] [--chunks N] [--rows N] [FILE]
                 prints the script's tables as the log of an earlier run makes them
    ./hy trace [--no-prune] [--chunks N] [--rows N] [FILE]
                 runs the script by its schedule; prints its steps, one by one
    ./hy explain [--no-prune] [--chunks N] [--rows N] [FILE]
                 runs the script by its schedule; prints which transactions were refused, and why
    ./hy gen --seed N --sessions K --transactions M [--threads]
                 makes a bank and its sessions from the number N, runs them, and counts how they ended
    ./hy serve [--log] [--chunks N] [--rows N]
                 answers each line of standard input before it reads the next
    ./hy build   proves and builds the program; until then its sources are run without a proof
    ./hy help    prints this page

FILE is the script. Where none is named, or it is -, the script is standard input.

    --threads           sessions run on threads; the schedule isn't used
    --no-prune          old versions are kept
    --log               the commits are kept in a log
    --script            the tables as the beginning of a script that goes on from them
    --chunks N          each table has N chunks, 1 to 64; 4 where nothing is said
    --rows N            each chunk has N rows, 1 to 1024; 1024 where nothing is said
    --seed N            0 to 4294967295
    --sessions K        1 to 64
    --transactions M    in each session, 1 to 1000

The log is the file hy.log, or the one that the environment variable HY_LOG names.

Examples:

    ./hy run examples/write_skew.hy
    ./hy run --chunks 1 --rows 4 examples/bank/phantom.hy
    ./hy explain examples/write_skew.hy
    ./hy gen --seed 7 --sessions 8 --transactions 100

Statuses: 0 done, 1 the words are refused, 2 the script is refused, 3 a read failed, 4 a write failed, 5 want of memory,
6 the log's file failed, 7 the log isn't empty or is damaged, 70 this launcher failed.

Documents: README.md, docs/tour.md (one bank, script by script), docs/language.md (the script language),
docs/anomalies.md (the anomalies of the isolation literature, as scripts).
PAGE
    exit
}

complain() {
    printf 'hy: %s\n' "$1" >&2
}

fail() {
    complain "$1"
    exit 70
}

# Refuses words as the program does, and names them.
refuse() {
    complain "$1; ./hy help shows what there is"
    echo 'usage: hy run|check|gen'
    exit 1
}

fail_to_read() {
    complain "$1"
    exit 3
}

is_among() {
    case " $2 " in *" $1 "*) ;; *) return 1 ;; esac
}

# Whether a word is an option of the command. One that takes a number may have it behind a sign =, or as the next word.
is_option() {
    name=${1#--}
    if [ "$name" = "$1" ]; then
        false
    elif is_among "${name%%=*}" "$numbers"; then
        given="$given ${name%%=*}"
        [ "$name" != "${name%%=*}" ] || awaited=number
    else
        is_among "$name" "$flags"
    fi
}

take_file() {
    is_among "$command" 'run check recover trace explain' || refuse "$command takes no script, and $1 is one word too many"
    [ -z "$named" ] || refuse "$command takes one script, and $1 is one word too many"
    named=yes
    file=$1
}

# The folder that this file stands in, links followed. A path may hold any bytes: $(..) takes newlines off its end, so
# each path is read with one more byte behind it, which goes again.
find_root() {
    self=$0
    while [ -L "$self" ]; do
        target=$(readlink -- "$self" && printf x) || fail "the link $self can't be followed"
        target=${target%"${newline}x"}
        case $target in
            /*) self=$target ;;
            *) case $self in
                */*) self=${self%/*}/$target ;;
                *) self=$target ;;
            esac ;;
        esac
    done
    case $self in
        */*) folder=${self%/*}/ ;;
        *) folder=./ ;;
    esac
    root=$(CDPATH='' cd -P -- "$folder" && pwd -P && printf x) || fail "the folder of $0 can't be entered"
    root=${root%"${newline}x"}
}

# Ends what this start began, however it ends. A signal that may be caught could be lost on the ticker, where it comes before
# the ticker is fully a process of its own.
# shellcheck disable=SC2317 # the trap calls it
clean() {
    {
        [ -z "$ticker" ] || kill -KILL "$ticker"
        [ -z "$child" ] || { kill "$child" && wait "$child"; }
    } 2>/dev/null
    # What rt began ends a moment behind it, and may write there meanwhile.
    [ -z "$room" ] || rm -rf "$room" 2>/dev/null || { sleep 1; rm -rf "$room"; }
    [ -z "$locked" ] || rm -rf "$lock"
}

make_room() {
    [ -n "$room" ] || room=$(mktemp -d) || fail "no folder for temporary files can be made"
}

# Waits for what runs in the background, and has its status. A shell waits for nothing else in a way that a signal ends.
attend() {
    child=$!
    wait "$child"
    status=$?
    child=
}

# A checksum of all that says what the program does and promises: names, sizes and bytes. A proof can change neither.
sum_of_sources() {
    (
        cd "$root" &&
            find crates.txt crates/*/src crates/*/specs -type f -exec cksum {} + 2>/dev/null | LC_ALL=C sort | cksum
    )
}

# What of that, or of the program, was changed after the record was written, by the times that the system keeps.
list_changes() {
    (cd "$root" && LC_ALL=C exec find crates.txt crates/*/src crates/*/specs "$program" -cnewer "$record") 2>&1
}

# Finds the name of the toolchain, nothing where there is none. rt version prints the file KIT-ID of its kit, which is
# read in its place where it lies there, since a start of rt takes half a second. Where the kit is the one that the record
# names, no link is followed to it.
find_toolchain() {
    toolchain=
    rt=$(command -v rt) || return
    # shellcheck disable=SC3013 # where a shell has no -ef the link is followed
    if ! [ "$rt" -ef "$kit/bin/rt" ] 2>/dev/null; then
        kit=$(readlink -f -- "$rt")
        kit=${kit%/bin/*}
    fi
    if [ -n "$kit" ] && [ -r "$kit/KIT-ID" ]; then
        IFS= read -r toolchain <"$kit/KIT-ID"
    else
        toolchain=$(rt version </dev/null 2>/dev/null)
    fi
}

# Writes what was built from what, and where: times say nothing in a copy of the folder.
write_record() {
    printf '%s\n' "$sources" "$builder" "$built" "$kit" "$root" >"$1"
}

# Whether the program is the one that these sources give: by times, and where one is later than the record, by checksums. Then
# there is a new record, written before the sums were taken. Where there is no toolchain, any that built it will do.
is_built() {
    [ -x "$program" ] && [ -r "$record" ] || return 1
    {
        IFS= read -r sources
        IFS= read -r builder
        IFS= read -r built
        IFS= read -r kit
        IFS= read -r place
    } <"$record"
    find_toolchain
    [ "${toolchain:-$builder}" = "$builder" ] || return 1
    [ "$place" != "$root" ] || [ -n "$(list_changes)" ] || return 0
    write_record "$record.$$" 2>/dev/null
    if [ "$(sum_of_sources)" = "$sources" ] && [ "$(cksum <"$program")" = "$built" ]; then
        mv -f "$record.$$" "$record" 2>/dev/null
        return 0
    fi
    rm -f "$record.$$"
    return 1
}

# One start builds at a time: the folder is the lock, and the file in it names the process that holds it. A lock whose
# process is gone is taken over, by the one start that makes the folder within. A lock that isn't there, and can't be
# made either, may have been dropped in between: so that is tried again before it is called a failure.
take_lock() {
    waited=0
    missing=0
    nameless=0
    while ! mkdir "$lock" 2>/dev/null; do
        if [ ! -d "$lock" ]; then
            missing=$((missing + 1))
            [ "$missing" -lt 4 ] || fail "$crate can't be written, and the program must be built there"
            continue
        fi
        missing=0
        holder=$(cat "$lock/process" 2>/dev/null)
        [ -z "$holder" ] || nameless=0
        if is_gone "$holder"; then
            if mkdir "$lock/taken" 2>/dev/null; then
                if is_gone "$(cat "$lock/process" 2>/dev/null)"; then
                    complain "a build was cut off; going on in its place"
                    break
                fi
                rmdir "$lock/taken"
            elif [ "$waited" -gt 30 ] && [ -d "$lock/taken" ]; then
                fail "a build was cut off: remove the folder $lock"
            fi
        fi
        [ "$waited" -ne 2 ] || complain "waiting for another start that builds the program (process ${holder:-unknown})"
        sleep 1
        waited=$((waited + 1))
        nameless=$((nameless + 1))
    done
    locked=yes
    echo $$ >"$lock/process" || fail "$lock can't be written"
    rmdir "$lock/taken" 2>/dev/null
}

# Whether the process that a lock names has ended, or, where it has named none for some seconds, never wrote it down.
is_gone() {
    case $1 in
        '') [ "$nameless" -ge 5 ] ;;
        *) ! kill -0 "$1" 2>/dev/null && [ ! -d "/proc/$1" ] ;;
    esac
}

# The lines of crates.txt of the program's crates: its own, behind all that it stands on.
list_crates() {
    awk '
        function list(name, parts, number, i) {
            if (!(name in below) || name in seen) return
            seen[name]
            number = split(below[name], parts)
            for (i = 1; i <= number; i++) list(parts[i])
            print lines[name]
        }
        !/^#/ && /:/ { name = $1; sub(/:.*/, "", name); lines[name] = $0; sub(/^[^:]*:/, ""); below[name] = $0 }
        END { list("hy_main") }
    ' "$root/crates.txt"
}

# Makes the folder that rt works in: a copy of these crates, with what the program is run on, and without the edits, which the
# program doesn't need. rt can't work in a folder whose path isn't text. It holds a .git for the top of a repository, and
# wants crates.txt there, whatever folder is above.
make_bench() {
    make_room
    bench=$room/sources
    (
        mkdir -p "$bench/.git" && list_crates >"$bench/crates.txt" && cp "$root/HANDLES" "$bench" || exit
        while IFS=': ' read -r name _; do
            mkdir -p "$bench/crates/$name" || exit
            for part in src specs proofs args stdin stdout status; do
                part=$root/crates/$name/$part
                [ ! -e "$part" ] || cp -R "$part" "$bench/crates/$name" || exit
            done
        done <"$bench/crates.txt"
    ) || fail "the sources can't be copied to $bench"
}

# Takes the program over from there.
take_program() {
    mkdir -p "$crate/out" && cp "$bench/crates/hy_main/out/hy_main" "$program.new" && mv "$program.new" "$program"
}

# Tells each minute how far the build is, as long as it goes on. rt prints one of these lines for each crate that is done.
tick() {
    while sleep 60 >/dev/null 2>&1 && kill -0 $$ 2>/dev/null; do
        ready=$(grep -c -e '^rt: [^ ]* proved$' -e '^rt: [^ ]* is kept' "$log")
        complain "$ready of $crates crates, after $((($(date +%s) - began) / 60)) min"
    done
}

# Proves and builds the program, each crate from nothing, but for those that an earlier build or gate on this machine proved.
# rt runs it then as the gate does, so that its status is 0 just where the program was built and runs.
build() {
    take_lock
    if is_built; then
        complain "the program is built from these sources"
        return
    fi
    command -v rt >/dev/null || fail "the program must be built, and the toolchain's command rt is not on the PATH"
    sources=$(sum_of_sources)
    began=$(date +%s)
    make_bench
    crates=$(grep -c : "$bench/crates.txt")
    complain "proving and building $crates crates (log: $log)"
    tick &
    ticker=$!
    (cd "$bench" && exec rt ci) >"$log" 2>&1 &
    attend
    took=$(($(date +%s) - began))
    if [ "$status" -ne 0 ] || ! take_program || [ ! -x "$program" ]; then
        { grep -e error -e 'NOT PROVED$' "$log" | head -n 20; tail -n 5 "$log"; } | awk '!told[$0]++' >&2
        fail "the build failed after $took s: rt ended with status $status (whole log: $log)"
    fi
    find_toolchain
    builder=$toolchain
    built=$(cksum <"$program")
    write_record "$record.new" || fail "$record can't be written"
    [ "$sources" = "$(sum_of_sources)" ] || fail "the sources changed during the build: start again"
    mv "$record.new" "$record" || fail "$record can't be written"
    complain "proved and built, in $took s"
}

# Opens what the program is to read as descriptor 3. A named file can mostly be read again, at $script.
open_script() {
    if [ "$command" = gen ]; then
        exec 3</dev/null
    elif [ "$file" = - ]; then
        file='standard input'
        { command exec 3<&0; } 2>/dev/null || fail_to_read "$file: Bad file descriptor"
    else
        [ -e "$file" ] || fail_to_read "$file: there is no such file"
        [ ! -d "$file" ] || fail_to_read "$file: is a folder"
        [ -r "$file" ] || fail_to_read "$file: may not be read"
        { command exec 3<"$file"; } 2>/dev/null || fail_to_read "$file: can't be opened"
        [ ! -f "$file" ] || script=$file
    fi
}

# Has all else as a copy, of as much as the program reads.
copy_script() {
    [ -z "$script" ] && [ "$command" != gen ] || return 0
    make_room
    script=$room/script
    cause=$(LC_ALL=C head -c 16777217 <&3 2>&1 >"$script") || {
        case $cause in *writ*) fail "the script can't be copied to $room" ;; esac
        fail_to_read "$file: ${cause##*: }"
    }
    exec 3<"$script"
}

# Whether this is UTF-8, where iconv is there to say.
is_text() {
    ! command -v iconv >/dev/null || printf '%s' "$1" | iconv -f UTF-8 -t UTF-8 >/dev/null 2>&1
}

# Copies the log to where rt has it for the program, under the name that it looks for there: rt gives it no environment. So
# a variable that names no file is refused here, with the program's status and line, though before the script is read.
find_log() {
    kept=${HY_LOG-hy.log}
    if [ -n "${HY_LOG+set}" ] && { [ -z "$kept" ] || ! is_text "$kept"; }; then
        complain "HY_LOG: empty or no UTF-8, and so no name of a file"
        exit 6
    fi
    [ ! -e "$kept" ] || cp -- "$kept" "$room/hy.log" 2>/dev/null || {
        complain "$kept: can't be read"
        exit 6
    }
}

# Runs the sources as they are. For each run rt compiles them anew, in a minute or two; it passes on what the program wrote when
# it has ended, at most 1 MiB; and the program runs in a folder of its own, which is gone then. The last line of what rt says
# itself tells whether the program ended.
run_unproved() {
    command -v rt >/dev/null ||
        fail "the program isn't built from these sources, and the toolchain's command rt is not on the PATH"
    [ -z "$keeps" ] || fail "--log goes with the program that is proved and built alone: ./hy build comes first"
    complain "these sources are not proved yet; ./hy build proves and builds them (about an hour on four processors)"
    complain "running them unproved: in a minute or two, behind the end of the input"
    copy_script
    make_bench
    set -- -- "$@"
    kept=hy.log
    if [ "$command" = recover ]; then
        find_log
        [ ! -e "$room/hy.log" ] || set -- --data "hy.log=$room/hy.log" "$@"
    fi
    (cd "$bench/crates/hy_main" && exec rt try --steps 1 --seconds 86400 "$@") <&3 >"$room/text" 2>"$room/said" &
    attend
    status=$(sed -n '$s/^run=ended status=\([0-9]*\) .*/\1/p' "$room/said")
    if [ -z "$status" ]; then
        tail -n 20 "$room/said" >&2
        fail "unproved, these sources gave no answer: rt tells why above"
    fi
    grep '^hy: ' "$room/said" | kept=$kept awk '
        index($0, "hy: hy.log: ") == 1 { $0 = "hy: " ENVIRON["kept"] substr($0, 11) }
        { print }' >&2
    if ! cat "$room/text" 2>/dev/null; then
        complain "standard output: it took only a part of what was to be written"
        status=4
    fi
}

# Says in words which line is refused, and why. docs/refusals.txt has the words, and says what they are chosen by.
explain_refusal() {
    case $1 in
        'line '*': E'*) ;;
        *) return ;;
    esac
    line=${1#line }
    LC_ALL=C tr '\000-\011\013-\037\177' ' ' <"$script" |
        LC_ALL=C sentences=$root/docs/refusals.txt awk -v line="${line%%:*}" -v code="${1##* }" '
            function code_of(text) {
                sub(/--.*/, "", text)
                sub(/ +$/, "", text)
                sub(/^ +/, "", text)
                return text
            }
            function show(number, text) {
                sub(/ +$/, "", text)
                if (length(text) > 160) text = substr(text, 1, 160) " .."
                printf "%8d  %s\n", number, text
            }
            BEGIN { last = ";"; place = "outside" }
            NR == line { refused = $0; exit }
            {
                text = toupper(code_of($0))
                if (text == "") next
                before = $0
                number = NR
                last = substr(text, length(text))
                if (text ~ /(^|;) *BEGIN[ ;]/) place = "inside"
                if (text ~ /(^|;) *(COMMIT|ROLLBACK) *;/) place = "outside"
            }
            END {
                looks = place " " last " " toupper(code_of(refused))
                while ((getline row < ENVIRON["sentences"]) > 0) {
                    if (row ~ /^E/) {
                        is_cause = substr(row, 1, 3) == code
                        if (is_cause) sentence = ": " substr(row, 5)
                    } else if (is_cause && hint == "" && sub(/^ +/, "", row) && match(row, /  +/)) {
                        if (looks ~ substr(row, 1, RSTART - 1)) hint = substr(row, RSTART + RLENGTH)
                    }
                }
                print "hy: line " line ", " code sentence
                is_end = refused ~ /^ *$/
                if (before != "" && (last != ";" || is_end)) show(number, before)
                show(line, (is_end ? "(here the script ends)" : refused))
                if (hint != "") print "hy: " hint
            }' >&2
}

# Says what a status stands for, where the program doesn't: what came from outside, 3 to 7, it tells itself.
explain() {
    case $status in
        1) complain "these words are refused; ./hy help shows what there is" ;;
        2)
            # shellcheck disable=SC2086 # two words for each number
            if [ -n "$room" ] && [ -e "$room/text" ]; then
                explain_refusal "$(head -n 1 "$room/text")"
            else
                explain_refusal "$("$program" check $setting <"$script")"
            fi
            ;;
        *) [ "$status" -le 128 ] || complain "the program was ended by signal $((status - 128))" ;;
    esac
}

command=${1:-help}
flags=
numbers=
case $command in
    run) flags='threads no-prune log' numbers='chunks rows' ;;
    serve) flags=log numbers='chunks rows' ;;
    check) numbers='chunks rows' ;;
    recover) flags=script numbers='chunks rows' ;;
    trace | explain) flags=no-prune numbers='chunks rows' ;;
    gen) flags=threads numbers='seed sessions transactions' ;;
    build) ;;
    help | -h | --help) help ;;
    *) refuse "there is no command $command" ;;
esac
shift

# Of the words only the script's name is taken out; the others are the program's.
named=
file=-
keeps=
setting=
given=
awaited=
for word; do
    shift
    case $awaited:$word in
        number:*) awaited='' setting="$setting $word" ;;
        script:*) take_file "$word" && continue ;;
        :-h | :--help) help ;;
        :--) awaited=script && continue ;;
        :-?*)
            is_option "$word" || refuse "$command has no option $word"
            case $word in
                --log) keeps=yes ;;
                --chunks* | --rows*) setting="$setting $word" ;;
            esac
            ;;
        *) take_file "$word" && continue ;;
    esac
    set -- "$@" "$word"
done
[ "$awaited" != number ] || refuse "a number is missing behind $word"
for number in $numbers; do
    [ "$command" != gen ] || is_among "$number" "$given" || refuse "gen needs --$number"
done

child=
ticker=
room=
locked=
kit=
script=
trap clean EXIT
trap 'exit 130' INT QUIT
trap 'exit 143' TERM HUP
find_root
crate=$root/crates/hy_main
program=$crate/out/hy_main
record=$crate/out/hy_main.built
lock=$crate/build.lock
log=$crate/build.log
if [ "$command" = build ]; then
    build
    exit
fi

# Where nobody looks at standard error the program takes this process over, and so has its signals; so it does where it
# serves, with its terminal.
explains=
{ [ "$file" = - ] && [ ! -t 2 ]; } || explains=yes
[ "$command" != serve ] || explains=
open_script
set -- "$command" "$@"
if is_built; then
    [ -n "$explains" ] || exec "$program" "$@" 3<&-
    copy_script
    "$program" "$@" <&3 3<&- &
    attend
else
    run_unproved "$@"
fi
[ -z "$explains" ] || explain
exit "$status"
