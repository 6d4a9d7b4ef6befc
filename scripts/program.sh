# What pick.sh and known.sh have in common: a program is found or built, run, and given a status, which it has none of its own.
#   0  all was answered
#   1  the pattern is refused, or the job is broken
#   2  wrong usage, or something cannot be read, built or written
# A status other than 0 comes with a line on standard error.
name=${0##*/}
root=$(CDPATH='' cd -- "$(dirname -- "$0")/.." && pwd)

fail() { # STATUS WHY
    printf '%s: %s\n' "$name" "$2" >&2
    exit "$1"
}

# Sees that a program is there: if it is not, it is proved and built.
have() { # PROGRAM
    [ ! -x "$root/crates/$1/out/$1" ] || return 0
    command -v rt >/dev/null || fail 2 "rt, which proves and builds $1, is not found"
    echo "$name: $1 is proved and built first, which takes some minutes" >&2
    (cd "$root/crates/$1" && rt run) </dev/null >/dev/null 2>&1
    [ -x "$root/crates/$1/out/$1" ] || fail 2 "rt run in crates/$1 fails"
}

# Runs a program on standard input and ends with its status. What it prints goes on as it comes, to tee's own output (4) and through the
# pipe (3) to awk, which keeps the first and the last line; what it says on standard error is kept until its end (5).
run() { # PROGRAM
    have "$1"
    (: 9>&1) 2>/dev/null || fail 2 'standard output cannot be written'
    exec 4>&1
    said=$(
        exec 5>&1
        { "$root/crates/$1/out/$1" 2>&5 4>&- 5>&- || echo "$1: ended with $?" >&5; } |
            { tee /dev/fd/3 >&4 2>/dev/null || printf '\nunwritten\n' >&3; } 3>&1 |
            awk 'NR == 1 { first = $0 }
                { last = $0 }
                END {
                    if (last == "unwritten") exit 4
                    if (last == "job unreadable") exit 3
                    if (last == "job broken") exit 2
                    if (first ~ /^refused /) exit 1
                    if (NR == 0) exit 5
                }'
    )
    kept=$?
    [ "$kept" -ne 4 ] || fail 2 'standard output cannot be written'
    [ -z "$said" ] || { printf '%s\n' "$said" >&2; exit 2; }
    case $kept in
    0) exit 0 ;;
    1) fail 1 'the pattern is refused' ;;
    2) fail 1 'the job is broken' ;;
    3) fail 2 'the job cannot be read' ;;
    *) fail 2 "$1 does not answer" ;;
    esac
}
