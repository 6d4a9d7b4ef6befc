#!/bin/sh
# Tries the scripts: what they answer, their statuses, and that a failure is told in one line. Programs are stood in for by small scripts, and
# then, where they are built, run themselves.
repository=$(CDPATH='' cd -- "$(dirname -- "$0")/.." && pwd)
room=$(mktemp -d) || exit 2
trap 'rm -rf "$room"' EXIT
cd "$room" || exit 2
failures=0

# Runs a command: its status, how many lines it says on standard error, and if there is a third word the last line on standard output. Its
# output goes to the file in $to.
expect() { # STATUS LINES LAST COMMAND..
    status=$1 lines=$2 last=$3
    shift 3
    "$@" >"${to:-out}" 2>err
    got=$?
    said=$(wc -l <err)
    printed=$(tail -n 1 out 2>/dev/null)
    if [ "$got" -ne "$status" ] || [ "$said" -ne "$lines" ] || { [ -n "$last" ] && [ "$printed" != "$last" ]; } || grep -q Traceback err; then
        echo "scripts: '$*' ends with $got, not $status, or says $said lines, not $lines:"
        cat err
        failures=$((failures + 1))
    fi
    : >out
}

# A copy of the repository whose programs are the text given here.
program() { # NAME TEXT
    mkdir -p "a copy/crates/$1/out"
    printf '#!/bin/sh\n%s\n' "$2" >"a copy/crates/$1/out/$1"
    chmod +x "a copy/crates/$1/out/$1"
}
mkdir -p 'a copy/crates/pick'
cp -R "$repository/scripts" 'a copy/'
pick='a copy/scripts/pick.sh' known='a copy/scripts/known.sh' make="$repository/scripts/make_job.py"
echo 0000 0100 >'-a pattern.hex'
echo 0000 01g0 >bad.hex
echo 00000 >odd.hex
echo ' ' >empty.hex
printf 'a\r\nb' >'-the lines'
echo job >-job
{ echo a && head -c 4097 /dev/zero; } >long.txt
head -c 9000 /dev/zero | tr '\0' 0 >long.hex

# Making a job.
expect 0 0 '' python3 "$make" '-a pattern.hex' '-the lines'
to=job expect 0 0 '' python3 "$make" '-a pattern.hex' '-the lines'
[ "$(od -An -tx1 job | tr -d ' \n')" = 040040000000010001004100610100410062 ] || { echo 'scripts: the job is another'; failures=$((failures + 1)); }
to=/dev/full expect 2 1 '' python3 "$make" '-a pattern.hex' '-the lines'
expect 0 1 '' python3 "$make" '-a pattern.hex' /dev/null
expect 2 1 '' sh -c '{ until [ -e closed ]; do sleep 0.1; done; python3 "$0" "$@"; echo $? >status; } | { exec <&-; : >closed; }; exit "$(cat status)"' \
    "$make" '-a pattern.hex' '-the lines'
for file in bad.hex odd.hex empty.hex /dev/null none.hex . job; do
    expect 2 1 '' python3 "$make" "$file" '-the lines'
    expect 2 1 '' sh "$known" "$file"
done
expect 2 1 '' python3 "$make" '-a pattern.hex' none.txt
expect 2 1 '' python3 "$make" '-a pattern.hex' .
expect 2 1 '' python3 "$make"
for files in '-a pattern.hex:long.txt' 'long.hex:-the lines'; do
    to=job expect 1 1 '' python3 "$make" "${files%:*}" "${files#*:}"
    [ ! -s job ] || { echo 'scripts: half a job is left'; failures=$((failures + 1)); }
done

# The answers of a program, which is built first where it is not there.
mkdir tools
ln -s "$(command -v dirname)" tools/
expect 2 1 '' env PATH="$room/tools" /bin/sh "$pick" -job
printf '#!/bin/sh\nexit 1\n' >tools/rt
chmod +x tools/rt
expect 2 2 '' env PATH="$room/tools:$PATH" sh "$pick" -job
echo 'mkdir -p out; echo "echo 1 none 1" >out/pick; chmod +x out/pick' >tools/rt
expect 0 1 '1 none 1' env PATH="$room/tools:$PATH" sh "$pick" -job
program pick 'cat >/dev/null; echo "places 1 depth 0 groups 0"; echo "1 none 1"'
expect 0 0 '1 none 1' sh "$pick" -job
(cd 'a copy/scripts' && sh pick.sh ../../-job) >out && [ -s out ] || failures=$((failures + 1))
to=/dev/full expect 2 1 '' sh "$pick" -job
expect 2 1 '' sh -c 'sh "$@" >&-' sh "$pick" -job
for file in none . '-no such'; do expect 2 1 '' sh "$pick" "$file"; done
expect 2 1 '' sh "$pick"
expect 2 1 '' sh "$pick" -job -job
program pick 'echo refused 3 0'
expect 1 1 'refused 3 0' sh "$pick" -job
program pick 'echo 1 none 1; echo job broken'
expect 1 1 'job broken' sh "$pick" -job
program pick 'echo job unreadable; echo "pick: standard input cannot be read" >&2'
expect 2 1 'job unreadable' sh "$pick" -job
program pick 'echo 1 none 1; echo "pick: standard output cannot be written" >&2'
expect 2 1 '' sh "$pick" -job
program pick 'exit 3'
expect 2 1 '' sh "$pick" -job
program pick 'while :; do echo 1 none 1; done'
expect 2 1 '' sh -c '{ sh "$@"; echo $? >status; } | head -n 1 >/dev/null; exit "$(cat status)"' sh "$pick" -job
program pick 'echo 1 none 1; cat >/dev/null; echo 2 none 1'
mkfifo slow
(for _ in 1 2 3 4 5 6 7 8 9 10; do [ ! -s out ] || exit 0; sleep 1; done; : >late) >slow &
expect 0 0 '2 none 1' sh "$pick" slow
[ ! -e late ] || { echo 'scripts: answers are held back'; failures=$((failures + 1)); }
program known 'wc -c | tr -d " "'
expect 0 0 0 sh "$known"
expect 0 0 4 sh "$known" '-a pattern.hex'
expect 2 1 '' sh "$known" '-a pattern.hex' more
to=/dev/full expect 2 1 '' sh "$known"

# The comparison with an ECMAScript engine.
if command -v node >/dev/null; then
    compare=$repository/scripts/compare.mjs
    program replay 'cat'
    echo 'match 020002006161 61 -> whole 2 0-1' >cases
    echo 'match 020002006161 61 -> whole 2 -' >wrong
    echo 'match 0200 61 -> whole 2 0-1' >nonsense
    expect 0 0 '' node "$compare" --answered cases
    expect 1 0 '' node "$compare" --answered wrong
    expect 1 1 '' node "$compare" 'a copy/crates/replay/out/replay' 10 1
    for file in nonsense none . /dev/null; do expect 2 1 '' node "$compare" --answered "$file"; done
    for file in none . /bin/true; do expect 2 1 '' node "$compare" "$file" 10 1; done
    for words in '' '--answered' '--write /bin/cat' '--other' '/bin/cat x' '/bin/cat 1 x' '/bin/cat -1' '/bin/cat 1 1 1'; do
        # shellcheck disable=SC2086
        expect 2 1 '' node "$compare" $words
    done
    to=/dev/full expect 2 1 '' node "$compare" --answered cases
else
    echo 'scripts: compare.mjs is not tried, since node is not there'
fi

# The programs themselves.
pick=$repository/scripts/pick.sh known=$repository/scripts/known.sh examples=$repository/examples
to=job expect 0 0 '' python3 "$make" "$examples/grown.hex" "$examples/log.txt"
cmp job "$examples/grown.job" || failures=$((failures + 1))
if [ -x "$repository/crates/pick/out/pick" ]; then
    expect 0 0 '4 none 182' sh "$pick" job
    to=/dev/full expect 2 1 '' sh "$pick" job
    expect 1 1 'job broken' sh "$pick" "$examples/log.txt"
    expect 1 1 'job broken' sh "$pick" /dev/null
    printf '\4\0\100\0\0\0\11\0' >refused
    expect 1 1 'refused 3 0' sh "$pick" refused
fi
if [ -x "$repository/crates/known/out/known" ]; then
    expect 0 0 '' sh "$known"
    expect 0 0 '' sh "$known" "$examples/grown.hex"
    expect 1 1 'refused 1 0' sh "$known" long.hex
    expect 2 1 '' sh "$known" empty.hex
fi
[ "$failures" -eq 0 ] || { echo "scripts: $failures tests fail"; exit 1; }
echo 'scripts: all tests pass'
