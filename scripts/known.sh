#!/bin/sh
# scripts/known.sh prints the known answers with the places of each pattern.
# scripts/known.sh PATTERN.hex prints the places of the pattern whose records stand in that file as hexadecimal digits.
# program.sh says what its status means.
. "$(dirname -- "$0")/program.sh"
[ $# -le 1 ] || fail 2 "usage: $name [PATTERN.hex]"
[ $# -eq 1 ] || run known </dev/null
command -v python3 >/dev/null || fail 2 'python3, which reads the digits, is not found'
records=$(mktemp) || fail 2 'there is no room for a temporary file'
trap 'rm -f "$records"' EXIT
trap 'exit 2' HUP INT TERM
python3 "$root/scripts/make_job.py" --records "$1" >"$records" || exit
run known <"$records"
