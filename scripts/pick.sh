#!/bin/sh
# scripts/pick.sh JOB runs a job. program.sh says what its status means.
. "$(dirname -- "$0")/program.sh"
[ $# -eq 1 ] || fail 2 "usage: $name JOB"
[ -e "$1" ] || fail 2 "$1: no such file"
[ ! -d "$1" ] || fail 2 "$1 is a directory"
[ -r "$1" ] || fail 2 "$1 cannot be read"
run pick <"$1"
