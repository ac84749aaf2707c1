#!/bin/sh
# A fresh clone of the repository $1, in the folder $2, answers in 90 seconds, tells a fault, and checks what it said.
# `checks` beside this runs it.
set -e
git clone -q "$1" "$2/clone"
cd "$2/clone"
began=$(date +%s)
timeout --foreground 90 ./try <examples/first.script >"$2/transcript" || {
    echo "no first answer"
    exit 1
}
echo "the first answer took $(($(date +%s) - began)) seconds"
cmp "$2/transcript" examples/first.transcript
status=0
echo "0 bad" | ./try >"$2/faulty" || status=$?
[ "$status" = 2 ]
grep "^fault 1 " "$2/faulty"
./try check <"$2/transcript" >"$2/verdict"
[ "$(cat "$2/verdict")" = yes ]
