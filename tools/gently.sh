#!/bin/sh
# `gently.sh COMMAND..` runs a command below the priority of others. Where the system groups processes by session, the
# group has it too. side_by_side.py beside this calls it.
for _ in 1 2 3; do
    { echo 10 >/proc/self/autogroup; } 2>/dev/null && break
    sleep 0.2
done
exec nice -n 10 "$@"
