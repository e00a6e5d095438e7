#!/bin/bash
# Stands in for the program where engines are tried: one call of N, drawn, is killed.
#
#     now_and_then_killed.sh PROGRAM CALLS N WORD..
#
# Calls PROGRAM with these words. Where it is to be killed, a drawn first part of the record is written, and then this process
# kills itself by SIGKILL. Each call adds a line to the file CALLS, `called`, and one that is killed another, `killed`.
[ $# -ge 4 ] || { sed -n '2,/^[^#]/s/^# \{0,1\}//p' "$0" >&2; exit 2; }
program=$1 calls=$2 one_in=$3
shift 3
echo called >>"$calls"
[ $((RANDOM % one_in)) -eq 0 ] || exec "$program" "$@"
"$program" "$@" 2>/dev/null | head -c $((RANDOM % 200))
echo killed >>"$calls"
kill -KILL $$
