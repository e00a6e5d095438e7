#!/bin/sh
# Plays the day of one home.
#
#     play.sh PROGRAM HOME
#
# The script is HOME.json. HOME.record is there when the whole record is, and not before, so whoever kills this call leaves no
# record that is cut, and may play the home again, here or elsewhere: a replay has the same record each time. Ends with the
# program's status.
[ $# -ge 2 ] || { sed -n '2,/^[^#]/s/^# \{0,1\}//p' "$0" >&2; exit 2; }
part=$(mktemp "$2.part.XXXXXX") || exit
"$1" replay <"$2.json" >"$part"
status=$?
if [ "$status" -eq 0 ]; then
    mv "$part" "$2.record"
else
    rm -f "$part"
    exit "$status"
fi
