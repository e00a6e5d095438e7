#!/bin/sh
# Plays a share of the homes in a folder: of COUNT shares the one of this INDEX, from 0.
#
#     play_share.sh PROGRAM FOLDER INDEX COUNT
#
# A home that has its record is passed over, so a share that is played again makes up for what was lost and no more. Ends with
# the greatest status of its homes: above 128 where a program was killed, 1 where the worst is a script that is refused.
[ $# -ge 4 ] || { sed -n '2,/^[^#]/s/^# \{0,1\}//p' "$0" >&2; exit 2; }
here=$(dirname "$0")
worst=0
for script in $(find "$2" -name '*.json' | sort | awk -v count="$4" -v index_="$3" 'NR % count == index_'); do
    home=${script%.json}
    if [ ! -e "$home.record" ]; then
        sh "$here/play.sh" "$1" "$home"
        status=$?
        [ "$status" -le "$worst" ] || worst=$status
    fi
done
exit "$worst"
