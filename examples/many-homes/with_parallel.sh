#!/bin/sh
# GNU parallel: a job for each home of a folder that has no record yet.
#
#     with_parallel.sh PROGRAM FOLDER [MACHINES]
#
# MACHINES is what `--sshlogin` takes, as `one,two` or `2/one,4/two`, which tells the jobs at a time; by default this machine
# alone, without ssh. The machines need ssh, rsync and no common disk: program and play.sh go there once, each script goes there, its
# record comes back, and the script and the record are removed there. A job that fails or is killed is played again, on another
# machine where there is one, up to ten times. FOLDER.joblog tells how each job of the last call ended.
#
# Call it again where parallel itself was killed, and also where a machine was lost: parallel judges a job by its status alone,
# so a record that was lost on its way back is only seen to be missing.
[ $# -ge 2 ] || { sed -n '2,/^[^#]/s/^# \{0,1\}//p' "$0" >&2; exit 2; }
here=$(cd "$(dirname "$0")" && pwd)
program=$(realpath "$1")
joblog=$(realpath "$2").joblog
name=$(basename "$program")
cd "$2" || exit
if [ -n "$3" ]; then
    set -- --sshlogin "$3" --workdir "${WORKDIR:-many-homes}" --basefile "$(dirname "$program")/./$name" \
        --basefile "$here/./play.sh" --transferfile {} --return {.}.record --cleanup sh play.sh "./$name"
else
    set -- --jobs "${JOBS:-2}" sh "$here/play.sh" "$program"
fi
find . -name '*.json' | sed 's,^\./,,' | sort |
    while read -r script; do [ -e "${script%.json}.record" ] || echo "$script"; done |
    parallel --retries 10 --joblog "$joblog" "$@" {.}
