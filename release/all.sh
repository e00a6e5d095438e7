#!/bin/sh
# From the gate's log to packages that were made twice, checked and used: all that a release wants, in one command.
#
#     rt ci --anew >../LOG 2>&1 && release/all.sh ../LOG FOLDER [--trial] [--days N] [--parts FOLDER] [--roots FOLDER]
#
#  1. what the gate left is taken (dev/proved_libraries.py);
#  2. logs that are forged out of LOG are refused, and LOG is not (forged.py);
#  3. every package is made for both machines, twice, and is the same (make.py); with --parts FOLDER it is compiled once
#     into that folder, and packed twice;
#  4. the certificate fits the tree and LOG (verify.sh);
#  5. the packages are installed in clean places and used, with N drawn days on both machines, 5000 where none is said
#     (test.sh);
#  6. apt installs them on a fresh Debian of each machine (fresh.sh; a machine is skipped by name where no network is).
#
# Without a licence it wants --trial. It ends with another status than 0 at the first thing that is not as wanted.
set -eu
here=$(cd "$(dirname "$0")" && pwd)
top=$(dirname "$here")
case ${1:-} in
'' | -h | --help) sed -n '2,/^set -eu/s/^# \{0,1\}//p' "$0" && exit 2 ;;
esac
log=$(realpath "$1") folder=$(realpath -m "${2:?which folder}")
shift 2
trial='' days=5000 parts='' roots=''
while [ $# -gt 0 ]; do
    case $1 in
    --trial) trial=--trial ;;
    --days) days=$2 && shift ;;
    --parts) parts=$(realpath -m "$2") && shift ;;
    --roots) roots=$(realpath -m "$2") && shift ;;
    *) echo "release: what is $1?" >&2 && exit 2 ;;
    esac
    shift
done
[ -n "$roots" ] || { roots=$(mktemp -d) && trap 'rm -rf "$roots"' EXIT; }
cd "$top"
say() { echo "release: $*"; }
say "1. what the gate left"
python3 -m dev.proved_libraries
say "2. forged logs"
python3 -m release.forged "$log"
say "3. the packages, twice"
# shellcheck disable=SC2086
python3 -m release.make "$folder" --log "$log" $trial --debian "$roots/debian" ${parts:+--parts "$parts"}
say "4. the certificate"
"$here/verify.sh" "$folder/certificate" "$top" --log "$log"
say "5. the packages in use"
"$here/test.sh" "$folder" --roots "$roots" --days "$days"
say "6. a fresh Debian"
got=0
"$here/fresh.sh" "$folder" --roots "$roots" || got=$?
[ "$got" = 0 ] || [ "$got" = 3 ] || exit "$got"
say "all as wanted: $folder"
[ "$got" = 0 ] || say "and what fresh.sh names above was skipped"
