#!/bin/sh
# Installs what the hub needs from Debian or Ubuntu, and puts the command lazbendix-hub into /usr/local/bin. Run it as root.
# Where there is no library (library.sh says where it is looked for), one is built unproved, which wants `rt`, cc and ar.
#
#     sh hub/setup.sh [--tests]
#
# --tests installs what tests want, too: mypy, and chromium for the page. It ends with 1 where something is missing in the end.
set -eu
here=$(cd "$(dirname "$0")" && pwd)
say() { echo "setup: $*" >&2; }
absent() { # the packages that are not installed
    for each in "$@"; do
        [ "$(dpkg-query -W -f='${db:Status-Status}' "$each" 2>/dev/null)" = installed ] || printf ' %s' "$each"
    done
}
apt() { DEBIAN_FRONTEND=noninteractive apt-get -o Acquire::Retries=2 -o Acquire::http::Timeout=30 "$@"; }
fetch() { # PACKAGE ..: installs them; where the lists are old or none, these are fetched first
    # shellcheck disable=SC2046
    [ -z "$(absent "$@")" ] || apt install -y --no-install-recommends $(absent "$@") >&2 ||
        { apt update >&2 && apt install -y --no-install-recommends $(absent "$@") >&2; } || return 1
}
wanted="mosquitto python3 python3-paho-mqtt python3-aiohttp python3-croniter python3-yaml python3-prometheus-client"
[ "${1:-}" != --tests ] || wanted="$wanted mypy"
# shellcheck disable=SC2086
if ! fetch $wanted; then
    say "not there, and not to be installed (is there a network, and is this root?):$(absent $wanted)"
    exit 1
fi
[ "${1:-}" != --tests ] || command -v chromium >/dev/null || fetch chromium fonts-dejavu-core ||
    say "chromium cannot be installed: the page is not tried"
. "$here/library.sh"
if [ -z "${LAZBENDIX_LIBRARY:-}" ]; then
    command -v rt >/dev/null || { say "there is no library: install the package lazbendix, or build it by library/build.sh"; exit 1; }
    say "building the library, unproved: this takes some minutes"
    (cd "$here/.." && python3 -m dev.unproved_build "$here/out" library)
fi
ln -sf "$here/lazbendix-hub" /usr/local/bin/lazbendix-hub
say "lazbendix-hub is there; try: lazbendix-hub demo"
