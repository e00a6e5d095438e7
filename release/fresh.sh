#!/bin/sh
# On a fresh Debian, for x86-64 and for aarch64 by qemu:
#
#     apt install ./lazbendix_*.deb && lazbendix replay examples/one-light.json
#
#     release/fresh.sh PACKAGES [--roots FOLDER] [--only MACHINE]
#
# mmdebstrap makes the fresh Debian, of bookworm's smallest set with apt, in namespaces of its own, so that nothing is
# mounted or registered outside of them. FOLDER keeps it packed; each test unpacks it anew. It wants root, a network,
# mmdebstrap, and qemu-user-static for aarch64. A machine for which one of these is not there is skipped by name.
#
# It ends with 1 where the record is another one or apt refuses the package, and with 3 where a machine was skipped.
set -eu
here=$(cd "$(dirname "$0")" && pwd)
top=$(dirname "$here")
LC_ALL=C
export LC_ALL
packages='' roots='' machines='x86_64 aarch64' skipped=0
while [ $# -gt 0 ]; do
    case $1 in
    --roots) roots=$2 && shift ;;
    --only) machines=$2 && shift ;;
    *) packages=$(cd "$1" && pwd) ;;
    esac
    shift
done
[ -n "$packages" ] || { sed -n '2,/^set -eu/s/^# \{0,1\}//p' "$0" && exit 2; }
room=$(mktemp -d)
trap 'cd / && rm -rf "$room"' EXIT
trap 'exit 1' INT TERM HUP
[ -n "$roots" ] || roots=$room/roots
mkdir -p "$roots"
roots=$(cd "$roots" && pwd)
say() { echo "fresh: $*"; }
skip() {
    say "SKIPPED: $*"
    skipped=3
}

# apart COMMAND: as root of a user namespace that has all users, with mounts and processes of its own, where programs for
# aarch64 run by qemu. (Root outside writes which users there are, so no program for that is wanted.)
elf='\x7fELF\x02\x01\x01\x00\x00\x00\x00\x00\x00\x00\x00\x00\x02\x00\xb7\x00'
mask='\xff\xff\xff\xff\xff\xff\xff\x00\xff\xff\xff\xff\xff\xff\xff\xff\xfe\xff\xff\xff'
apart() {
    at=$(mktemp -d "$room/apart-XXXXXX")
    mkfifo "$at/up" "$at/go"
    qemu=$(command -v qemu-aarch64-static || true)
    # shellcheck disable=SC2016
    unshare --user --mount --pid --fork --kill-child sh -c '
        at=$1 qemu=$2 rule=$3
        shift 3
        echo up >"$at/up" && read -r _ <"$at/go" && mount -t proc proc /proc || exit 125
        if [ -n "$qemu" ]; then
            mount -t binfmt_misc binfmt_misc /proc/sys/fs/binfmt_misc &&
                printf %s "$rule" >/proc/sys/fs/binfmt_misc/register || exit 126
        fi
        exec "$@"' sh "$at" "$qemu" ":aarch64:M::$elf:$mask:$qemu:F" "$@" &
    pid=$!
    read -r _ <"$at/up"
    echo 0 0 65536 >"/proc/$pid/uid_map" && echo 0 0 65536 >"/proc/$pid/gid_map" || return 125
    echo go >"$at/go"
    wait "$pid"
}

# made DEBIAN: the fresh Debian for that machine, packed
made() {
    [ ! -f "$roots/fresh-$1.tar" ] || return 0
    apart mmdebstrap --quiet --mode=root --variant=apt --skip=check/qemu --architectures="$1" \
        --dpkgopt=force-unsafe-io --aptopt='Acquire::Languages "none"' --include=usr-is-merged \
        --hook-dir=/usr/share/mmdebstrap/hooks/merged-usr bookworm "$room/fresh-$1.tar" >"$room/said" 2>&1 &&
        mv "$room/fresh-$1.tar" "$roots"
}

cat >"$room/in-root.sh" <<'END_OF_ROOT'
set -e
mount --rbind /dev "$1/dev"
mount -t proc proc "$1/proc"
cp /etc/resolv.conf "$1/etc/resolv.conf"
exec chroot "$1" /usr/bin/env -i PATH=/usr/sbin:/usr/bin:/sbin:/bin HOME=/root LC_ALL=C.UTF-8 DEBIAN_FRONTEND=noninteractive \
    /bin/sh -ec '
cd /root
apt-get -qq update >said 2>&1 || { cat said >&2 && exit 3; }
apt-get install -qq -y --no-install-recommends ./lazbendix_*.deb >said 2>&1 || { cat said >&2 && exit 1; }
lazbendix replay examples/one-light.json
# what else a user has at once: the page of the manual, the library, the package whole, and its end
test -s /usr/share/man/man1/lazbendix.1.gz && lazbendix --version >/dev/null
python3 -c "from lazbendix import Hub"
test -z "$(dpkg --verify lazbendix)"
apt-get -qq -y remove lazbendix >said 2>&1 && test ! -e /usr/bin/lazbendix'
END_OF_ROOT

[ "$(id -u)" = 0 ] || { skip "no root: nothing was tried" && exit 3; }
command -v mmdebstrap >/dev/null || { skip "mmdebstrap is not there: nothing was tried" && exit 3; }
apart true || { skip "this kernel gives no user namespace: nothing was tried" && exit 3; }
for machine in $machines; do
    case $machine in
    x86_64) debian=amd64 ;;
    *) debian=arm64 ;;
    esac
    if [ "$machine" != "$(uname -m)" ] && ! command -v "qemu-$machine-static" >/dev/null; then
        skip "qemu-$machine-static is not there: $machine was not tried"
        continue
    fi
    if ! made "$debian"; then
        grep '^[EW]:' "$room/said" | head -n 3 || true
        skip "mmdebstrap made no Debian (is there a network?): $machine was not tried"
        continue
    fi
    root=$room/$debian
    mkdir -p "$root"
    apart tar -x --numeric-owner -f "$roots/fresh-$debian.tar" -C "$root" --exclude=./dev/*
    cp "$packages"/lazbendix_*_"$debian".deb "$root/root"
    cp -r "$top/examples" "$root/root/examples"
    got=0
    apart sh "$room/in-root.sh" "$root" >"$room/wrote" 2>"$room/said" || got=$?
    apart rm -rf "$root"
    case $got in
    0) ;;
    3)
        tail -n 3 "$room/said"
        skip "apt finds no network: $machine was not tried"
        continue
        ;;
    *)
        tail -n 20 "$room/said" >&2
        say "on a fresh Debian for $machine it ended with $got" >&2
        exit 1
        ;;
    esac
    cmp "$room/wrote" "$top/examples/one-light.record" || { say "another record on $machine" >&2 && exit 1; }
    say "$machine: apt install ./lazbendix_*_$debian.deb && lazbendix replay examples/one-light.json: the record of README"
done
exit "$skipped"
