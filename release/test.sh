#!/bin/sh
# Installs the packages of a folder into clean places, for x86-64 and aarch64, and uses them.
#
#     release/test.sh [PACKAGES] [--roots FOLDER] [--days N]
#     release/test.sh --built
#
# With no PACKAGES it makes them of an unproved build, compiled once and packed twice. FOLDER keeps what debootstrap and
# apt-get fetched. N drawn days, 60 where none is said, are played by both machines' programs and libraries. It wants
# root, debootstrap, gcc for both machines, qemu-user-static, cmake, pkg-config and musl-gcc, and has apt-get install
# what is not there; the crate is tried where cargo is.
#
# With --built the packages are those for x86-64 of what the gate and library/build.sh left, packed twice. They are
# unpacked, and not installed; nothing is fetched; cmake and pkg-config are asked where they are there.
#
# It ends with another status than 0 at the first thing that is not as wanted.
set -eu
here=$(cd "$(dirname "$0")" && pwd)
top=$(dirname "$here")
LC_ALL=C PYTHONDONTWRITEBYTECODE=1
export LC_ALL PYTHONDONTWRITEBYTECODE
packages='' roots='' days=60 built='' machines='x86_64 aarch64'
while [ $# -gt 0 ]; do
    case $1 in
    --roots) roots=$2 && shift ;;
    --days) days=$2 && shift ;;
    --built) built=1 machines=x86_64 ;;
    *) packages=$1 ;;
    esac
    shift
done
room=$(mktemp -d)
trap 'test $? -eq 0 || echo "release: the tests ended here" >&2; rm -rf "$room"' EXIT
trap 'exit 1' INT TERM HUP
said=$room/said
say() { echo "release: $*"; }
fail() {
    echo "release: $*" >&2
    exit 1
}
# tries WHAT WORD ..: this command ends with 0; else what it said is shown
tries() {
    what=$1
    shift
    "$@" >"$said" 2>&1 && return
    tail -n 20 "$said" >&2
    fail "$what is not as wanted"
}
has() { command -v "$1" >/dev/null || { say "$1 is not there" && return 1; }; }
wanted=''
[ -n "$built" ] || for pair in qemu-aarch64-static:qemu-user-static aarch64-linux-gnu-gcc:gcc-aarch64-linux-gnu cc:gcc \
    debootstrap:debootstrap cmake:cmake pkg-config:pkg-config musl-gcc:musl-tools unshare:util-linux; do
    command -v "${pair%%:*}" >/dev/null || wanted="$wanted ${pair#*:}"
done
[ -n "$built" ] || [ -f /usr/aarch64-linux-gnu/include/stdint.h ] || wanted="$wanted libc6-dev-arm64-cross"
# shellcheck disable=SC2086
[ -z "$wanted" ] || timeout 300 apt-get install -y --no-install-recommends $wanted >"$said" 2>&1 ||
    fail "these are not there, and cannot be installed:$wanted"
[ -n "$roots" ] || roots=$room/roots
mkdir -p "$roots"
roots=$(cd "$roots" && pwd)
if [ -n "$built" ]; then
    say "packages of what the gate left"
    packages=$room/packages
    tries "make.py" env PYTHONPATH="$top" python3 -m release.make "$packages" --built
elif [ -z "$packages" ]; then
    say "packages of an unproved build"
    packages=$room/packages
    tries "make.py" env PYTHONPATH="$top" python3 -m release.make "$packages" --unproved --debian "$roots/debian" --parts "$room/parts"
fi
packages=$(cd "$packages" && pwd)
one() { # PATTERN: the one package of that name
    # shellcheck disable=SC2086
    set -- "$packages"/$1
    [ -f "$1" ] && [ $# = 1 ] || fail "not one package: $*"
    echo "$1"
}
# foreign COMMAND: in namespaces of its own, where programs of aarch64 run by qemu
elf='\x7fELF\x02\x01\x01\x00\x00\x00\x00\x00\x00\x00\x00\x00\x02\x00\xb7\x00'
mask='\xff\xff\xff\xff\xff\xff\xff\x00\xff\xff\xff\xff\xff\xff\xff\xff\xfe\xff\xff\xff'
foreign() {
    unshare -Urm sh -c 'mount -t binfmt_misc binfmt_misc /proc/sys/fs/binfmt_misc &&
        printf %s "$1" >/proc/sys/fs/binfmt_misc/register && shift && exec "$@"' \
        sh ":aarch64:M::$elf:$mask:$(command -v qemu-aarch64-static):F" "$@"
}
natively() { "$@"; }
# plays WHAT RUNNER WORD ..: this program, or command, plays each example as it stands
plays() {
    what=$1
    shift
    for words in "$top"/examples/*.words; do
        # shellcheck disable=SC2046
        "$@" $(sed 's/ < .*//' "$words") <"$top/examples/$(sed 's/.* < //' "$words")" >"$room/wrote" 2>"$said" ||
            fail "$what ended with $? at $words: $(cat "$said")"
        cmp "$room/wrote" "${words%.words}.record" || fail "$what has another record of $words"
    done
}

# unpacked FOLDER: the command of the Debian package that is unpacked there, and of the wheel, play README's day
unpacked() {
    plays "the program of the Debian package" "$1/deb/usr/libexec/lazbendix/hub_main"
    pythons=$1/deb/usr/lib/python3/dist-packages
    if python3 -m pip --version >/dev/null 2>&1; then
        say "x86_64: the wheel"
        tries "pip" python3 -m pip install --no-index --no-deps --target "$1/wheel" "$(one 'lazbendix-*manylinux*.whl')"
        pythons="$pythons $1/wheel"
    else
        say "pip is not there"
    fi
    for python in $pythons; do
        for day in one-light leaving; do
            (cd "$1" && PYTHONPATH=$python python3 -m lazbendix replay --trace "$top/examples/$day.json") >"$room/wrote" ||
                fail "the command of $python ended with $?"
            grep -v '^#' "$room/wrote" >"$room/lines"
            grep -v '^#' "$top/examples/$day.record" | cmp - "$room/lines" || fail "$python has another record of $day"
        done
        PYTHONPATH=$python python3 -c 'from lazbendix import Hub; print(Hub)' >"$said" || fail "there is no Hub in $python"
    done
}

say "the certificate"
certificate=$(one certificate)
state=$(sed -n 's/^state //p' "$certificate")
got=0
"$here/verify.sh" "$certificate" "$top" >"$said" 2>&1 || got=$?
case $state:$got in
proved:0 | UNPROVED:2) ;;
*) cat "$said" >&2 && fail "verify.sh ended with $got, and the certificate says $state" ;;
esac
tries "what is refused of logs and certificates" env PYTHONPATH="$top" python3 -m unittest release.test_certificate

for machine in $machines; do
    case $machine in
    x86_64) debian=amd64 runner=natively cc=cc qemu='' ;;
    *) debian=arm64 runner=foreign cc=aarch64-linux-gnu-gcc qemu=qemu-aarch64-static ;;
    esac
    own=$room/$machine
    mkdir "$own"

    say "$machine: the archive"
    tar -xzf "$(one "lazbendix-*-$machine-linux.tar.gz")" -C "$own"
    set -- "$own"/lazbendix-*
    at=$1
    (cd "$at" && sha256sum --quiet -c SHA256SUMS) || fail "the archive's checksums differ"
    # shellcheck disable=SC2086
    plays "the static program for $machine" $qemu "$at/bin/hub_main"
    if [ "$machine" = "$(uname -m)" ]; then
        tries "the archive's lazbendix doctor" "$at/lazbendix" doctor
        grep -q "library: $at/" "$said" && grep -q "program: $at/bin/" "$said" ||
            fail "the archive's command has another program or library: $(cat "$said")"
    fi
    # (the library of the packages for a C program: by pkg-config, and by CMake)
    cp "$top/library/examples/window.c" "$own/window.c"
    sed -i 's,"../lazbendix.h",<lazbendix.h>,' "$own/window.c"
    programs=''
    if has pkg-config; then
        flags=$(PKG_CONFIG_PATH=$at/lib/pkgconfig pkg-config --cflags --libs lazbendix)
        # shellcheck disable=SC2086
        tries "$cc by pkg-config" $cc "$own/window.c" $flags -Wl,-rpath,"$at/lib" -o "$own/window"
        programs=$own/window
    fi
    cat >"$own/CMakeLists.txt" <<'END'
cmake_minimum_required(VERSION 3.13)
project(uses C)
find_package(lazbendix 1.0 REQUIRED)
add_executable(by_shared window.c)
target_link_libraries(by_shared PRIVATE lazbendix::lazbendix)
add_executable(by_static window.c)
target_link_libraries(by_static PRIVATE lazbendix::static)
END
    if has cmake; then
        tries "CMake's find_package" cmake -S "$own" -B "$own/build" -DCMAKE_C_COMPILER=$cc -DCMAKE_PREFIX_PATH="$at" \
            -DCMAKE_SYSTEM_NAME=Linux -DCMAKE_FIND_ROOT_PATH="$at"
        tries "CMake's build" cmake --build "$own/build"
        programs="$programs $own/build/by_shared $own/build/by_static"
    fi
    record=$room/window.record
    for program in $programs; do
        # shellcheck disable=SC2086
        ${qemu:+$qemu -L /usr/aarch64-linux-gnu} "$program" <"$top/examples/leaving.json" >"$room/wrote" ||
            fail "$program ended with $?"
        [ -f "$record" ] || cp "$room/wrote" "$record"
        cmp "$room/wrote" "$record" || fail "$program writes something else"
    done
    shown=$(readelf -W --dyn-syms "$at"/lib/liblazbendix.so.1 |
        awk '$5 == "GLOBAL" && $7 != "UND" {print $8}' | sed 's/@.*//')
    [ -z "$(echo "$shown" | grep -v '^lazbendix_\|^LAZBENDIX_')" ] || fail "the shared object shows other names: $shown"

    say "$machine: the Debian package"
    dpkg-deb -x "$(one "lazbendix_*_$debian.deb")" "$own/deb"
    if [ -n "$built" ]; then
        unpacked "$own"
        continue
    fi
    root=$roots/$debian-$machine
    if [ ! -x "$root/usr/bin/python3" ]; then
        rm -rf "$root"
        tries "debootstrap" debootstrap --foreign --arch="$debian" --variant=minbase --include=python3 bookworm "$root"
        for it in "$root"/var/cache/apt/archives/*.deb; do # (the first stage unpacks no more than what it wants itself)
            dpkg-deb --fsys-tarfile "$it" | tar -x --keep-directory-symlink -C "$root" || fail "$it cannot be unpacked"
        done
    fi
    rm -rf "$root/tmp/day" && mkdir -p "$root/tmp/day" "$root/proc"
    cp "$(one "lazbendix_*_$debian.deb")" "$root/tmp/day/lazbendix.deb"
    cp "$top"/examples/*.json "$root/tmp/day"
    # (unpacked and not configured, so what it depends on is there and dpkg does not know)
    cat >"$root/tmp/day/try.sh" <<'END'
set -e
cd /tmp/day
export PATH=/usr/sbin:/usr/bin:/sbin:/bin
dpkg --force-depends --force-script-chrootless -i lazbendix.deb >said 2>&1 || { cat said >&2; exit 1; }
lazbendix replay one-light.json
[ -n "$FEW" ] || lazbendix doctor >doctor || { cat doctor >&2; exit 1; }
[ -n "$FEW" ] || grep -q 'usr/lib.*hub_main' doctor
python3 -c 'from lazbendix import Hub; print(Hub)' >/dev/null
test -s /usr/share/man/man1/lazbendix.1.gz
dpkg --force-depends -r lazbendix >said 2>&1
test ! -e /usr/bin/lazbendix
END
    # (the Python of another machine is slow)
    if "$runner" true 2>/dev/null; then
        FEW=$qemu "$runner" chroot "$root" /bin/sh /tmp/day/try.sh >"$room/wrote" 2>"$said" ||
            { cat "$said" >&2 && fail "the Debian package for $debian"; }
        cmp "$room/wrote" "$top/examples/one-light.record" || fail "the Debian package's lazbendix has another record"
    else
        say "this kernel runs no program of $machine in a root: that of the Debian package is tried, its installation not"
    fi
    # shellcheck disable=SC2086
    plays "the program of the Debian package for $debian" ${qemu:+$qemu -L "$root"} \
        "$own/deb/usr/libexec/lazbendix/hub_main"
    flags=$(PKG_CONFIG_PATH=$own/deb/usr/lib/$machine-linux-gnu/pkgconfig pkg-config --cflags --libs lazbendix)
    # shellcheck disable=SC2086
    tries "$cc by the Debian package's pkg-config" $cc "$own/window.c" $flags -o "$own/window-deb"

    say "$machine: the wheel"
    wheel=$(one "lazbendix-*manylinux*_$machine.whl")
    for platform in manylinux_2_17_$machine musllinux_1_1_$machine; do
        tries "pip, for $platform" python3 -m pip install --no-index --no-deps --only-binary=:all: --platform "$platform" \
            --target "$own/$platform" "$wheel"
    done
    mkdir -p "$root/tmp/day" && rm -rf "$root/tmp/wheel" && cp -r "$own/manylinux_2_17_$machine" "$root/tmp/wheel"
    "$runner" true 2>/dev/null || continue
    "$runner" chroot "$root" /usr/bin/env PYTHONPATH=/tmp/wheel /usr/bin/python3 -c '
import subprocess, sys
from lazbendix import Hub
from lazbendix.program import found_program
assert found_program() == "/tmp/wheel/lazbendix/bin/hub_main", found_program()
sys.stdout.flush()
sys.exit(subprocess.run([sys.executable, "-m", "lazbendix", "replay", "/tmp/day/one-light.json"]).returncode)
' >"$room/wrote" 2>"$said" || { cat "$said" >&2 && fail "the wheel for $machine"; }
    cmp "$room/wrote" "$top/examples/one-light.record" || fail "the wheel's lazbendix has another record"
done

if [ -z "$built" ]; then
    say "musl: the wheel's library, by a C program"
    library=$room/x86_64/musllinux_1_1_x86_64/lazbendix/liblazbendix.so
    tries "musl-gcc" musl-gcc -I "$top/library" "$room/x86_64/window.c" "$library" \
        -Wl,-rpath,"$room/x86_64" -o "$room/x86_64/window-musl"
    cp "$library" "$room/x86_64/liblazbendix.so.1"
    "$room/x86_64/window-musl" <"$top/examples/leaving.json" | cmp - "$room/window.record" || fail "the library under musl"
fi

if command -v cargo >/dev/null; then
    say "the crate"
    # (its tests read the examples and VERSION three folders above them)
    mkdir -p "$room/rust/crate" && ln -s "$top/examples" "$top/VERSION" "$room"
    tar -xzf "$(one 'lazbendix-*.crate')" -C "$room/rust/crate" --strip-components=1
    mkdir -p "$room/uses/src"
    cat >"$room/uses/Cargo.toml" <<'END'
[package]
name = "uses"
version = "0.1.0"
edition = "2021"

[dependencies]
lazbendix = { path = "../rust/crate" }

[workspace]
END
    cat >"$room/uses/src/main.rs" <<'END'
use lazbendix::{Hub, Mode};
fn main() {
    let script = std::fs::read(std::env::args().nth(1).unwrap()).unwrap();
    let hub = Hub::open(&script, Mode::default());
    println!("{}", if hub.is_ok() { "open" } else { "refused" });
}
END
    tries "cargo build" env CARGO_TARGET_DIR="$room/target" cargo build -q --offline --manifest-path "$room/uses/Cargo.toml"
    [ "$("$room/target/debug/uses" "$top/examples/leaving.json")" = open ] || fail "the crate does not open a home"
    if [ -n "$built" ]; then
        :
    elif ! foreign true 2>/dev/null; then
        say "SKIPPED: this kernel runs no program of aarch64 as its own: the crate was not tried there"
    elif PYTHONPATH=$top python3 -m release.rust "$roots/rust" >"$said" 2>&1; then
        say "aarch64: the tests of the crate, over $days drawn days"
        python3 "$top/library/tests/cases.py" --days "$days" >"$room/cases"
        python3 "$top/library/tests/cases.py" --days "$days" --coming >"$room/coming"
        set -- "$room"/x86_64/lazbendix-*/lib/liblazbendix.so.1
        tries "logs that x86-64 writes" env LAZBENDIX_LIBRARY="$1" python3 "$top/library/tests/python/written_logs.py" "$room/logs"
        tries "cargo test" foreign env QEMU_LD_PREFIX=/usr/aarch64-linux-gnu CARGO_TARGET_DIR="$room/target" \
            RUSTC="$roots/rust/rustc" RUSTDOC="$roots/rust/rustdoc" LAZBENDIX_CASES="$room/cases" \
            LAZBENDIX_COMING="$room/coming" LAZBENDIX_LOGS="$room/logs" \
            CARGO_TARGET_AARCH64_UNKNOWN_LINUX_GNU_LINKER=aarch64-linux-gnu-gcc \
            cargo test --offline --target aarch64-unknown-linux-gnu --manifest-path "$room/rust/crate/Cargo.toml"
        grep '^test .*ok$' "$said"
    else
        tail -n 1 "$said"
        say "SKIPPED: apt-get brings no Rust for aarch64: the crate was not tried there"
    fi
else
    say "cargo is not there: the crate was not tried"
fi

[ -z "$built" ] || { say "all as wanted" && exit; }
say "$days drawn days, the two machines side by side"
tries "drawn days" env PYTHONPATH="$top" python3 -m release.drawn_days "$days" "$room/x86_64"/lazbendix-* "$room/aarch64"/lazbendix-*
cat "$said"
say "all as wanted"
