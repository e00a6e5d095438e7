#!/bin/sh
# Checks the certificate of a release: derives the checksums of the sources anew, and says what proves them again.
#
#     release/verify.sh CERTIFICATE [TREE] [--log LOG]
#
# TREE is the repository at the release's commit, this one where none is named. With LOG, what `rt ci --anew` printed
# there, each verdict of the certificate has to stand in it, and the code that the gate left has to be the certified one.
# Where packages stand beside the certificate with their SHA256SUMS, they are looked at too.
#
# Ends with 0 where all fits and is said to be proved; with 1 where something differs; with 2 where all fits and the
# certificate itself says that nothing was proved.
set -u
LC_ALL=C
export LC_ALL
case ${1:-} in
'' | -h | --help) sed -n '2,/^set -u/s/^# \{0,1\}//p' "$0" && exit ;;
esac
certificate=$1 tree='' log=''
shift
while [ $# -gt 0 ]; do
    case $1 in
    --log) log=${2:?which log} && shift ;;
    *) tree=$1 ;;
    esac
    shift
done
[ -n "$tree" ] || tree=$(cd "$(dirname "$0")/.." && pwd)
bad=0
differs() {
    echo "verify: $*" >&2
    bad=1
}
word() { sed -n "s/^$1 //p" "$certificate" | head -n 1; }
[ "$(head -n 1 "$certificate")" = 'lazbendix-certificate 1' ] || { differs "$certificate is no certificate"; exit 1; }
state=$(word state)

# An archive has the certificate and this program, and no sources.
ls -d "$tree"/crates/*/src >/dev/null 2>&1 || {
    differs "$tree has no sources: check out commit $(word commit) of the repository, and name its folder"
    exit 1
}

# The crates, and no others.
sed -n 's/^crate \([^ ]*\) .*/\1/p' "$certificate" | sort >"${TMPDIR:-/tmp}/verify-$$"
sed 's/#.*//' "$tree/crates.txt" | sed -n 's/^\([A-Za-z0-9_]*\)[^:]*:.*/\1/p' | sort |
    cmp -s - "${TMPDIR:-/tmp}/verify-$$" || differs "the crates of $tree are not those of the certificate"
rm -f "${TMPDIR:-/tmp}/verify-$$"
[ "$(word 'tree crates.txt')" = "$(sha256sum <"$tree/crates.txt" | cut -d ' ' -f 1)" ] || differs 'crates.txt differs'
[ "Handles allowed: $(word handles)." = "$(cat "$tree/HANDLES")" ] || differs 'HANDLES differs'

# Their sources; and where a gate has left its libraries here, the code that was proved.
crates=0 codes=0
for line in $(sed -n 's/^crate \([^ ]*\) sources=\([^ ]*\) code=\([^ ]*\) .*/\1:\2:\3/p' "$certificate"); do
    name=${line%%:*} rest=${line#*:}
    folder=$tree/crates/$name code=${rest#*:}
    # (each file's checksum and path, as sha256sum prints them, in the order of the paths)
    found=$(cd "$folder" 2>/dev/null && find src specs proofs must-fail -type f 2>/dev/null | sort | tr '\n' '\0' |
        xargs -0 -r sha256sum | sha256sum | cut -d ' ' -f 1)
    [ "$found" = "${rest%%:*}" ] || differs "the sources of $name are not those of the certificate"
    crates=$((crates + 1))
    mir=$folder/out/rlib/$name.rlib/toolchain/mir.json
    if [ "$code" != - ] && [ -f "$mir" ]; then
        [ "$(sha256sum <"$mir" | cut -d ' ' -f 1)" = "$code" ] || differs "the code of $name is not the certified one"
        codes=$((codes + 1))
    fi
    if [ "$state" = proved ]; then
        said=$(sed -n "s/^verdict $name //p" "$certificate")
        case $said in
        "logic=proved functions="*" sum=$(word logic | cut -c 1-16) "*) ;;
        *) differs "the certificate has no verdict of $name in its logic" ;;
        esac
        if [ -n "$log" ]; then
            again=$(awk -v of="$name" '/^== /{in_it = $0 == "== " of} in_it && /^logic=proved /{print}' "$log")
            [ "$again" = "$said" ] || differs "the log's verdict of $name is '$again', the certificate's '$said'"
        fi
    fi
done
echo "verify: $crates crates, the code of $codes libraries"

# The kit.
if command -v rt >/dev/null; then
    [ "$(rt version)" = "$(word kit)" ] || differs "the kit here is $(rt version), the certificate's $(word kit)"
    kit=$(dirname "$(rt doc)")
    sed -n 's/^file //p' "$certificate" | while read -r path sum; do
        [ "$(sha256sum <"$kit/$path" | cut -d ' ' -f 1)" = "$sum" ] || echo "$path"
    done | grep . && differs 'these files of the kit are others'
else
    echo 'verify: there is no rt on the PATH: the kit was not looked at'
fi
beside=$(dirname "$certificate")
if [ -f "$beside/SHA256SUMS" ]; then
    (cd "$beside" && sha256sum --quiet -c SHA256SUMS) || differs 'files beside the certificate are others'
fi

[ "$bad" = 0 ] || { echo 'verify: this certificate is not of this tree' >&2; exit 1; }
if [ "$state" != proved ]; then
    echo 'verify: the checksums fit, and NOTHING WAS PROVED: the certificate itself says so' >&2
    exit 2
fi
echo "verify: the checksums fit. Whether it was proved they cannot say; with the kit $(word kit),"
echo "    cd $tree && rt ci --anew >LOG 2>&1 && release/verify.sh $certificate --log LOG"
echo 'proves it again, which takes over an hour, and holds each verdict against the certificate.'
