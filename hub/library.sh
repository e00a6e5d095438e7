# Sourced by lazbendix-hub, setup.sh and test.sh, with `here` as this folder: names the library by LAZBENDIX_LIBRARY where that
# names none. It is the one that library/build.sh proved, or the one that setup.sh built unproved, or that of the package.
if [ -z "${LAZBENDIX_LIBRARY:-}" ]; then
    for each in "$here/../library/out/liblazbendix.so" "$here/out/liblazbendix.so" /usr/lib/*-linux-gnu/liblazbendix.so; do
        if [ -e "$each" ]; then
            LAZBENDIX_LIBRARY=$each
            export LAZBENDIX_LIBRARY
            break
        fi
    done
fi
