#!/bin/sh
# Tests the library that library/build.sh has built: in C, C++ and Python, in Rust where cargo is there, by the sanitizers and by
# valgrind where these are there, and the live hub. Says what is not there. Any failure ends it with another status than 0.
#
#     library/tests/run.sh [DAYS]
#
# DAYS drawn days are played, each in all six modes, 500 where none is said, and as many whose runs join at drawn moments, or
# as LAZBENDIX_JOIN_DAYS says. The library is that of LAZBENDIX_OUT, or of library/out.
set -eu
tests=$(cd "$(dirname "$0")" && pwd)
library=$(dirname "$tests")
root=$(dirname "$library")
days=${1:-500}
LAZBENDIX_OUT=$(cd "${LAZBENDIX_OUT:-$library/out}" && pwd)
LAZBENDIX_LIBRARY=$LAZBENDIX_OUT/liblazbendix.so
LAZBENDIX_CASES=$LAZBENDIX_OUT/tests/cases
LAZBENDIX_COMING=$LAZBENDIX_OUT/tests/coming
LAZBENDIX_DAYS=$days
export LAZBENDIX_OUT LAZBENDIX_LIBRARY LAZBENDIX_CASES LAZBENDIX_COMING LAZBENDIX_DAYS
made=$LAZBENDIX_OUT/tests
archive=$LAZBENDIX_OUT/liblazbendix.a
warnings="-Wall -Wextra -Wpedantic -Werror"
counted="-Wl,--wrap=malloc,--wrap=realloc,--wrap=free"
mkdir -p "$made"

say() { echo "library: $*"; }
trap 'test $? -eq 0 || say "the tests ended here"' EXIT
has() { command -v "$1" > /dev/null 2>&1; }
compile() { # NAME SOURCE WORD ..
    name=$1 source=$2
    shift 2
    # shellcheck disable=SC2086
    cc -std=c11 $warnings -g -O1 "$source" "$archive" "$@" -o "$made/$name"
}
judge() { # what stands in the file is a script, `%%` and its record
    (cd "$root" && python3 -m reference check) < "$1" > "$made/verdict" || { cat "$made/verdict"; say "$1 does not agree"; exit 1; }
}
# Whether the compiler links with the sanitizer, and what it makes runs.
sanitizes() {
    echo 'int main(void) { return 0; }' > "$made/empty.c"
    cc "-fsanitize=$1" "$made/empty.c" -o "$made/empty" 2> "$made/empty.log" && "$made/empty"
}

say "declarations"
python3 "$tests/declarations.py"

say "C, $days drawn days"
python3 "$tests/cases.py" --days "$days" > "$LAZBENDIX_CASES"
python3 "$tests/cases.py" --days "${LAZBENDIX_JOIN_DAYS:-$days}" --coming > "$LAZBENDIX_COMING"
compile statuses "$tests/statuses.c"
"$made/statuses"
compile logs "$tests/logs.c"
"$made/logs"
compile late "$tests/late.c"
"$made/late" > "$made/late.day"
judge "$made/late.day"
compile plays "$tests/plays.c"
"$made/plays" < "$LAZBENDIX_CASES"
compile joins "$tests/joins.c" $counted
"$made/joins" < "$LAZBENDIX_COMING"
if has c++; then
    say "C++, the same days"
    # shellcheck disable=SC2086
    c++ -std=c++17 $warnings -O1 -x c++ "$tests/plays.c" -x none "$archive" -o "$made/plays_cpp"
    "$made/plays_cpp" < "$LAZBENDIX_CASES"
    # shellcheck disable=SC2086
    c++ -std=c++17 $warnings -O1 -x c++ "$tests/joins.c" -x none "$archive" $counted -o "$made/joins_cpp"
    "$made/joins_cpp" < "$LAZBENDIX_COMING"
else
    say "C++ is not there"
fi
compile fuzz "$tests/fuzz.c" $counted
"$made/fuzz" 100000 1
"$made/fuzz" 100000 2 5
compile threads "$tests/threads.c" -pthread
"$made/threads" > "$made/threads.day"
judge "$made/threads.day"

if sanitizes address,undefined; then
    say "AddressSanitizer"
    compile plays-checked "$tests/plays.c" -fsanitize=address,undefined
    "$made/plays-checked" < "$LAZBENDIX_CASES"
    compile joins-checked "$tests/joins.c" -fsanitize=address,undefined $counted
    "$made/joins-checked" < "$LAZBENDIX_COMING"
    compile fuzz-checked "$tests/fuzz.c" -fsanitize=address,undefined $counted
    "$made/fuzz-checked" 100000 3
    "$made/fuzz-checked" 100000 4 5
else
    say "AddressSanitizer is not there"
fi
if sanitizes thread; then
    say "ThreadSanitizer"
    compile threads-checked "$tests/threads.c" -pthread -fsanitize=thread
    "$made/threads-checked" > "$made/threads.day"
    judge "$made/threads.day"
else
    say "ThreadSanitizer is not there"
fi
if has valgrind; then
    say "valgrind"
    valgrind -q --leak-check=full --errors-for-leak-kinds=all --error-exitcode=9 "$made/fuzz" 100000 5
else
    say "valgrind is not there"
fi

say "the first program of the page"
python3 "$tests/first_program.py" "$made"
for name in first failing; do
    compile "$name" "$made/$name.c" -I "$root"
done
"$made/first" | cmp - "$made/first.text"
"$made/failing" | tail -n 4 | cmp - "$made/failing.text"

say "examples"
compile window "$library/examples/window.c"
compile moment "$library/examples/moment.c"
"$made/moment" > "$made/moment.text"
grep -q '^run 1 leave committed' "$made/moment.text"
compile joining "$library/examples/joining.c"
"$made/joining" > "$made/joining.record"
cmp "$made/joining.record" "$tests/joining.record"
{ cat "$tests/joining.json"; echo %%; cat "$made/joining.record"; } > "$made/joining.day"
judge "$made/joining.day"
if has c++; then
    # shellcheck disable=SC2086
    c++ -std=c++17 $warnings -O1 "$library/examples/window.cpp" "$archive" -o "$made/window_cpp"
fi
for script in "$root"/examples/*.json; do
    for broken in "" 0 1; do
        "$made/window" $broken < "$script" > "$made/window.record"
        { cat "$script"; echo; echo %%; cat "$made/window.record"; } > "$made/window.day"
        judge "$made/window.day"
        if has c++; then
            "$made/window_cpp" $broken < "$script" | cmp - "$made/window.record"
        fi
    done
done

say "Python"
(cd "$library/tests/python" && PYTHONPATH="$root/python" python3 -m unittest discover -s .)
say "a live hub"
(cd "$library/live" && python3 -m unittest test_live test_killed)

if has cargo; then
    say "Rust, and the logs that Python has written"
    rm -rf "$made/logs"
    python3 "$tests/python/written_logs.py" "$made/logs"
    (cd "$library/rust" && LAZBENDIX_LOGS="$made/logs" CARGO_TARGET_DIR="$made/target" cargo test -q --offline)
else
    say "cargo is not there: the Rust tests were not run"
fi
say "all as wanted"
