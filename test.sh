#!/bin/sh
# Builds the program, the library and all tests without proving anything, and tries them: every test, the stored runs of
# each program, every example by the program and by the reference, what the built program tells, and the library from C,
# C++, Python and Rust. It takes some minutes on two processors, and stops with 1 at the first thing that is not as wanted.
#
#     sh test.sh [--here FOLDER]
#
# It wants `rt` of the kit on the path, Python 3.10, and for the library cc, ar and what library/tests/run.sh names. All that
# it makes is in a temporary folder, or in FOLDER, where it stays.
set -u
top=$(cd "$(dirname "$0")" && pwd) || exit 1
cd "$top" || exit 1
PYTHONDONTWRITEBYTECODE=1
PYTHONPATH=$top/python
export PYTHONDONTWRITEBYTECODE PYTHONPATH
if [ "${1:-}" = --here ]; then
    mkdir -p "$2" && room=$(cd "$2" && pwd) || exit 1
else
    room=$(mktemp -d) || exit 1
    trap 'rm -rf "$room"' EXIT
    trap 'exit 1' INT TERM HUP
fi
say() { echo "test: $*"; }
fail() {
    echo "test: $*" >&2
    [ -z "${pages:-}" ] || kill "$pages" 2>/dev/null
    exit 1
}
command -v rt >/dev/null || fail "there is no rt on the PATH"
kit=$(dirname "$(rt doc)")

# tries WHAT WORD ..: this command ends with 0; else what it said is shown
said=$room/said
tries() {
    what=$1
    shift
    "$@" >"$said" 2>&1 && return
    tail -n 40 "$said" >&2
    fail "$what is not as wanted"
}

# what needs nothing built, beside the builds
pages_and_tools() {
    said=$room/said-of-pages
    tries "what a page names" python3 -m dev.check_pages
    tries "the bars of the pages" python3 -m dev.pages
    tries "what crosses crates in proofs" python3 -m dev.check_cited
    tries "what the tools tell of days" python3 -m dev.check_days 40
    tries "what explain tells of mistakes" python3 -m dev.check_explain 20
    if python3 -c 'import jsonschema' 2>/dev/null; then
        tries "the schema of scripts" python3 -m dev.check_schema 200
    else
        say "jsonschema is not there: the schema of scripts is not tried"
    fi
    tries "an example, by the reference" python3 -m dev.tables examples
    tries "the command lazbendix" sh tests/run.sh
}
say "pages and tools, beside the rest"
pages_and_tools &
pages=$!

say "building the library, the programs and the tests, unproved"
python3 -m dev.unproved_build "$room" || fail "it was not built"

say "tests"
for made in "$room"/*_tests; do
    tries "$(basename "$made")" "$kit/bin/rattle-test" --seconds 60 "$made"
done

say "stored runs"
for folder in crates/*/; do
    name=$(basename "$folder")
    [ -f "$folder/src/main.rt" ] || continue
    input=/dev/null
    [ -f "$folder/stdin" ] && input=$folder/stdin
    wanted=0
    [ -f "$folder/status" ] && wanted=$(cat "$folder/status")
    # shellcheck disable=SC2046
    "$room/$name" $(cat "$folder/args" 2>/dev/null) <"$input" >"$room/wrote" 2>"$room/said"
    got=$?
    [ "$got" = "$wanted" ] || fail "$name ended with $got, and not $wanted: $(tail -n 3 "$room/said")"
    cmp "$room/wrote" "$folder/stdout" || fail "$name wrote something else than ${folder}stdout"
done

say "examples, by the program"
for words in examples/*.words; do
    record=${words%.words}.record
    # shellcheck disable=SC2046
    "$room/hub_main" $(sed 's/ < .*//' "$words") <"examples/$(sed 's/.* < //' "$words")" >"$room/wrote" 2>"$room/said" ||
        fail "$words ended with $?: $(cat "$room/said")"
    cmp "$room/wrote" "$record" || fail "$words has another record"
done

say "what the built program tells"
tries "a call of crates/hub_main/edge.sh" sh crates/hub_main/edge.sh "$room/hub_main"
if [ -f dev/check_syncs.py ]; then
    if strace -o /dev/null true 2>/dev/null; then
        tries "how often keep syncs its file" python3 -m dev.check_syncs "$room/hub_main"
    else
        say "strace is not there, or may not watch: how often keep syncs its file is not tried"
    fi
fi

say "the library"
# (.ci/run makes more kills, and a log again at more points)
tries "the library" env LAZBENDIX_OUT="$room" LAZBENDIX_KILLS=4 LAZBENDIX_POINTS=100 sh library/tests/run.sh 100

wait "$pages" || exit 1

say "all as wanted. Nothing was proved: rt ci proves, and sh .ci/run does all there is."
