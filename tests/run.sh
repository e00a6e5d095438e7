#!/bin/sh
# Tests the command lazbendix, and asks a type checker and a linter of all Python in the repository, where they are
# installed: mypy, and ruff or flake8.
cd "$(dirname "$0")/.." || exit
top=$PWD
PYTHONPATH=$top/python
export PYTHONPATH
python3 -m unittest discover -s tests -t . || exit
if command -v mypy >/dev/null; then
    # (a type checker looks for the reference where an installed package has it)
    room=$(mktemp -d) || exit
    trap 'rm -rf "$room"' EXIT
    cp -r python/lazbendix reference dev bench release tests setup.cfg "$room" || exit
    cp reference/*.py "$room/lazbendix/reference" || exit
    (cd "$room" && env -u PYTHONPATH mypy --cache-dir "$top/.mypy_cache") || exit
else
    echo "mypy is not there: types were not looked at"
fi
if command -v ruff >/dev/null; then
    ruff check python dev bench reference release tests || exit
elif command -v flake8 >/dev/null; then
    flake8 python dev bench reference release tests || exit
else
    echo "neither ruff nor flake8 is there: the style was not looked at"
fi
