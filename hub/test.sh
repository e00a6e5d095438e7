#!/bin/sh
# Tests the hub: types, style, and all tests, over a real mosquitto and simulated devices; some minutes. hub/setup.sh --tests
# installs what it wants. What is not there is named, and the tests that want it are passed over: where no package is there,
# some tests of parts are left. The library is that of library.sh.
#
#     sh hub/test.sh [-v] [-j N] [TEST ..]
#
# Three modules of tests run at the same time, or N.
set -u
here=$(cd "$(dirname "$0")" && pwd) || exit 1
cd "$here" || exit 1
PYTHON=${PYTHON:-/usr/bin/python3}
PYTHONPATH=$here:$here/../python
PYTHONDONTWRITEBYTECODE=1
export PYTHONPATH PYTHONDONTWRITEBYTECODE
. "$here/library.sh"
has_all=1
for each in paho.mqtt.client aiohttp croniter yaml prometheus_client; do
    "$PYTHON" -c "import $each" 2>/dev/null || { echo "hub: Python has no $each"; has_all=; }
done
if [ -z "$has_all" ]; then
    echo "hub: types are not looked at"
elif [ -x /usr/bin/mypy ]; then
    /usr/bin/mypy --python-executable "$PYTHON" || exit 1
else
    echo "hub: mypy is not there: types are not looked at"
fi
long=$(awk 'length > 100 { print FILENAME ":" FNR }' lazbendix_hub/*.py tests/*.py)
[ -z "$long" ] || { echo "over 100 columns: $long" >&2; exit 1; }
if command -v flake8 >/dev/null; then
    flake8 --config ../setup.cfg lazbendix_hub tests || exit 1
fi
exec "$PYTHON" -W ignore::ResourceWarning -m tests -j 3 "$@"
