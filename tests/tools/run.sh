#!/bin/sh
# The tests of the tools, by Debian's own Python. The program is GADGET_PROGRAM, or the script `gadget` at the top.
# Where a Debian package that they need isn't installed they are skipped, which is said and is no failure.
# Usage: tests/tools/run.sh [pytest's arguments]
top=$(CDPATH= cd -- "$(dirname -- "$0")/../.." && pwd) || exit 1
python=/usr/bin/python3
for package in numpy scipy matplotlib pytest; do
    if ! "$python" -c "import $package" 2>/dev/null; then
        echo "tests/tools: SKIPPED, python3-$package isn't installed: apt-get install python3-numpy python3-scipy python3-matplotlib python3-pytest"
        exit 0
    fi
done
exec "$python" -B -m pytest -q -rs -p no:cacheprovider "$top/tests/tools" "$@"
