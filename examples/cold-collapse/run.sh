#!/bin/sh
# 4,000 bodies at rest in a sphere fall together for 0.95 free-fall times: from making them to the pictures.
# Usage: run.sh [FOLDER], which is made and gets all files. With the proved program this takes about a minute.
set -e
here=$(CDPATH= cd -- "$(dirname -- "$0")" && pwd)
tools=$here/../../tools/gadget-tools
program=${GADGET_PROGRAM:-$here/../../gadget}
mkdir -p "${1:-cold-collapse-run}"
cd "${1:-cold-collapse-run}"

"$tools" start sphere ics.dat param.txt --bodies 4000 --falls 0.95 --max-step 0.17 --low-bin 12 \
    --accuracy 65536 --softening 0.004 --snapshots 2
"$program" run param.txt 1
"$tools" plot density snapshot_000 snapshot_001 snapshot_002 collapse.png --width 0.25 --pixels 64 --units param.txt.units.json
"$tools" plot kicks kicks.txt kicks.png
