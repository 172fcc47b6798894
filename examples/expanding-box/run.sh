#!/bin/sh
# Waves in an expanding box with both tables, 1,009 bodies from the expansion factor 0.1 to 1: from making them to the pictures.
# Usage: run.sh [FOLDER], which is made and gets all files. With the proved program this takes less than a minute.
set -e
here=$(CDPATH= cd -- "$(dirname -- "$0")" && pwd)
tools=$here/../../tools/gadget-tools
program=${GADGET_PROGRAM:-$here/../../gadget}
mkdir -p "${1:-expanding-box-run}"
cd "${1:-expanding-box-run}"

"$tools" ewald-table ewald.dat --grid 4
"$tools" expansion-table expansion.dat --omega-m 0.3 --omega-lambda 0.7 --start 0.1 --base-steps 32 --top-bin 18
"$tools" start waves ics.dat param.txt --expansion-table expansion.dat --ewald-table ewald.dat --bodies 1009 --most 2 \
    --height 1 --softening 0.02 --accuracy 65536 --low-bin 8 --snapshots 4
"$program" run param.txt 1
"$tools" plot density snapshot_000 snapshot_002 snapshot_004 waves.png --pixels 64 --units param.txt.units.json
"$tools" plot kicks kicks.txt kicks.png
