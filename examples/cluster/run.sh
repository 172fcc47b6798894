#!/bin/sh
# 4,000 bodies drawn from the seed 7, and two base steps of them with finer steps inside: the line that must come out.
# Usage: run.sh [FOLDER], which is made and gets all files. Only the program is needed.
set -e
here=$(CDPATH= cd -- "$(dirname -- "$0")" && pwd)
program=${GADGET_PROGRAM:-$here/../../gadget}
mkdir -p "${1:-cluster-run}"
cd "${1:-cluster-run}"

"$program" make 4000 7 c
line=$("$program" run c.param 1)
echo "$line"
[ "$line" = "done tick 64 steps 2 snapshots 1 kicks 12 interactions 7358221 momentum 38386965 -3720755 -215765" ]
