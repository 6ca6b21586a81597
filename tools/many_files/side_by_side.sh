#!/bin/sh
# Checks all programs below a folder side by side, each with a line `FILE: ANSWER`; by GNU parallel where it is there,
# else by xargs:
#
#     tools/many_files/side_by_side.sh examples
#
# FSLPP is the program, and JOBS how many run at a time. The status is 0 where all are accepted.
FSLPP=${FSLPP:-./fslpp}
export FSLPP
one='said=$($FSLPP check "$1"); status=$?; echo "$1: $said"; exit $status'
if parallel --version 2>/dev/null | grep -q '^GNU parallel'; then
  find "${1:-.}" -name '*.fsl' | sort | parallel --keep-order --jobs "${JOBS:-4}" sh -c "'$one'" one {}
else
  find "${1:-.}" -name '*.fsl' -print0 | sort -z | xargs -0 -n 1 -P "${JOBS:-4}" sh -c "$one" one
fi
