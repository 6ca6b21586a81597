#!/bin/sh
# Writes a file for ninja that checks all programs below a folder side by side:
#
#     tools/many_files/write_ninja.sh examples > build.ninja
#     ninja -k 0
#
# FSLPP is the program, and ANSWERS the folder for the answers.
cat <<END
rule check
  command = ${FSLPP:-./fslpp} check \$in > \$answer; status=\$\$?; cat \$answer; [ \$\$status = 0 ] && mv \$answer \$out
  description = \$in
END
find "${1:-.}" -name '*.fsl' | sort | while read -r file; do
  answer=${ANSWERS:-answers}/${file%.fsl}
  printf 'build %s.accepted: check %s\n  answer = %s.answer\n' "$answer" "$file" "$answer"
done
