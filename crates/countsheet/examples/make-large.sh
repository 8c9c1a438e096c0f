#!/bin/sh
# Writes into the folder that is named the sheets that are too large to store, each with what countsheet is to print for it:
#   full        3,855 readings in 65,535 bytes: position 3, mask 2F, availability 7F, counts 0, 1, .. 3854
#   refused-21  the same and one byte more
set -eu
cd "$1"
: >full.sheet
echo 'position mask available count basis' >full.stdout
count=0
while [ "$count" -lt 3855 ]; do
    high=$(printf '%03o' $((count / 256)))
    low=$(printf '%03o' $((count % 256)))
    printf "\\001\\000\\001\\003\\002\\000\\001\\057\\003\\000\\006\\131\\001\\177\\003\\$high\\$low"
    echo "3 2F 7F $count full" >>full.stdout
    count=$((count + 1))
done >full.sheet
{ cat full.sheet; printf '\000'; } >refused-21.sheet
echo 'refused 21 at 0' >refused-21.stdout
