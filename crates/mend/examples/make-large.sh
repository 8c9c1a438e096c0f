#!/bin/sh
# Writes into the folder that is named the sheets that are too large to store, each with what mend is to write for it:
#   full        3,855 readings in 65,535 bytes: position 3, mask 2F, availability 7F, counts 0, 1, .. 3854
#   zeros       65,535 bytes 00
#   most        3,640 of those readings, a byte FF before each, and 15 bytes FF: 65,535 bytes, and 3,641 stretches
#   refused-21  65,536 bytes: the full sheet and one byte more
set -eu
cd "$1"
reading() { # COUNT
    printf "\\001\\000\\001\\003\\002\\000\\001\\057\\003\\000\\006\\131\\001\\177\\003\\$(printf '%03o' $(($1 / 256)))\\$(printf '%03o' $(($1 % 256)))"
}
: >most.stderr
count=0
while [ "$count" -lt 3855 ]; do
    reading "$count"
    count=$((count + 1))
done >full.sheet
head -c $((17 * 3640)) full.sheet >most.stdout
count=0
while [ "$count" -lt 3640 ]; do
    printf '\377'
    reading "$count"
    echo "dropped 1 at $((18 * count))" >>most.stderr
    count=$((count + 1))
done >most.sheet
printf '\377\377\377\377\377\377\377\377\377\377\377\377\377\377\377' >>most.sheet
echo 'dropped 15 at 65520' >>most.stderr
cp full.sheet full.stdout
: >full.stderr
head -c 65535 /dev/zero >zeros.sheet
: >zeros.stdout
echo 'dropped 65535 at 0' >zeros.stderr
{ cat full.sheet; printf '\000'; } >refused-21.sheet
echo 'refused 21 at 0' >refused-21.stdout
cp refused-21.stdout refused-21.stderr
