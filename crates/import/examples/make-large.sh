#!/bin/sh
# Writes into the folder that is named the logs that are too large to store, each with what import is to print for it:
#   longest          four lines of 255 bytes, by seconds, by blanks, by the interface with three digits and without; no newline at the end
#   longer-PART      one of these lines, then the same with a byte more, 256; longer-end has no newline behind it
#   endless-N        two lines, then N bytes without a newline, 256, 300 and 70,000; endless-N-first, such bytes alone, 65,536 and 70,000;
#                    endless-blanks, a line that is malformed by its length alone
#   bytes-N          1,872 lines in N bytes, 65,535 to 65,537; bytes-N-end without the last newline
#   across-S         1,900 lines of 35 bytes, the first with S blanks more, 0 to 34: byte 65,536 of the log, with which a first read can end,
#                    is then each byte of a line once
#   across-S-bad     the same, and the line in which that byte stands is refused, by 2 where S is even, by 25 where it is odd
#   lines-3000       3,000 lines of 41 to 62 bytes, every seventh with three digits; lines-3000-bad has one more, of one byte
set -eu
cd "$1"
line='(12.003000) can0 18CEC9EB#05023E00'
counts() { printf 'frames %d\npassed over %d\n' "$2" "$3" >"$1.stdout"; }
refused() { printf 'refused %d at line %d\n' "$2" "$3" >"$1.stdout"; }
many() { awk -v count="$1" -v what="$2" 'BEGIN { while (count-- > 0) printf "%s", what }'; }
lines() { many "$1" "$line\\n"; }

# The line, which has 34 bytes, with so many more.
seconds() { printf '(12%s.003000) can0 18CEC9EB#05023E00' "$(many "$1" 9)"; }
blanks() { printf '(12.003000)%s can0 18CEC9EB#05023E00' "$(many "$1" ' ')"; }
interface() { printf '(12.003000) can0%s 18CEC9EB#05023E00' "$(many "$1" 0)"; }
three() { printf '(12.003000) can0%s 123#05023E0000' "$(many "$(($1 + 3))" 0)"; }

{ seconds 221; echo; blanks 221; echo; three 221; echo; interface 221; } >longest.log
counts longest 3 1
for part in seconds blanks interface three; do
    { $part 221; echo; $part 222; echo; echo "$line"; } >"longer-$part.log"
    refused "longer-$part" 25 2
done
{ seconds 221; echo; seconds 222; } >longer-end.log
refused longer-end 25 2
for bytes in 256 300 70000; do
    { lines 2; many "$bytes" x; } >"endless-$bytes.log"
    refused "endless-$bytes" 25 3
done
for bytes in 65536 70000; do many "$bytes" x >"endless-$bytes-first.log"; refused "endless-$bytes-first" 25 1; done
{ lines 2; blanks 70000; echo; } >endless-blanks.log
refused endless-blanks 25 3

for bytes in 65535 65536 65537; do
    { blanks $((bytes - 1872 * 35)); echo; lines 1871; } >"bytes-$bytes.log"
    { blanks $((bytes - 1872 * 35 + 1)); echo; lines 1870; printf '%s' "$line"; } >"bytes-$bytes-end.log"
    counts "bytes-$bytes" 1872 0
    counts "bytes-$bytes-end" 1872 0
done

lines 1899 >rest
shift=0
while [ "$shift" -lt 35 ]; do
    { blanks "$shift"; echo; cat rest; } >"across-$shift.log"
    counts "across-$shift" 1900 0
    place=$(((65535 - shift) / 35 + 1))
    if [ $((shift % 2)) = 0 ]; then number=2 bad='(12.003000) can0 38CEC9EB#05023E00'; else number=25 bad='(12.003000) can0 18CEC9EB#05023E0x'; fi
    { head -n $((place - 1)) "across-$shift.log"; echo "$bad"; tail -n +$((place + 1)) "across-$shift.log"; } >"across-$shift-bad.log"
    refused "across-$shift-bad" "$number" "$place"
    shift=$((shift + 1))
done
rm rest

awk 'BEGIN {
    for (number = 1; number <= 3000; number++) {
        data = substr("05023E00A1b2C3d4", 1, number % 9 * 2)
        printf "(16999%05d.%06d) vcan-of-the-yard %s#%s\n", number, number * 331, number % 7 == 0 ? "123" : "18CEC9EB", data
    }
}' >lines-3000.log
counts lines-3000 2572 428
{ cat lines-3000.log; echo x; } >lines-3000-bad.log
refused lines-3000-bad 25 3001
