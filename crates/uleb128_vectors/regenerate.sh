#!/bin/sh
# Rewrites stdin and stdout from numbers.s by the GNU assembler; leb128 has no part in it, and the gate does not run it.
# A line of the assembler's listing is: line number, offset, bytes in words of four, .uleb128, number.
set -e
cd "$(dirname "$0")"
work=$(mktemp -d)
trap 'rm -r "$work"' EXIT
as -aln="$work/listing" --listing-lhs-width=4 -o "$work/numbers.o" numbers.s
objcopy -O binary -j .data "$work/numbers.o" stdin
awk '$(NF - 1) == ".uleb128" {
    bytes = ""
    for (i = 3; i < NF - 1; i++) bytes = bytes $i
    print $NF, tolower(bytes)
}' "$work/listing" > stdout
echo "stop 0 at $(wc -c < stdin)" >> stdout
