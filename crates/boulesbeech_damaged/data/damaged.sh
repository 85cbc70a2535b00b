#!/bin/sh
# Makes damaged.o, a copy of the sample whose headers 4 and 9 point past its end:
# section 4 claims 65608 bytes in place of 72, and section 9 starts 8 bytes below 2^64.
set -eu
cd "$(dirname "$0")"
cp ../../boulesbeech/data/sample.o damaged.o
printf '\110\000\001\000\000\000\000\000' | dd of=damaged.o bs=1 seek=1320 conv=notrunc status=none
printf '\370\377\377\377\377\377\377\377' | dd of=damaged.o bs=1 seek=1632 conv=notrunc status=none
