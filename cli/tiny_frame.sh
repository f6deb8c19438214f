#!/bin/sh
# tiny_frame.sh QUAYRUDDER: one.sfrm in the current folder, a frame of 4 rows of 4 pixels with a header of 96 lines.
set -eu
awk 'BEGIN {
    split("0=FORMAT :100|1=VERSION:11|2=HDRBLKS:15|20=NOVERFL:-1 0 0|39=NPIXELB:1 0|40=NROWS  :4|41=NCOLS  :4|58=LINEAR :1 0", lines, "|")
    for (i in lines) { split(lines[i], pair, "="); said[pair[1]] = pair[2] }
    for (i = 0; i < 96; i++) printf "%-80s", said[i]
}' > header.bin
head -c 64 /dev/zero > counts.raw
"$1" write --header header.bin --pixels counts.raw --form 1 -o one.sfrm
