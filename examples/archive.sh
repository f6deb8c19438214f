#!/bin/sh
# A folder of frames becomes an archive: archive.sh FRAMES ARCHIVE. Whatever is refused is said, and the rest goes on.
set -u
frames=$1 archive=$2

# Every frame opened, and kept for five years; given again after a crash, both go on where they stopped.
quayrudder open --below "$frames" --form 1+2 -o "$archive"
quayrudder keep --below "$archive" 2031-11-02

# A table from the laboratory.
cat > bad_pixels.csv <<END
holding,row,column,count
$archive/example,100,250,90
$archive/example,0,384,1
END
quayrudder correct --from bad_pixels.csv || echo "the table is to be mended: status $?"
sed -i '/,384,/d' bad_pixels.csv
quayrudder correct --from bad_pixels.csv

# What a script asks: exit status 0 for yes, and --json for the rest.
quayrudder may-purge "$archive/example" 2031-11-02 || echo "kept"
quayrudder --json list "$archive/example"
quayrudder verify "$archive"
