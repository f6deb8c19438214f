#!/bin/sh
# examples/run.sh FOLDER FRAME [FLAG..]: every example over a frame, in FOLDER, which is made anew; what they print is held to output.txt.
# The command is taken from PATH, the Python module from PYTHONPATH, and FLAG.. are for the C compiler.
set -eu
here=$(realpath "$(dirname "$0")")
frame=$(realpath "$2")
rm -rf "$1"
mkdir -p "$1/frames"
cp "$frame" "$1/frames/example.sfrm"
cp "$frame" "$1/example.sfrm"
head -c 9000 "$frame" > "$1/frames/broken.sfrm"
folder=$1
shift 2
cc -std=c11 -Wall -Wextra -Werror -O2 "$here/read_frame.c" "$@" -o "$folder/read_frame"
cd "$folder"

{
    echo "C:"
    ./read_frame example.sfrm
    ./read_frame frames/broken.sfrm || echo "(exit status $?)"
    echo "Python:"
    ${PYTHON:-/usr/bin/python3 -B} "$here/hot_pixels.py"
    echo "shell:"
    "$here/archive.sh" frames archive
} > output.txt 2>&1 || { cat output.txt; exit 1; }
diff "$here/output.txt" output.txt
echo "examples: C, Python and shell print what examples/output.txt has"
