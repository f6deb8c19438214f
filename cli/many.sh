#!/bin/sh
# many.sh QUAYRUDDER FOLDER [NUMBER]: a tier of so many holdings (200,000), with time and memory of each step. First it is
# opened from frames, kept, corrected from a table of half as many rows, verified, swept and reported, each in one command; then
# copies of one holding are swept and verified, and two thousand of them moved and deleted. The folder is made anew and
# removed; it takes 5 gigabytes. Needs GNU time.
set -eu
here=$(realpath "$(dirname "$0")")
command=$(realpath "$1")
examples=$(dirname "$command")/examples
number=${3:-200000}
rm -rf "$2"
mkdir -p "$2/one" "$2/few"
cd "$2"

run() {
    echo "$ quayrudder $*"
    /usr/bin/time -f '%e s, %M kB at most, %P of a core' "$command" "$@" 2> said | tail -n 1
    tail -n 1 said
}

# From frames to a purge question. What was made is given again: a batch that was killed goes on like this.
"$examples/many_frames" frames "$number" table.csv $((number / 2)) archive
run open --below frames --form 1+2 --room 0 -o archive
run open --below frames --form 1+2 --room 0 -o archive
run keep --below archive 2040-01-01
run keep --below archive 2040-01-01
run correct --from table.csv
run correct --from table.csv
run verify --below archive
run sweep archive --day 2040-01-02
run report archive -o report.html
rm -rf frames archive

"$here/tiny_frame.sh" "$command"
"$command" open one.sfrm --form 1 --room 96 -o one/t
"$command" correct one/t 3 99
"$command" keep one/t 2001-01-01 --shorten

"$examples/many_holdings" one/t all "$number"
"$examples/many_holdings" one/t few 2000
files=$(find all | wc -l)
run sweep all
run sweep all --day 2000-12-31 --json
run verify all
run sweep few --into bin
run sweep bin --delete
[ "$(find all | wc -l)" = "$files" ] || { echo "a question has made a file" >&2; exit 1; }
cd /
rm -rf "$2"
