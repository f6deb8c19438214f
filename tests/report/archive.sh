#!/bin/sh
# archive.sh QUAYRUDDER FOLDER: a small archive to make a report of, with holdings of every kind. The folder is made anew.
set -eu
command=$(realpath "$1")
examples=$(dirname "$command")/examples
rm -rf "$2"
mkdir -p "$2/archive/lysozyme" "$2/archive/Insulin"
cd "$2"

"$examples/example_frame" .
"$command" write --header header.bin --pixels counts.raw --form 1+1 -o frame.sfrm
for number in 1 2 3 4 5 6 7 8 9; do
    "$command" open frame.sfrm --form 1+2 --room 512 -o "archive/lysozyme/scan_000$number"
    "$command" keep "archive/lysozyme/scan_000$number" "203$((number % 3))-0$number-15"
done
"$command" correct archive/lysozyme/scan_0002 100,250 90
"$command" correct archive/lysozyme/scan_0002 21,30 7
"$command" correct archive/lysozyme/scan_0002 200,340 31
"$command" withdraw archive/lysozyme/scan_0002
"$command" correct archive/lysozyme/scan_0005 100,250 88
for number in 1 2 3; do
    "$command" open frame.sfrm --form 2 --room 0 -o "archive/Insulin/frame_$number"
done
"$command" keep archive/Insulin/frame_1 2024-06-30 --shorten
"$command" keep archive/Insulin/frame_2 2026-01-31 --shorten
rm archive/Insulin/frame_2.sha256

# One that is damaged, one whose ledger is refused, and names that mean harm.
printf x >> archive/lysozyme/scan_0007.held
printf x >> archive/lysozyme/scan_0008.ledger
rm archive/lysozyme/scan_0008.sha256
hostile='<script>window.harmed=1<'
"$command" open frame.sfrm --form 1+2 --room 0 -o "archive/$hostile"
mkdir -p "archive/<"
"$command" open frame.sfrm --form 1+2 --room 0 -o "archive/</script><img src=x onerror=window.harmed=1>"
"$command" open frame.sfrm --form 1+2 --room 0 -o "archive/turned$(printf '\342\200\256')gnp.exe"
