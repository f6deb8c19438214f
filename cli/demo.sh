#!/bin/sh
# The main job on an example frame, from recall to purge: demo.sh QUAYRUDDER FOLDER. The folder is made anew.
set -eu
command=$(realpath "$1")
example=$(dirname "$command")/examples/example_frame
rm -rf "$2"
mkdir -p "$2"
cd "$2"

# Says a command and runs it; a status other than 0 is said too.
run() {
    echo "\$ quayrudder $*"
    "$command" "$@" 2>&1 || echo "(exit status $?)"
}

"$example" .
run write --header header.bin --pixels counts.raw --form 1+1 -o example.sfrm
run info example.sfrm
run view example.sfrm -o look.png --log
run open example.sfrm --form 1+2 --room 4096 -o ex
run correct ex 100,250 90
run keep ex 2031-11-02
run may-purge ex 2031-11-02
run may-purge ex 2031-11-03
run why ex --day 2031-11-03
run why ex --pixel 100,250
run withdraw ex
run may-purge ex 2031-11-03
run list ex
run verify ex
