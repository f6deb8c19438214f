#!/bin/sh
# tests/gate/run.sh FOLDER: what the gate prints for recorded logs of `rt ci`, in FOLDER, which is made anew.
set -eu
here=$(realpath "$(dirname "$0")")
tools=$(realpath "$here/../../tools")
rm -rf "$1"
mkdir -p "$1"
cd "$1"
cp -r "$tools" tools
printf '# crates\nlists:\nrefusal: lists\nlayout: lists\nheader_trials: layout refusal\n' > crates.txt
printf 'good:\n\t@echo something was tried\nbad:\n\t@false\n' > Makefile

# gate LOG STATUS TARGET: out.txt and err.txt, with the status.
gate() {
    printf '#!/bin/sh\ncat %s\nexit %s\n' "$here/$1.log" "$2" > rt_ci
    chmod +x rt_ci
    status=0
    RT_CI=./rt_ci tools/gate "$3" > out.txt 2> err.txt || status=$?
    sed -e 's/^make \(.*\): [0-9]* s$/make \1: 0 s/' -e 's/, at [0-9]* s$/, at 0 s/' out.txt > shown.txt
    echo "status $status" >> shown.txt
}

must() {
    "$@" || { echo "gate-test: failed: $*" >&2; cat out.txt err.txt >&2; exit 1; }
}

gate passed 0 good
must diff "$here/passed.txt" shown.txt
must cmp "$here/passed.log" target/prover.log

gate failed 1 good
must diff "$here/failed.txt" shown.txt
must cmp "$here/failed.log" target/prover.log
must grep -qx 'rt: FAILED: refusal header_trials lists/short.edit' err.txt
must grep -q '^gate: ./rt_ci ended with status 1: 4 passed, 3 failed' err.txt

# A verdict alone is not enough, nor are the proofs.
gate passed 1 good
must grep -qx 'status 1' shown.txt
gate failed 0 good
must grep -qx 'status 1' shown.txt
gate passed 0 bad
must grep -qx 'status 1' shown.txt
must test -z "$(grep 'passed, 0 failed' out.txt)"

# An edit that cannot be tried fails nothing in rt ci, but the gate.
gate bad 0 good
must grep -qx 'status 1' shown.txt
must grep -q '^gate: there are must-fail edits that cannot be tried: rt: ok; .*, 1 bad;' err.txt
must test -z "$(grep 'something was tried' out.txt)"
echo "gate-test: the gate says what passed and what failed"
