#!/bin/sh
# The protocol's model, checked by spin: run.sh FOLDER. The command as it is must hold, and with each step taken out or put
# back in as it was a fault must be found.
#   KILLS=1        how many processes are killed, at any step
#   READERS=2      questions beside the writers and a sweep; else 1
#   WRITERS=1      a correction alone; else a keep date too
#   COMPACTION     a compaction too, after which held file and ledger have the bytes of an earlier state
#   RESTORE        the record of a change is put back by hand after it has gone
#   LOST_LOCK      a question makes the lock file, and removes it where the holding has gone
#   ONLY_THE_LOCK  a question without a lock file looks only whether one has come
#   ASKED_ONCE     the sweep does not ask again with the lock held
#   ANY_RECORD     a record is used whatever the files are
#   NO_NOTES       a record is used whatever compactions the sums note
#   LOG_LAST       the log of compactions is put in place after the ledger
#   ANY_NOTE       a compaction's record is used on the ledger before it, though its own note is in the sums
set -eu
model=$(realpath "$(dirname "$0")")/holding.pml
mkdir -p "$1"
cd "$1"

# check KIND LEVEL DEFINES: finds the number of errors and that of the states that were looked at. What gcc says of spin's
# own code is not shown.
check() {
    kind=$1 level=$2
    shift 2
    spin -a "$@" "$model" > spin.log
    gcc -w "$level" "-D$kind" -DCOLLAPSE -DVECTORSZ=2048 -o pan pan.c
    ./pan -m200000 -n $([ "$kind" = SAFETY ] || echo -l) > pan.log 2>&1
    errors=$(sed -n 's/.*errors: \([0-9]*\)$/\1/p' pan.log)
    states=$(sed -n 's/ *\([0-9.e+]*\) states, stored.*/\1/p' pan.log)
    if grep -q 'max search depth too small' pan.log; then errors=depth; fi
}

must_hold() {
    check "$@"
    [ "$errors" = 0 ] || { echo "model: $* does not hold" >&2; cat pan.log >&2; exit 1; }
    echo "model: $*: $states states, all hold"
}

must_fail() {
    check SAFETY -O0 "$@"
    grep -q 'assertion violated' pan.log || { echo "model: $* is not found" >&2; exit 1; }
    echo "model: $*: found, $(sed -n 's/^pan:1: \(.*\) (at depth.*/\1/p' pan.log)"
}

must_hold SAFETY -O1 -DKILLS=1
must_hold SAFETY -O1 -DKILLS=0 -DRESTORE
# No process waits or tries again for ever.
must_hold NP -O1 -DKILLS=0
must_fail -DKILLS=0 -DLOST_LOCK -DREADERS=2
must_fail -DKILLS=0 -DONLY_THE_LOCK
must_fail -DKILLS=0 -DASKED_ONCE
must_fail -DKILLS=0 -DRESTORE -DANY_RECORD

must_hold SAFETY -O1 -DCOMPACTION -DREADERS=0 -DKILLS=1
must_hold SAFETY -O1 -DCOMPACTION -DREADERS=0 -DKILLS=0 -DRESTORE
must_hold SAFETY -O1 -DCOMPACTION -DWRITERS=1 -DKILLS=0
must_fail -DCOMPACTION -DREADERS=0 -DKILLS=0 -DLOG_LAST
must_fail -DCOMPACTION -DREADERS=0 -DKILLS=0 -DRESTORE -DNO_NOTES
must_fail -DCOMPACTION -DREADERS=0 -DKILLS=0 -DRESTORE -DANY_NOTE
