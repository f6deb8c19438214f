#!/bin/sh
# run.sh QUAYRUDDER FOLDER: the manual's Slurm job array and its GNU parallel line, as they are written there, over a made-up
# tier of 20,000 holdings on a Slurm cluster of this one machine, against one plain run. The folder is made anew.
set -eu
here=$(realpath "$(dirname "$0")")
command=$(realpath "$1")
many=$(dirname "$command")/examples/many_holdings
day=2031-11-03
rm -rf "$2"
mkdir -p "$2"
cd "$2"
PATH=$(dirname "$command"):$PATH
export PATH

fail() {
    echo "cluster-test: $*" >&2
    exit 1
}

. "$here/tier.sh"
. "$here/cluster.sh"

# A block of the manual's section that starts with these words.
manual() {
    awk -v start="    $1" '
        /^## / { inside = $0 == "## On many machines" }
        inside && index($0, start) == 1 { said = 1 }
        said && $0 == "" { exit }
        said { print substr($0, 5) }' "$here/../../docs/MANUAL.md" > block
    [ -s block ] || fail "docs/MANUAL.md has no block that starts with: $1"
    cat block
}

# plain NAME WORD...: one run over the whole tier, in text and in JSON.
plain() {
    name=$1
    shift
    quayrudder "$@" > "$name.txt" 2> "$name.err" && status=0 || status=$?
    quayrudder "$@" --json > "$name.json" || [ $? = "$status" ]
    tail -n 1 "$name.txt" > "$name.totals"
    echo "plain:    $(cat "$name.totals") (status $status)"
}

# shards HOW NAME BLOCK FILE...: a block of the manual, whose last line adds up, and the same as the plain run of this name.
shards() {
    how=$1 name=$2 block=$3
    shift 3
    started=$(date +%s)
    printf '%s\n' "$block" > run
    sh ./run > answer 2> said && found=0 || found=$?
    echo "$how $(tail -n 1 answer) (status $found, $(($(date +%s) - started)) s)"
    [ "$found" = "$status" ] || fail "$how ends with status $found, the plain run with $status: $(cat said)"
    tail -n 1 answer | cmp - "$name.totals"
    quayrudder total --json "$@" > sum.json || [ $? = "$status" ]
    tail -n 1 "$name.json" | cmp - sum.json
    # Every line about a holding stands in exactly one shard.
    grep -v '^{"totals"' "$name.json" | sort > expected
    cat "$@" | grep -v '^{"totals"' | sort > lines
    cmp lines expected || fail "$how says other lines than the plain run"
    echo "          $(wc -l < lines) lines, each in one shard: $(cat "$@" | grep -c '^{"totals"') shards"
}

trap 'stop_cluster; remove_tier' EXIT
trap 'exit 1' HUP INT TERM
make_tier > tier.log
start_cluster
manual '#!/bin/sh' > night.sh
array=$(manual 'sbatch --wait night.sh verify')
line=$(manual 'parallel ')
parts=$(seq -f 'night.%g.json' 8)
echo : > machines

plain verify verify archive
shards 'Slurm:   ' verify "$array" $parts
rm night.3.json
quayrudder total night.*.json 2>&1 | grep -q 'missing are 3 of 8' || fail "shard 3 is missing, and total does not say so"
shards 'again 3: ' verify "$(manual 'sbatch --wait --array=3 ')" $parts
shards 'parallel:' verify "$line" night.json
plain sweep sweep archive --day "$day"
asked() { printf '%s\n' "$1" | sed "s/verify archive/sweep archive --day $day/"; }
rm $parts night.json
shards 'Slurm:   ' sweep "$(asked "$array")" $parts
shards 'parallel:' sweep "$(asked "$line")" night.json
echo "cluster-test: the shards are one plain run"
