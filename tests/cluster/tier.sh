# make_tier: the folder archive with 20,000 holdings of one tiny frame: due, kept, without a date, some damaged, and strangers
# among them, in memory where there is such a folder: 60,000 files take minutes on a busy disk. remove_tier takes it away.
# Needs quayrudder in PATH, and $many, the example many_holdings.
tier=

make_tier() {
    memory=/dev/shm
    [ -d "$memory" ] || memory=$(pwd)
    tier=$(mktemp -d "$memory/quayrudder-XXXXXX")
    ln -s "$tier" archive
    mkdir one
    "$here/../../cli/tiny_frame.sh" quayrudder
    for name in none due kept; do quayrudder open one.sfrm --form 1 --room 96 -o "one/$name"; done
    quayrudder correct one/due 3 99
    quayrudder keep one/due 2001-01-01 --shorten
    quayrudder keep one/kept 2099-01-01
    "$many" one/due archive/due 9000
    "$many" one/kept archive/kept 8000
    "$many" one/none archive/none 3000
    for number in $(seq -w 100 100 4000); do
        printf x >> "archive/due/000${number%???}/h000$number.held"
        printf x >> "archive/kept/000${number%???}/h000$number.ledger"
        printf x >> "archive/due/000${number%???}/h000${number%?}1.ledger"
        rm "archive/due/000${number%???}/h000${number%?}1.sha256" "archive/kept/000${number%???}/h000${number%?}1.sha256"
        echo 'Assets:Bank 100 EUR' > "archive/accounts$number.ledger"
    done
}

remove_tier() {
    [ -z "$tier" ] || rm -rf "$tier"
}
