#!/usr/bin/env bash
# Builds the oracle and writes anew the recorded lists in crates/replay/data/
# what `gatelist` prints of the messages in examples/, and of the cases of
# crates/gatelists.
set -euo pipefail
cd "$(dirname "$0")"

cargo build --release --offline --quiet
oracle=target/release/oracle
recorded=../crates/replay/data
mkdir -p "$recorded"

# record FILE KIND CASE: the answers to `oracle cases KIND`, behind the head. A
# line that begins with CASE is a case; by default any line is.
record() {
    local file=$recorded/$1 kind=$2 case=${3-} answers
    answers=$("$oracle" cases "$kind" | "$oracle" "$kind")
    {
        echo "# IronFix c1e4a6b327"
        echo "# recorded by oracle/record.sh: oracle cases $kind | oracle $kind"
        echo "# cases $(grep -c "^$case" <<<"$answers")"
        if [ "$kind" = walks ]; then kinds 5 8 <<<"$answers"; fi
        if [ "$kind" = messages ]; then kinds 2 11 <<<"$answers"; fi
        echo "$answers"
    } >"$file"
    sed -n 3p "$file" | sed "s|^#|$1:|"
}

# kinds WORD LAST: how often each kind up to LAST stands in walks, their events beginning at that word.
kinds() {
    awk -v first="$1" -v last="$2" '
        /^walk/ && $2 != "refused" { for (word = first; word <= NF; word += 5) count[$word]++ }
        END {
            split("enter badcount delim repeat close miscount deep leave twice foreign missing", name, " ")
            for (kind = 1; kind <= last; kind++) print "# kind " kind " " name[kind] " " count[kind] + 0
        }'
}

record is_valid_value.cases values
record parse_count.cases counts
record read_dictionary.cases dictionary-texts
record read_layout.cases layout-texts '[^w]'
record walk_group.cases walks walk
record expand.cases expansions expand
record check_values.cases verdict-words '\(plain\|strict\)'
record walk_message.cases messages '\(walk\|plain\|strict\)'

# list DICT MSG: what `gatelist` prints, beside the message.
list() {
    "$oracle" list "../examples/$1.dict" "../examples/$2.msg" >"../examples/$2.list"
}

for message in new-order-single allocation-instruction market-data-snapshot; do
    list "fix44/$message" "fix44/$message"
done
for message in whole allocation-lost fields-out-of-entry count-lies nested-count-lies \
    parties-in-another-entry quantity-missing allocation-named-twice; do
    list block-order/block-order "block-order/$message"
done

# The cases of gatelists, those of examples/ among them: each line of cases.txt names a dictionary and a message.
stored=../crates/gatelists
cp ../examples/block-order/*.dict ../examples/block-order/*.msg "$stored/data"
for message in new-order-single allocation-instruction market-data-snapshot; do
    cp "../examples/fix44/$message.dict" "../examples/fix44/$message.msg" "$stored/data"
done
while read -r dictionary message; do
    echo "-- $dictionary $message"
    "$oracle" list "$stored/data/$dictionary" "$stored/data/$message"
done <"$stored/data/cases.txt" >"$stored/stdout"
