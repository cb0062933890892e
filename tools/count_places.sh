#!/bin/bash
# Lists the places that docs/DESIGN-PASS.md counts, by point, and how many lines each list has.
# Run at the top of a checkout; with an argument, one list alone (as `3`).
cd "$(dirname "$0")/.." || exit 1
src=(crates/*/src --include=*.rt)

show() {
    [[ -z $only || $only == "$1" ]] || return
    local found
    found=$(cat)
    echo "== $1: $2: $([[ -n $found ]] && wc -l <<<"$found" || echo 0)"
    [[ -n $found ]] && echo "$found"
}
only=$1

grep -rnE '\b(role|load|effect|state|number|code|spacing): u(8|16)\b' "${src[@]}" | show 1a 'numbers for kinds, as parameters and fields'
grep -rniE '// .*\b(0|zeros)( for no|,? for none| where it is refused)|, 0 for none' "${src[@]}" | show 1b 'numbers that stand for none'
grep -rnE '\w*Refus(al|ed)\w*\((u8|SheetFault|QuestionFault)\)' "${src[@]}" | show 1c 'refusals as numbers, or as cases beside answers'
grep -rnE '\b(Ok|Some)\(.*\) => (Ok|Some|0)\b|\b(Err|None)\b.* => (Err|None|\(0)' "${src[@]}" | show 1d 'results passed on by hand'
for crate in crates/*; do
    grep -rhoE '^( *pub(\(crate\))?)? *fn \w+' "$crate/src" --include=*.rt | grep -oE '\w+$' |
        grep -vE '^(fmt|from|try_from|depth|resultants|forces|new|empty|main|eq|add|add_assign|from_str)$' |
        sort | uniq -c | awk -v c="${crate#crates/}" '$1 > 1 { print c ": " $2 " " $1 }'
done | show 2 'functions of one name in a crate'
grep -rnE '\bwhile\b|enumerate\(\)|for \w+ in [0-9a-z_.]+\.\.' "${src[@]}" | show 3a 'loops that count or keep an index'
grep -rnE '^ *for ' "${src[@]}" | grep -vE 'enumerate\(\)|for \w+ in [0-9a-z_.]+\.\.' | show 3b 'other loops'
grep -rnE 'fn (is|eq|cmp|index|number|from_\w+|to_\w+|\w*_name|name|named|load_type|effect_kind|plate)\(' "${src[@]}" | show 4 'comparison, conversion and printing'
grep -rhoE 'requires( \w+)? \{.*' "${src[@]}" | sed -E 's/requires( \w+)? //' | sort | uniq -c | awk '$1 >= 3' | show 5a 'facts that three contracts or more require'
grep -rnE -e '-> (Result<|Option<)?\((u|i|usize|Plate)' "${src[@]}" | show 5b 'answers that are bare tuples'
grep -rnE ': \[[^;]+; [A-Z0-9]+\],?$|^    len: usize|Vec<[A-Z]\w*(<\w+>)?>,$' "${src[@]}" | grep -vE ': \[(None|0|Count::NONE|Block::empty\(\)); ' | show 6 'arrays, lists and buffers held in structs and constants'
grep -rnE '\w+: bool,$|match (sort|question)\b|: fn\(|dyn ' "${src[@]}" | show 7 'flags and numbers that choose a step'
