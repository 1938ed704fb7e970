#!/bin/bash
# Counts the places that docs/DESIGN-PASS.md speaks of, in the checkout that it is run in.
# With a point's number it lists them instead: tools/places.sh 3
cd "$(dirname "$0")/.." || exit 1

# 1: refusals as an Option; matches on the number of a kind; constants that number a kind; answers by bool of what alters something
refusals() { grep -rnE -- '-> Option<(Call|Making|Log)?Fault>' crates/*/src; }
numbers() { grep -rnE '^ +[0-9]+( \| [0-9]+)* => ' crates/*/src; }
kinds() { grep -rnE 'const [A-Z_]*KIND: u8|-> u8|\bkind: u8' crates/*/src; }
flags() { grep -rzoP 'fn \w+(<[^>]*>)?\(\s*&mut self[^)]*\) -> bool' crates/*/src | tr '\0' '\n' | grep 'fn '; }
enums() { grep -rnE '^(pub |pub\(crate\) )?enum ' crates/*/src; }
# 2: pairs of places of six lines or more that are alike (the tool `duplicates`, over copies that end in .rs)
twins() {
    local work
    work=$(mktemp -d)
    for file in $(git ls-files 'crates/*/src/*.rt'); do
        mkdir -p "$work/$(dirname "$file")"
        cp "$file" "$work/${file%.rt}.rs"
    done
    (cd "$work" && duplicates --most 200 | grep '^D')
    rm -rf "$work"
}
# 3: loops over a range, and loops with a condition
loops() { grep -rnE 'for .* in [^/]*\.\.|while |\bloop \{' crates/*/src | grep -vE ':[0-9]+: *//'; }
# 4: conversions, words, comparisons and first values written by hand
conversions() { grep -rnE 'fn (of_byte|pass_of|track_kind|made_of|making_of|counts|of_answer|same_bytes|new_cabinet|shown|track|line|station|nature|pass|call|number_of|same_or_other|\w+_word|\w+_letter)(<[^>]*>)?\(' crates/*/src | grep -vE 'crates/(section|line)/|day_tests|ensures'; grep -rnE 'fn (track_kind|new_cabinet)\(' crates/section/src; }
inner() { grep -rnE '\.0 (==|<|>|<=|>=) ' crates/*/src | grep -vE ':[0-9]+: *//|ensures|requires|ghost'; }
variants() { grep -rnE 'matches!\(' crates/*/src; }
# 5: clauses that stand word for word in three contracts or more; what is passed together to three functions or more
clauses() { grep -rhoE '(ensures|requires)[a-z_ ]*\{ .* \}$' crates/*/src | sed -E 's/^(ensures|requires)[a-z_ ]*//' | sort | uniq -c | awk '$1 >= 3'; }
ways() { grep -rnoE 'L\.Line\.meaning L\.Line\.hears L\.Line\.drops L\.Line\.mends' crates/*/src; }
plans() { grep -rnE '^ +running_time: u32,' crates/*/src; }
# 6: arrays of a fixed length
arrays() { grep -rnE '\[[A-Za-z0-9_]+; [A-Za-z0-9_]+\]' crates/*/src | grep -vE '_tests/'; }
# 7: matches on which step to run, dyn values, function pointers
steps() { grep -rnE 'match (act|call|kind|self\.kind)\b|\bdyn |: fn\(' crates/*/src; }
# 8: files of answers, answers, and lines of proofs
answers() { git ls-files 'crates/*/Answers.antt'; }
each_answer() { git ls-files 'crates/*/Answers.antt' | xargs grep -hE '^pub [^ ]+ : goal\.'; }
proofs() { git ls-files 'crates/*/proofs/*.antt' | xargs cat; }

count() { printf '%-64s %s\n' "$1" "$($2 | wc -l)"; }

case "$1" in
1) refusals; numbers; kinds; flags; enums ;;
2) twins ;;
3) loops ;;
4) conversions; inner; variants ;;
5) clauses; ways; plans ;;
6) arrays ;;
7) steps ;;
8) answers ;;
*)
    count '1 refusals as an Option' refusals
    count '1 arms that match on the number of a kind' numbers
    count '1 numbers that stand for a kind' kinds
    count '1 flags answered by what alters something' flags
    count '1 enums of the repository (all, to be looked at)' enums
    count '2 pairs of six lines or more that are alike' twins
    count '3 loops over a range or with a condition' loops
    count '4 conversions, words and first values by hand' conversions
    count '4 comparisons of what a number wraps' inner
    count '4 tests of a variant by matches!' variants
    count '5 clauses that stand in three contracts or more' clauses
    count '5 the four members of a line passed together' ways
    count '5 the three numbers of a making passed together' plans
    count '6 arrays of a fixed length' arrays
    count '7 matches on a step, dyn, function pointers' steps
    count '8 files of answers' answers
    count '8 answers' each_answer
    count '8 lines of proofs' proofs
    ;;
esac
