#!/usr/bin/env bash
# Counts the places of each point of docs/DESIGN-PASS.md, crate by crate with -v. Run at the top of a checkout.
set -euo pipefail
cd "$(dirname "$0")/.."
verbose=${1:-}

# A row: the point, what is counted, and the pattern over src/ (or, with a folder pattern, over other files).
count() {
    local point=$1 what=$2 pattern=$3
    shift 3
    local found
    [ $# -gt 0 ] || set -- crates/*/src
    found=$(grep -rnE "$pattern" "$@" --include='*.rt' || true)
    printf '%-3s %5d  %s\n' "$point" "$(printf '%s' "$found" | grep -c . || true)" "$what"
    if [ "$verbose" = -v ]; then printf '%s\n' "$found" | sed 's/^/           /' | cut -c1-140; fi
}

count 1a 'enums of the shape of Option' '^(pub )?enum (Found|Scan|Asked)\b'
count 1b 'a flag or a refusal with values beside it' '^\s+(pub )?(refusal: u32|good: bool|formed: bool),'
count 1c 'refusals answered as numbers, but in C exports' 'ensures.*result ≡ refusal_(of|in) ' $(ls -d crates/*/src | grep -v c_api)
count 1d 'tests of such a number' '\b(refus|checked|told|first|second|visited|performed|r)[a-z_.]* (!=|==) [01]\b|refusal [!=]= 0'
count 1e 'arms that match on the number of a kind' '^\s+[0-9]+ (\| [0-9]+ )*=> '
count 1f 'constants that number a kind' '^\s*(pub )?const [A-Z_]+: (u32|usize) = [0-9];'
count 2a 'blank arrays, one function for each size' 'fn blank'
count 2b 'ladders of areas' 'within\(50,'
count 2c 'numbers read from bytes, one function for each size' 'fn (load_two|load_four|load_six|load_eight|half|word|turned)\('
count 2d 'functions for one sheet and for two in the programs and by place' 'fn (check|lookup|add|remove|part|perform|run|print_sheets|answer|answer_calls|replay|history|[a-z_]+_two)\b' crates/replay/src crates/replay_two/src crates/by_place/src crates/script/src crates/c_api/src
count 2e 'functions that differ in the sheet or the fields that they copy' 'fn (plain_at|bookkeeping_at|plain|bookkeeping|split_plain|split_bookkeeping|plain_alone|bookkeeping_alone|plain_fills|bookkeeping_fills)\b' crates/two_join/src crates/two_check/src
count 2f 'functions that differ in a constant' 'fn (is_committed|not_committed|not_aborted|any_decision|no_decision|same_first|less_first|has_line|cannot_abort|not_open|add|remove|to_add|to_remove|prepare|commit|roll_forward|roll_back|commit_group|prepare_group|forward_group|back_group|rank_of|line_of)\b' crates/well_formed/src crates/coordinator_check/src crates/put_groups/src crates/group_writes/src crates/codec/src/settling.rt crates/codec/src/writing.rt
count 3a 'loops by while' "^\s+('[a-z]+: )?(while|loop) "
count 3b 'loops by for over a range of indices' '^\s+for [a-z_]+ in .*\.\.'
count 4 'equality, order, copying, conversion and printing by hand' 'fn (same_key|same_first|less_first|less|same|put|same_bytes|copy_eight|copy_rest|copy_part|move_block|state_of|state_number|before_of|before_number|decision_number|is_zero|is_nothing|is_committed|not_committed|not_aborted|one_if|bit|wide|higher|lower|as_count|number_of|words|is_number|absence|reply|visit_form|numbers_of|fill_key|undecided)\b'
count 5a 'records_accepted in a requires' 'requires.*records_accepted'
count 5b 'count ≤ 8 in a requires' 'requires.*\.count ≤ 8'
count 5c 'count ≤ reply_numbers, fill ≤ 4096' '(requires|ensures).*(≤ reply_numbers|≤ 4096)'
count 5d 'below ≤ 500' '(requires|ensures).*below ≤ 500'
count 5e 'lengths of a record line' '(requires).*length line\.(now|old) ≡ record_bytes'
count 5f 'a transaction and what was located' '\blocated: Located'
count 6a 'buffers with a length beside them' '^\s+(pub )?(fill|count): (usize|u32),$|fill: usize\)'
count 6b 'parallel arrays' '^\s+pub (indices|of): \[' 
count 6c 'lists searched by hand' '(return Some\(i\)|Found::At\(i\);|low = middle|return Scan::Number\(i\))'
count 7 'parameters that choose what is done' '\b(before|line|add|two|lower|own|counts|stays): bool|\bc: Effect\b'
answers() { find crates/*/proofs -name Answers.antt; }
printf '%-3s %5d  %s\n' 8a "$(answers | wc -l)" 'files of answers'
printf '%-3s %5d  %s\n' 8b "$(answers | xargs grep -hE '= search rules$' | wc -l)" 'answers that say only `search rules`'
printf '%-3s %5d  %s\n' 8c "$(answers | xargs grep -hoE '\(let it : ' | wc -l)" 'local lemmas written out in answers'
printf '%-3s %5d  %s\n' 8d "$(answers | xargs cat | grep -vc '^\s*$')" 'lines of answers'
