#!/usr/bin/env bash
# The places that the design pass goes by, of each of its eight points, in a commit: tools/places.sh COMMIT [POINT].
# A line that is found is a place to look at, no verdict; docs/DESIGN-PASS.md says what became of each.
set -eu
commit=${1:?usage: tools/places.sh COMMIT [POINT]}
point=${2:-all}
found() { git grep -nE "$1" "$commit" -- 'crates/*.rt' | sed "s/^$commit://" || true; }
show() {
  if [ "$point" = all ] || [ "$point" = "$1" ]; then
    lines=$(cat)
    printf '%s. %s: %s\n' "$1" "$2" "$(printf '%s' "$lines" | grep -c . || true)"
    [ "$point" = all ] || printf '%s\n' "$lines"
  else
    cat > /dev/null
  fi
}

# enums that may be an Option or a Result, results in results, refusals in an Option, 0 for none, numbers for kinds
found '^pub enum |Result<Result<|Option<Refusal>|Err\(AllocError\)|_KINDS: u8|0 where|^ +[A-Za-z:]+ => [0-9]+,$|^ +[0-9]+ => ' | show 1 'shapes of Option and Result, numbers for kinds'
# functions and types whose names stand in more than one place, but for methods that a trait asks for
found '^ *(pub(\([a-z]+\))? )?(fn|struct|enum|trait) [A-Za-z_0-9]+' | grep -vE 'fn (len|event|append|size|kinds|rank|next|empty|fmt|from|try_from|run|main|new|drop)\b' \
  | sed -E 's/^(.*):[0-9]+: *(pub(\([a-z]+\))? )?(fn|struct|enum|trait) ([A-Za-z_0-9]+).*/\5 \1/' | sort -u | awk '{n[$1]++; p[$1] = p[$1] " " $2} END {for (k in n) if (n[k] > 1) print k ":" p[k]}' | sort | show 2 'names that stand twice'
# loops over numbers, and loops that count by hand
found '^ *(for [a-z_]+ in [^ ]+\.\.|while |loop \{)' | show 3 'loops over numbers, by while and by loop'
# conversions and prints by hand, and what may be derived
found '^ *(pub(\([a-z]+\))? )?fn (code|from_code|number|bit|word|name|digits|bytes|write_number|put_byte|put_number|put_word|put_head|level_word|level_named|kind|item|level_or_writer|modification|words_of|event_of|summary|refusal_line|grown|number_on|leading)\(|^impl.* (From|Drop|Clone|PartialEq)(<.*>)? for ' | show 4 'conversions and prints'
# clauses that stand word for word in three functions or more, and premises of tracking and numbering
{ git grep -hE '^ +(ensures|requires)' "$commit" -- 'crates/*.rt' | sed 's/^ *//' | sort | uniq -c | awk '$1 > 2'; found 'ensures.*(Tracks|Numbers) (table|vertices|self)[^ ]* [^→]*→'; } | show 5 'facts in three contracts or more'
# lengths beside buffers, arrays side by side, places by number
found '^ *(pub )?(used|count|size): (u16|usize),|\[u16; 256\]|begins: |ends: |places: Vec|index: Vec' | show 6 'buffers with a length, arrays side by side'
# choices of the next step
found 'if let Found::Walk|match \*letter' | show 7 'choices of the next step'
# answers of proofs
git grep -nE '^pub [^ ]+ : goal\.' "$commit" -- 'crates/*.antt' | show 8 'answers in proofs'
