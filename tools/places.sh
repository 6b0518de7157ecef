#!/usr/bin/env bash
# Counts the places of docs/DESIGN-PASS.md in the sources of a commit: tools/places.sh COMMIT [--list].
set -eu
cd "$(dirname "$0")/.."
commit=${1:?a commit}
list=${2:-}

# A point, what is counted, and the pattern that finds it in crates/*/src/*.rt.
count() {
	local found
	found=$(git grep -nE -e "$3" "$commit" -- 'crates/*/src/*.rt' || true)
	printf '%s|%s|%s\n' "$1" "$2" "$(printf %s "$found" | grep -c . || true)"
	if [ "$list" = --list ]; then printf '%s\n' "$found" | sed 's/^/    /'; fi
}

count 1 'a flag, or an answer, with values beside it' '^\s*(pub )?(answer|ok|found|some|over|serves): (bool|Answer),'
count 1 'an own enum for results and refusals' 'pub enum Answer|-> Answer\b'
count 1 'a test of the number of an answer' '(number\((a|answer)\)|if number) != 0'
count 1 'a number that stands for none' '(TOP|MARK) as usize|from\(MARK\)|_ => 16|(place|size): usize = 0|(place|size) == 0'
count 1 'a number for a kind, a service, a version or a form' '\b(kind|service|form|version): (u8|usize)'
count 2 'a function for each width' 'fn [a-z_]*(8|16|32|64)\('
count 2 'a function or a type that stands twice but for a name' 'fn (read_full|hour_part|part_of|hour_sums|sums_of|put_house|put_section|put_head|put_refused|one|two|four)[<(]|struct (Hour)?(Part|Sums) '
count 3 'a while loop' '^\s*while '
count 4 'a conversion, or the greater or lesser, by hand' '\b(wide8|wide32|word8|long16|long32|greater|lesser|least)\('
count 4 'a cast' ' as (u8|u16|u32|u64|usize|i16|i32|i64)\b'
count 4 'copying, filling, blank values and printing by hand' 'fn (blank_section|blank_job|put|fresh|holds_only|get|value|digit|hex|put_decimal)\('
count 5 'the six tables of the search in a clause' 'net_of sections sizes'
count 5 'a fact of a job or a catalogue in a clause' '(requires|×).*(Rooted job|Kinds job|Valid job|Accepted job|Given job|AcceptedCat cat|Sized cat)'
count 6 'a place in a buffer handed on and back' '(at|from): usize\) -> usize|(at|from): usize,.*-> usize|let at = put_'
count 6 'flows, velocities and losses side by side' 'velocities: \[u32; 64\]'
count 6 'a sorted list searched by hand' '\(hi - lo\) / 2'
count 7 'a switch on which step to run' 'begun: bool|skip: usize|match letter'
printf '8|a proof that walks the code|%s\n' "$(git ls-tree -r --name-only "$commit" -- crates | grep -c '/Proof\.antt$' || true)"
printf '8|an invariant or an answer|%s\n' "$(git ls-tree -r --name-only "$commit" -- crates | grep -cE '/(Invariants|Answers)\.antt$' || true)"
printf '8|lines of proofs|%s\n' "$(git ls-tree -r --name-only "$commit" -- crates | grep -E '^crates/[a-z_]+/proofs/.*\.antt$' | while read -r f; do git show "$commit:$f"; done | wc -l)"
