#!/usr/bin/env bash
# Where src/ may still be written in older forms, point by point as docs/DESIGN-PASS.md counts them: lines to be read, not verdicts.
# Run at the top of a checkout.
set -euo pipefail
cd "$(dirname "$0")/.."
src() { grep -rnE --include='*.rt' "$@" crates/*/src | grep -vE ':[0-9]+: *//' || true; }
head() { printf '\n== %s\n' "$*"; }

head "1 own enums, sentinels, flags, numbers for kinds or refusals, errors passed on by hand"
src '\benum [A-Z]'
src '(==|!=) 0 (\{|&&)|(==|>=|<) 16 \{|^ +16$|return (0|16);|best == 0'
src '^ +(pub )?[a-z_]+: bool,|fn [a-z_]+\(.*\) -> \(.*bool'
src 'fn number\(self\)|Err\([a-z_]+\) => return|else \{$'
head "2 names of functions that stand more than once, and bodies that differ in a name"
grep -rohE --include='*.rt' '\bfn [a-z_]+' crates/*/src | sort | uniq -c | awk '$1 > 1'
head "3 loops"
src '\b(for [a-z_(),& ]+ in|while|loop) .*\{$'
head "4 equality, order, conversion, copying and printing by hand"
src '=> (true|false),$|\bfn (write_[a-z]+|of|of_walk|number|pack|unpack|is_digit)\b|impl.* (From|Display)\b'
head "5 facts in three contracts or more, and parameters that go together in three functions or more"
grep -rohE --include='*.rt' 'requires ([a-z]+ )?\{ .* \}' crates/*/src | sed -E 's/requires [a-z]+ /requires /' | sort | uniq -c | awk '$1 > 2'
for pair in 'system: &M.*tree: &Tree' 'asker: u32.*granule: usize.*target: u8' 'tree: &Tree.*shelf: &(mut )?S' 'granule: usize.*mode: u8'; do
    printf '%s: ' "$pair"
    find crates/*/src -name '*.rt' -exec cat {} + | tr '\n' ' ' | grep -oE "fn [a-z_]+(<[^(]*>)?\([^)]*\)" | grep -cE "$pair" || true
done
head "6 fixed buffers, arrays beside one another"
src '^ +(pub )?[a-z_]+: \[|^ +(len|granules): usize,'
head "7 steps by a switch, functions in tables"
src 'match \*?letter|match \(letter|match setting|\bFn(Once|Mut)?\b|\bdyn\b'
head "8 proofs: files of answers, answers, lemmas, lines"
find crates/*/proofs -name Answers.antt | wc -l
grep -rhE '^pub [^ ]+ : goal\.' crates/*/proofs | wc -l
find crates/*/proofs crates/*/specs -name '*.antt' ! -name Answers.antt ! -name Invariants.antt ! -name Lib.antt -exec grep -hE '^ *(pub |abbrev |unfoldable )*[a-z_]+ :' {} + | wc -l
find crates/*/proofs -name '*.antt' -exec cat {} + | wc -l
