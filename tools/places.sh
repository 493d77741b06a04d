#!/bin/bash
# Counts the places that docs/DESIGN-PASS.md speaks of; run at the top of a checkout. It reads crates/*/src and proofs alone.
find_in() { grep -rnE "$1" crates/*/src --include=*.rt | grep -vE '^[^:]*:[0-9]+: *//'; }
say() { echo "$1: $(cat | grep -c .)"; }
find_in 'enum (Line|Maybe)' | say "1 own enums of the shape of Option or Result"
find_in 'Err\(_\) => Err\(' | say "1 errors turned into others by a match"
find_in '=> [0-9]+,$' | grep -v need.rt | say "1 numbers of kinds in a table beside the enum, lines"
find_in 'fn (refuse_if|refusal|quiet|replica_of|worker|reported|is_reported|report|perform(_held)?|carry_out(_held)?|made_[a-z]+)\b|enum (Work|Call|Wanted|Need)\b' | say "2 declarations of twins and of those beside them"
find_in 'for [a-z_]+ in [0-9]+\.\.' | say "3 ranges counted over"
find_in 'as usize\]|\[i\]' | say "3 elements read by a counted index"
find_in '\.is\(|fn is\(|fn same_|fn is_view|[a-z]\.0 == [a-z.]+\.0' | say "4 equality by hand"
find_in '\.0 (<|>|<=|>=) [a-z0-9_(]|> 1_000_000_000|[<=] 1_000_000_000' | grep -v ensures | say "4 order by hand"
find_in 'Display for Shown|fn (power_name|stage_name)' | say "4 printing round a type of another crate"
find_in 'fn (made_[a-z]+|report|made_work)\(' | grep -v starred | grep -v HostRuntime | say "4 conversions by hand"
find_in '(requires|ensures)[^{]*\{[^}]*< 16' | say "5 a number below sixteen in clauses"
find_in '(requires|ensures)[^{]*\{ *keeps_rules .*≡ true' | say "5 a page that keeps the rules in clauses"
find_in 'record \{ pages = ' | say "5 a world written out in clauses"
grep -rPzo 'rule: &R,\s*need: Need,\s*replica: u8' crates/*/src --include=*.rt | tr '\0' '\n' | grep 'rule: &R' | say "5 rule, need and replica in a row"
find_in 'newcomers: ReplicaSet' | say "5 members and newcomers side by side"
find_in '&Vec<' | say "6 borrowed vectors in place of slices"
find_in 'for back in' | say "6 lists searched by hand"
find_in 'enum (Claim|Task)\b' | say "7 enums that say which step to run"
echo "8 proof files: $(find crates/*/proofs -name '*.antt' | wc -l), lines: $(cat $(find crates/*/proofs -name '*.antt') | wc -l)"
