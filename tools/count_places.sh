#!/usr/bin/env bash
# Counts lines in which places of an older form of the language may stand. Run it at the top of the repository.
count() { printf '%s\t%s\n' "$1" "$(wc -l)"; }
src() { grep -rnE "$1" crates/*/src; }
src '^ *(pub |pub\(crate\) )?enum ' | count '1a enums'
src 'Result<[A-Za-z]+, u[0-9]+>|fn (from_code|code)\b' | count '1b numbers as errors or kinds'
src 'let mut [a-z_]+ = (false|true)|== 0 \{ None \}|[a-z] == 0 \|\|' | count '1c flags, and 0 for none'
src '^ *(Some|Ok|Err)\(.*\) =>|^ *None =>' | count '1d arms over an Option or a Result'
src 'unreachable' | count '1e unreachable'
src '^ *(for|while|loop)\b' | count '3a loops'
src '^ *for [a-z]+ in 0\.\.' | count '3b loops over numbers'
src 'fn (of|from_[a-z_]+|to_[a-z_]+|copied|code)\b' | count '4a conversions by hand'
src 'derive\(' | count '4b derives'
src 'derive\(.*PartialEq' | count '4c derives with PartialEq'
src '^ *requires' | count '5a requires'
src 'plan: &Plan, counts: &Counts|bytes: &\[u8\], (header|at)' | count '5b parameters that travel together'
src '\[(u8|u16|u32|bool|PlaceRecord|StockRecord|W); ([0-9]+|[A-Z]+)\]' | count '6 fixed arrays'
src '\bfn\(|dyn |Fn(Mut|Once)?\(' | count '7 function values'
git ls-files 'crates/*/proofs/*Answers.antt' | count '8a files of answers'
git ls-files 'crates/*/proofs/*Invariants.antt' | count '8b files of invariants'
git ls-files 'crates/*/proofs/*.antt' | xargs cat | count '8c lines of proofs'
