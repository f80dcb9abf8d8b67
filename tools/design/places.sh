#!/usr/bin/env bash
# Counts the places of the points of docs/DESIGN-PASS.md in src/, a line for each search; -v lists them too. Run it at the
# top of the repository.
c() { local n; n=$(grep -rnE "$2" crates/*/src --include='*.rt' | grep -vE '^[^:]+:[0-9]+: *//' | grep -vE "${3:-^$}" | { [ "$V" ] && tee /dev/stderr || cat; } | wc -l); printf '%-6s %4d  %s\n' "$1" "$n" "$2"; }
[ "$1" = -v ] && V=1
c 1a '^(pub )?enum '
c 1b '^ *(pub )?(asking|ending|reply|read): [A-Z]'
c 1c '=> [0-9]+,$|=> (not_read|refused)\((out, )?[0-9]+\)|refusal: [0-9]+,$|: refused [0-9]+|refused\(out, [0-9]+\)'
c 1d '^ *[A-Z][a-z]+::[A-Z][A-Za-z]+(\([^)]*\))?( \| .*)? => .*[A-Z][a-z]+::[A-Z][A-Za-z]+'
c 1e 'let [A-Z][a-z]+::[A-Z][A-Za-z]+(\([^)]*\)) = .* else'
c 2a 'fn (clear_words|clear_bytes|wide|size_answer|legal_answer|set_answer|number_answer|head_answer|encoded_len|decimal_len)\b'
c 2b '^pub fn (start|enable|disable|add_policy|tags_of|size_of|is_legal|rank|replay)\('
c 2c '^pub extern "C" fn '
c 3 "^ *('[a-z]+: )?(while|loop)\b"
c 4a ' as (u32|u64)\b'
c 4b '^ *([a-z_]+): \1,$'
c 4c '^ *let [a-z_]+ = [a-z_]+\.[a-z_]+;$'
c 4d 'fn equals\b|\(f\.number != 0\) \|'
c 4e 'fn [a-z_]+\(.*\) -> (CallAnswer|SetAnswer|SizeAnswer|LegalAnswer|ReplayAnswer|NumberAnswer|WriteAnswer|RecordAnswer|u32)$' 'pub fn'
c 5a '^ *(pub )?fn .*|^    policies: &(mut )?\[u64\],' '(pub )?fn '
c 5b 'requires \{ \(?(self\.old\.)?at ≤ [0-9]+'
c 6a '\[Flow; 512\]'
c 6b '^ *lent: usize,'
c 6c '^ *(pub )?(count|length|end|m|n): usize,|, (m|n|length|count): (usize|u32)[,)]'
c 7a 'Command::[A-Z][a-z]+'
c 7b '=> (asks|changes|pokes|runs|large|logs|numbers|sets)::'
