#!/usr/bin/env bash
# Lists the places in src/ that a pass over the design reads, point by point. `tools/places.sh` counts, `tools/places.sh -l` lists.
cd "$(dirname "$0")/.." || exit 2
src() { git ls-files 'crates/*/src/*.rt'; }
show() { if [ "$list" = yes ]; then echo "== $1"; cat; else printf '%5d  %s\n' "$(wc -l)" "$1"; fi; }
list=no
[ "${1:-}" = -l ] && list=yes

src | xargs grep -nE '^\s*(pub(\([a-z]+\))? )?enum ' | show '1 enums'
src | xargs grep -nE '^\s+(pub )?[a-z_]+: bool,|\{ number: u|-> (u8|u16|\(u8.*)( \{)?$|-> (Option<u8>|Result<bool.*)( \{)?$' | show '1 flags in structs, numbers and flags as answers'
python3 - <<'E' | show '2 functions of one shape: a body alike but for names and values'
import re, subprocess
from collections import defaultdict
shapes = defaultdict(list)
for path in subprocess.check_output(['git', 'ls-files', 'crates/*/src/*.rt'], text=True).split():
    text = re.sub(r'//.*', '', open(path).read())
    for m in re.finditer(r'\bfn ([a-z_0-9]+)[^{;]*?(?:\s+(?:requires|ensures)[^\n]*)*\s*\{', text):
        depth, i = 1, m.end()
        while i < len(text) and depth:
            depth += {'{': 1, '}': -1}.get(text[i], 0)
            i += 1
        words = re.findall(r'[A-Za-z_0-9]+|[^\sA-Za-z_0-9]', text[m.end():i])
        keep = {'if', 'else', 'for', 'in', 'while', 'match', 'return', 'let', 'mut', 'self', 'Some', 'None', 'Ok', 'Err', 'as', 'true', 'false'}
        names, shape = {}, []
        for w in words:
            if re.match(r'[A-Za-z_]', w) and w not in keep:
                w = names.setdefault(w, 'v%d' % len(names))
            elif w.isdigit():
                w = '0'
            shape.append(w)
        if len(shape) >= 12:
            shapes[' '.join(shape)].append(path + ' ' + m.group(1))
for who in shapes.values():
    if len(who) > 1:
        print('; '.join(who))
E
src | xargs grep -nE '^\s*(for|while|loop)\b' | show '3 loops'
src | xargs grep -nE '^\s*for \w+ in [0-9a-z_.()]+\.\.|^\s*for \(\w+, \w+\) in .*enumerate' | show '3 of them over numbers or with a place beside each item'
src | xargs grep -nE '^impl.* (From|TryFrom|PartialEq|Ord|PartialOrd|Clone|Copy|Default|(fmt::)?Display)(<.*>)? for ' | show '4 impls written by hand'
src | xargs grep -nE ' as (u8|u16|u32|u64|usize|i16|i32|i64)\b' | show '4 conversions by as'
src | xargs grep -nE '\bfn (write_|text\b|call_name|read_number)' | show '4 texts written and read by functions'
src | xargs grep -hoE 'requires( [a-z_]+)? \{.*\}' | sed -E 's/requires( [a-z_]+)? //; s/\.(now|old|new)//g' | tr '×' '\n' | sed -E 's/^[{( ]+|[)} ]+$//g' | sort | uniq -c | awk 'NF > 1 && $1 > 2' | sort -rn | show '5 facts that three or more functions require'
python3 - <<'E' | show '5 functions with four parameters or more beside self'
import re, subprocess
for path in subprocess.check_output(['git', 'ls-files', 'crates/*/src/*.rt'], text=True).split():
    for m in re.finditer(r'\bfn ([a-z_0-9]+)(?:<[^>]*>)?\(([^)]*)\)', open(path).read()):
        names = [p.split(':')[0].strip() for p in re.sub(r'<[^>]*>|\[[^\]]*\]|\([^)]*\)', '', m.group(2)).split(',')]
        names = [n for n in names if n and 'self' not in n]
        if len(names) > 3:
            print(path, m.group(1), ', '.join(names))
E
src | xargs grep -nE '^\s+(pub(\([a-z]+\))? )?[a-z_]+: (Vec<|\[[A-Za-z0-9_]+; )' | show '6 vectors and arrays in structs'
src | xargs grep -nE '\bif \w+ (<|>=) [a-z_.]+\.len\(\)' | show '6 places looked up by hand'
src | xargs grep -nE '\bfn\(|\bdyn |impl Fn|: Fn' | show '7 closures, function pointers and dyn as parameters'
git ls-files 'crates/*/proofs/*.antt' | xargs grep -hE ': goal\.' | show '8 answers and invariants'
git ls-files 'crates/*/proofs/*.antt' | xargs cat | show '8 lines of proofs'
