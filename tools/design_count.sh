#!/usr/bin/env bash
# Counts the places of docs/DESIGN-PASS.md that a command can count, in the src/ folders of a checkout (the folder given, or this one).
cd "${1:-$(dirname "$0")/..}" || exit 1
src=$(ls crates/*/src/*.rt)

# count NAME PATTERN: the lines that fit, without comments.
count() { printf '%-58s %s\n' "$1" "$(grep -hE -- "$2" $src | grep -cvE '^\s*//')"; }

count '1 own enums, all' '^ *(pub )?enum '
count '1 refusals as a number and a place' 'Refused\(|Stop\('
count '1 kinds as constants of u8' 'const [A-Z]+: u8 = '
count '1 tests of kinds as numbers' '== (postfix|columns)::|(<|<=|==|!=) (FLOW|LEAF|XOR|ONE|LOOP|SET|TYPED|NAMED|CLEARED)\b|\b(kind|code|form|c|op|reset|result|w) (==|<|<=|!=) [0-9]+|[^=<>!] ?\b[0-9]+ < c\b'
count '2 one reader, store or number for each width' 'base::(byte|short|number|put_byte|put_number|half|word|long)\(|columns::number\('
count '2 functions passed_on and refuse' 'fn (passed_on|refuse)\b'
count '3 loops that are no for' '^\s*(while|loop)\b'
count '4 conversions and comparisons by own functions' 'base::(wide|wide_short|equal)\('
count '4 conversions by as' ' as (u8|u16|u32|u64|usize)\b'
count '5 requires on the lexicon' 'requires .*(Lexicon|Lent)'
count '5 requires on a number of a node or a count of nodes' 'requires .*(i < 256|count ≤ 256)'
python3 - $src <<'PY'
# Signatures whose parameters have all of a group.
import re, sys
groups = ['text lexicon', 'text rows lexicon', 'text at n rows lexicon', 'rows i', 'kinds sizes depths', 'out at', 'text v out at', 'listing table']
found = dict.fromkeys(groups, 0)
for name in sys.argv[1:]:
    text = re.sub(r'//.*', '', open(name).read())
    for m in re.finditer(r'\bfn \w+(?:<[^>]*>)?\(([^{]*?)\)\s*(?:->|\n|\{)', text, re.S):
        names = [p.strip().split(':')[0].replace('mut ', '').strip() for p in re.split(r',(?![^\[(]*[\])])', m.group(1)) if p.strip()]
        for g in groups:
            if set(g.split()) <= set(names):
                found[g] += 1
for g in groups:
    print(f'{"5, 6 signatures with " + g:<58} {found[g]}')
PY
