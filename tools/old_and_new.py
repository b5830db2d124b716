#!/usr/bin/env python3
"""What differs between two checkouts, old above new: public functions with their clauses and public types of src/, definitions of specs/, and the statements of
theorems that README.md or docs/ name. Usage: old_and_new.py OLD NEW"""
import pathlib, re, sys, textwrap

def squeeze(text):
    return re.sub(r'\s+', ' ', text).strip()

def code(root):
    """Public functions, with their clauses, and public types, by crate and name."""
    found = {}
    for path in sorted(pathlib.Path(root).glob('crates/*/src/*.rt')):
        crate, holder, lines = path.parts[-3], '', path.read_text().split('\n')
        i = 0
        while i < len(lines):
            line = lines[i]
            if m := re.match(r'impl(?:<[^>]*>)? (?:(\w[\w<>]*) for )?(\w+)', line):
                holder = m.group(2) + '::'
            elif line.startswith('}'):
                holder = ''
            m = re.match(r'\s*pub (?:const )?(?:extern "C" )?fn (\w+)', line)
            t = re.match(r'pub (struct|enum|const|type) (\w+)', line)
            if m or t:
                j = i
                while not (re.search(r'\{$', lines[j]) and not re.match(r'\s*(requires|ensures)', lines[j]) or lines[j].strip() == '{' or lines[j].endswith(';')):
                    j += 1
                if t:
                    while t.group(1) in ('struct', 'enum') and not lines[j].startswith('}') and not lines[j].endswith(';'):
                        j += 1
                text = squeeze('\n'.join(lines[i:j + 1]))
                found[f'{crate}::{holder}{(m or t).group(1 if m else 2)}'] = re.sub(r' \{$', '', text)
                i = j
            i += 1
    return found

def definitions(root):
    """Declarations of specs/, by crate and name; a signature goes with its cases."""
    found = {}
    for path in sorted(pathlib.Path(root).glob('crates/*/specs/**/*.antt')):
        crate = path.parts[path.parts.index('crates') + 1]
        for block in re.split(r'\n\s*\n', path.read_text()):
            block = '\n'.join(l for l in block.split('\n') if not re.match(r'\s*--|use |pub use |module |pub mod ', l))
            for part in re.split(r'\n(?=(?:abbrev|unfoldable|pub|data|record) )', block):
                m = re.match(r'(?:abbrev |unfoldable |pub |data |record )+(\S+)', part.strip())
                if m:
                    found[f'{crate}.{path.stem}.{m.group(1)}'] = squeeze(part)
    return found

def theorems(root, names):
    found = {}
    for name in names:
        crate, _, file, item = name.split('.', 3)
        path = pathlib.Path(root) / 'crates' / crate / 'proofs' / f'{file}.antt'
        if not path.is_file():
            continue
        text = path.read_text()
        m = re.search(r'^\s*(?:(?:pub|abbrev|unfoldable|data|record) )*' + re.escape(item) + r'(?: [({][^\n]*)? :.*?(?=\n\s*(?:unfolding .*\n\s*)?' + re.escape(item) + r'\b|\n\n|\Z)', text, re.M | re.S)
        if m:
            found[name] = squeeze(m.group(0))
    return found

def named(root):
    pages = [pathlib.Path(root) / 'README.md'] + sorted(pathlib.Path(root).glob('docs/*.md'))
    names = set()
    for page in pages:
        names |= set(re.findall(r'`([a-z_]+\.proofs\.[A-Za-z]+\.[^` ]+)`', page.read_text()))
    return names

def show(title, old, new, gone=True, made=True):
    print(f'### {title}\n\n```text')
    for key in sorted(set(old) | set(new)):
        a, b = old.get(key), new.get(key)
        if a == b or (b is None and not gone) or (a is None and not made):
            continue
        print(key)
        for sign, text in (('-', a), ('+', b)):
            if text is not None:
                print('\n'.join(textwrap.wrap(text, 116, initial_indent=f'{sign} ', subsequent_indent='    ', break_long_words=False, break_on_hyphens=False)))
    print('```\n')

old, new = sys.argv[1:3]
show('Public functions with their clauses, public types', code(old), code(new))
show('Definitions', definitions(old), definitions(new))
names = named(old) | named(new)
show('Theorems that the pages name', theorems(old, names), theorems(new, names))
