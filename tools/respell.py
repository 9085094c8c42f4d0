#!/usr/bin/env python3
"""Brings the names of this repository's definitions and laws to the spelling of today's Rattle, once.

usage: python3 tools/respell.py          at the top of the repository, right after the kit's port.py

A definition, a field, a constructor or a law is written in snake case; a dash in a law's name stays where the part after it
is the name of a definition or of a word of the library, and is an underscore before a plain word. Types and modules keep
their names, and so do the functions of src/. Rewritten are crates/*/src, specs, proofs and must-fail, and the words in
backquotes of the documents. A name that would fall together with another one keeps its spelling, and is printed.
"""
import glob
import pathlib
import re
import sys

ID = r"[^\W\d][\w\-'?₀₁₂₃₄₅₆₇₈₉]*"
TOKEN = re.compile(r"(?<![\w\-'?])" + ID)
SIGNATURE = re.compile(r"^\s*(?:(?:abbrev|unfoldable|pub|opaque)\s+)*(?P<names>" + ID + r"(?:\s+" + ID + r")*)\s*:(?!=)\s")
USE = re.compile(r"use\s+([\w.+\-']+)\.\{([^}]*)\}")
# Words of the library that laws are named after.
WORDS = set('''append length drop take get_or set map reverse replicate sum min max le lt eq ne add sub mul div mod pow suc zero
    cons nil and or not cond fst snd true false ltb leb eqb ones bit byte list gathered'''.split())
# Laws that have the very name of a definition once its capitals are gone: their two words are joined by a dash.
APART = {name: name.replace('_', '-') for name in '''bit_word has_room in_list laid_out node_at none_in one_more read_back value_in
    word_count written_back'''.split()}
# What Rattle makes, and names of proofs: they are no names of this repository.
MADE = re.compile(r"-(Inv|μ)-|^(returns|loop|in|index|overflow|bounds)-\d*$|-spec$|-Reads?$|-reads$|-lts$|-kinds$")


def texts():
    return sorted(glob.glob('crates/*/specs/**/*.antt', recursive=True) + glob.glob('crates/*/proofs/**/*.antt', recursive=True))


def defined():
    """The names that specs/ and the law files define, and all names that are defined anywhere."""
    own, every, imported = set(), set(), set()
    for path in texts():
        parts = pathlib.Path(path).parts
        proof = parts[2] == 'proofs' and len(parts) > 4
        for line in pathlib.Path(path).read_text(encoding='utf-8').split('\n'):
            bare = line.strip()
            if bare.startswith('--') or bare.startswith('let '):
                continue
            for where, names in USE.findall(line):
                if not where.startswith('Rattle.') or where.startswith('Rattle.std'):
                    imported.update(n.split(' as ')[-1].strip() for n in names.split(','))
            match = SIGNATURE.match(line)
            if match:
                names = match.group('names').split()
                every.update(names)
                if not proof:
                    own.update(names)
    return own, every, imported


def snake(name):
    return re.sub(r'(?<=[a-z0-9])([A-Z])', lambda m: '_' + m.group(1).lower(), name)


def respelled(name, bases):
    """The name in today's spelling."""
    if not re.match(r'[a-zμκ]', name):
        return name
    parts = name.split('-')
    out = parts[0] if re.match(r'[A-Z]', parts[0]) else snake(parts[0])
    for part in parts[1:]:
        plain = part.rstrip("'?")
        if re.match(r'[A-Z]', part):
            out += '-' + part
        elif plain in bases or snake(plain) in bases or plain in WORDS:
            out += '-' + snake(part)
        else:
            out += '_' + snake(part)
    return out


def renames():
    for path in texts():
        file = pathlib.Path(path)
        text = file.read_text(encoding='utf-8')
        new = re.sub(r"(?<![.\w\-'?])" + ID, lambda m: APART.get(m.group(0), m.group(0)), text)
        if new != text:
            file.write_text(new, encoding='utf-8')
    own, every, imported = defined()
    # What a law can be named after: a definition whose own name has no dash and is more than a plain word.
    bases = {snake(n) for n in own if '-' not in n and (re.search(r'[A-Z_]', n[1:]))}
    taken = set(every) | imported
    table, kept = {}, []
    # Definitions before laws: where a definition and a law would fall together, the law keeps its dash.
    for name in sorted(own, key=lambda n: ('-' in n, n)):
        if MADE.search(name):
            continue
        new = respelled(name, bases)
        if new == name:
            continue
        if new in taken or new in table.values():
            kept.append((name, new))
            continue
        table[name] = new
    return table, kept


def main():
    root = pathlib.Path('.')
    if not (root / 'crates.txt').is_file():
        print(__doc__)
        return 2
    table, kept = renames()
    swap = lambda m: table.get(m.group(0), m.group(0))
    count = 0
    places = texts() + sorted(glob.glob('crates/*/src/**/*.rt', recursive=True) + glob.glob('crates/*/must-fail/*.edit'))
    for path in places:
        file = pathlib.Path(path)
        text = file.read_text(encoding='utf-8')
        new = TOKEN.sub(swap, text)
        if path.endswith('.rt'):
            for line in new.split('\n'):
                for word in re.findall(r'\b(?:fn \w+(?:<[^>]*>)?\(|, |\()(?:mut )?(\w+): ', line):
                    if word in table.values():
                        print(f'look: {path}: a parameter `{word}` has the name of a definition')
        if new != text:
            count += 1
            file.write_text(new, encoding='utf-8')
    for path in ['README.md', 'CONTRIBUTING.md', 'docs/DECISIONS.md', 'docs/STATEMENTS.md', 'docs/FORMAT.md', 'docs/RECORDS.md', 'reference/README.md']:
        file = root / path
        if file.is_file():
            text = file.read_text(encoding='utf-8')
            file.write_text(re.sub(r'`[^`\n]*`', lambda m: TOKEN.sub(swap, m.group(0)), text), encoding='utf-8')
    print(f'respell: {len(table)} names in {count} files')
    for name, new in kept:
        print(f'kept: {name}: {new} is there')
    return 0


if __name__ == '__main__':
    raise SystemExit(main() or 0)
