#!/usr/bin/env python3
"""Places in src/ that today's forms of Rattle can say better, by the points of docs/DESIGN-PASS.md.

    python3 tools/places.py [ROOT]      counts
    python3 tools/places.py [ROOT] N    the places of point N
"""
import glob, re, sys

root = '.'
args = sys.argv[1:]
if args and not args[0].isdigit():
    root = args.pop(0)
only = int(args[0]) if args else None

files = {}
for path in sorted(glob.glob(root + '/crates/*/src/**/*.rt', recursive=True)):
    files[path[len(root) + len('/crates/'):]] = open(path).read()


def lines(pattern, flags=0):
    """Lines of src/ that match."""
    out = []
    for path, text in files.items():
        for n, line in enumerate(text.split('\n'), 1):
            if re.search(pattern, line, flags):
                out.append('%s:%d: %s' % (path, n, line.strip()[:110]))
    return out


def functions():
    """Each function: path, line, name, parameters, the whole head."""
    for path, text in files.items():
        for m in re.finditer(r'^[ ]*(?:pub )?(?:extern "C" )?fn ([a-z_0-9]+)(<[^(]*>)?\(', text, re.M):
            depth, i = 1, m.end()
            while depth:
                depth += {'(': 1, ')': -1}.get(text[i], 0)
                i += 1
            inside = text[m.end():i - 1]
            level, parts, part = 0, [], ''
            for ch in inside:
                if ch == ',' and level == 0:
                    parts.append(part)
                    part = ''
                    continue
                level += {'<': 1, '(': 1, '[': 1, '>': -1, ')': -1, ']': -1}.get(ch, 0)
                part += ch
            parts.append(part)
            parts = [p.strip() for p in parts if p.strip()]
            yield path, text[:m.start()].count('\n') + 1, m.group(1), parts


def point1():
    """Enums with a variant that refuses or holds nothing, answers in which a number stands for nothing, and flags with a value beside them."""
    out = []
    for path, text in files.items():
        for m in re.finditer(r'^pub enum (\w+) \{\n(.*?)^\}', text, re.M | re.S):
            if re.search(r'\b(Refused|Cut|NoRoom|Falls)\b', m.group(2)):
                out.append('%s: enum %s' % (path, m.group(1)))
    out += lines(r'^\s*//.*\b(or 0 where|otherwise 0|0 where|65,535 where|is 0 where)')
    out += lines(r'^\s*pub (unread|falls): bool')
    return out


def point2():
    """Functions that differ by a class of tables or by a size alone."""
    return lines(r'\bfn [a-z]\w*_(small|middle|large|full|short|few|all_rows_at)\b|\bfn (few_rows_at|all_rows_at|[a-z_]+_with)\b')


def point3():
    """Loops that count by hand."""
    return lines(r'^\s*while ')


def point4():
    """Equality, order, copying and conversion by hand."""
    return lines(r'\bfn (same|same_bytes|larger|both|number|copy|copy_[a-z_]+|same_[a-z_]+)\b')


def point5():
    """Functions of nine parameters or more, and clauses that repeat that an index is over its keys."""
    out = ['%s:%d: fn %s takes %d' % (p, n, f, len(ps)) for p, n, f, ps in functions() if len(ps) >= 9]
    return out + lines(r'IndexOf [a-z_]*index|Indexed [a-z_]*index')


def point6():
    """Functions that take three or more parallel tables, and tables with a count beside them."""
    out = []
    for p, n, f, ps in functions():
        tables = [x for x in ps if re.match(r'(keys|kinds|index|names|wanted|places|children|entries|heads|rows|ids|words|read)\s*:\s*&', x)]
        if len(tables) >= 3:
            out.append('%s:%d: fn %s takes %d' % (p, n, f, len(tables)))
    return out


def point7():
    """Switches on which step to run."""
    return lines(r'if (larger|which|step) == \d|match (larger|which|step)\b')


points = [point1, point2, point3, point4, point5, point6, point7]
for k, point in enumerate(points, 1):
    if only in (None, k):
        found = point()
        print('point %d: %d  %s' % (k, len(found), point.__doc__))
        if only:
            print('\n'.join(found))
answers = glob.glob(root + '/crates/*/proofs/**/Answers.antt', recursive=True)
if only in (None, 8):
    text = [open(a).read() for a in answers]
    print('point 8: %d files of answers, %d answers, %d lines' % (len(text), sum(t.count('\npub ') + t.startswith('pub ') for t in text), sum(t.count('\n') for t in text)))
