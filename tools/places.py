#!/usr/bin/env python3
"""Lists places in crates/*/src of the forms that docs/DESIGN-PASS.md counts: places.py POINT [ROOT]."""
import os
import re
import sys
from collections import defaultdict


def sources(root):
    for folder, folders, files in os.walk(os.path.join(root, 'crates')):
        folders[:] = sorted(d for d in folders if d not in ('out', 'specs', 'proofs', 'must-fail', 'held-back', 'data'))
        for name in sorted(files):
            if name.endswith('.rt'):
                path = os.path.join(folder, name)
                yield os.path.relpath(path, root), open(path).read()


def matching(root, *patterns):
    for path, text in sources(root):
        for number, line in enumerate(text.split('\n'), 1):
            if line.lstrip().startswith('//'):
                continue
            for pattern in patterns:
                if re.search(pattern, line):
                    yield f'{path}:{number}: {line.strip()}'
                    break


def functions(root):
    """Path, line, name, signature, clauses and body of each function with a body."""
    for path, text in sources(root):
        lines = text.split('\n')
        i = 0
        while i < len(lines):
            m = re.match(r'^(\s*)(pub(\(crate\))? )?(const )?fn (\w+)', lines[i])
            if not m:
                i += 1
                continue
            indent, name, start = m.group(1), m.group(5), i
            signature, clauses, body, part = [], [], [], 'signature'
            while i < len(lines):
                line = lines[i]
                stripped = line.strip()
                if part != 'body' and re.match(r'(requires|ensures)\b', stripped):
                    part = 'clauses'
                if part == 'body':
                    if line.startswith(indent + '}') and len(line.rstrip()) == len(indent) + 1:
                        break
                    body.append(stripped)
                elif part == 'clauses':
                    if line == indent + '{' or line == indent + '{}':
                        part = 'body'
                        if stripped == '{}':
                            break
                    else:
                        clauses.append(stripped)
                else:
                    signature.append(stripped)
                    if stripped.endswith('{') and not stripped.endswith('where {'):
                        part = 'body'
                    elif stripped.endswith('{}') or stripped.endswith(';'):
                        break
                i += 1
            yield path, start + 1, name, ' '.join(signature), clauses, body
            i += 1


KEYWORDS = set('for in if else match return let mut Ok Err Some None true false while break continue as usize u16 u8 self move'.split())


def skeleton(body):
    text = '\n'.join(line for line in body if not line.startswith('//'))
    return re.sub(r'"[^"]*"|\d+|[A-Za-z_]\w*', lambda m: m.group(0) if m.group(0) in KEYWORDS else 'x', text)


def twins(root, least=60):
    groups = defaultdict(list)
    for path, line, name, _, _, body in functions(root):
        shape = skeleton(body)
        if len(shape) >= least:
            groups[shape].append(f'{path}:{line}: {name}')
    for group in groups.values():
        if len(group) > 1:
            yield ' | '.join(group)
    yield from matching(root, r'struct \w+<[^>]*const N: usize>', r'^\s+(items|slots|places): \[')


def repeated_facts(root):
    seen = defaultdict(list)
    for path, line, name, _, clauses, _ in functions(root):
        for clause in clauses:
            m = re.match(r'requires (\w+ )?(\{.*\})$', clause)
            if m:
                seen[m.group(2)].append(f'{path}:{line} {name}')
    for fact, where in seen.items():
        if len(where) >= 3:
            yield f'fact in {len(where)}: {fact}: ' + ', '.join(where)


def travelling(root):
    pairs = defaultdict(list)
    for path, line, name, signature, _, _ in functions(root):
        m = re.search(r'\((.*)\)( ->|$| \{|;)', signature)
        if not m:
            continue
        crate = path.split('/')[1]
        names = [p.split(':')[0].replace('mut ', '').strip() for p in re.split(r', (?![^<(\[]*[>)\]])', m.group(1)) if ':' in p]
        for a in range(len(names)):
            for b in range(a + 1, len(names)):
                if len(names[a]) > 1 and len(names[b]) > 1:
                    pairs[crate, names[a], names[b]].append(name)
    for (crate, a, b), where in sorted(pairs.items()):
        if len(where) >= 3:
            yield f'together in {len(where)} of {crate}: {a}, {b}: ' + ', '.join(where)


def point(n, root):
    if n == 1:
        return matching(root, r'fn \w+\(self\) -> u16', r'\(bool, |, bool\)', r'^\s+(pub )?\w+: bool,$', r'Condition\(u16\)',
                        r'^\s+Nothing,$', r'-> Result<T?, u\d+>', r'^\s+\d+ => ')
    if n == 2:
        return twins(root)
    if n == 3:
        return matching(root, r'\bfor \w+ in .*\.\.', r'\bwhile\b', r'\bat \+=', r'\+= 1;')
    if n == 4:
        return matching(root, r'\.0 [!=]= [\w.]+\.0\b', r'fn (same|are_same)_\w+', r'fn is_alike', r'256 \*|/ 256|% 256',
                        r'fn told\w*\(', r'Err\(_\) => ', r'None => None', r'fn write_\w+\(out: &mut String', r'fn \w+_(numbers|of)\(.*-> \[u16',
                        r' as (u8|u16|char)\b', r'impl From<')
    if n == 5:
        return list(repeated_facts(root)) + list(travelling(root))
    if n == 6:
        return matching(root, r'^\s+len: usize,$', r'^\s+used: usize,$', r'RolePairs::Four\(', r'&mut \[T\],$', r'^\s+\w+: \[\w+; ')
    if n == 7:
        return matching(root, r'impl.* Test<', r'trait Test', r'\bdyn\b', r'\bfn\(', r'match \(which', r'match which')
    if n == 8:
        return proofs(root)
    raise SystemExit(__doc__)


def proofs(root):
    for crate in sorted(os.listdir(os.path.join(root, 'crates'))):
        files = lines = 0
        for folder, folders, names in os.walk(os.path.join(root, 'crates', crate, 'proofs')):
            for name in names:
                if name.endswith('.antt'):
                    files += 1
                    lines += len(open(os.path.join(folder, name)).read().split('\n')) - 1
        yield f'{crate}: {files} files, {lines} lines'


def main():
    n = int(sys.argv[1])
    root = sys.argv[2] if len(sys.argv) > 2 else '.'
    found = list(point(n, root))
    print('\n'.join(found))
    print(f'point {n}: {len(found)}')


main()
