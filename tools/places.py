#!/usr/bin/env python3
"""Lists the places in src/ where an older form of the language may stand.

    python3 tools/places.py [FOLDER] [POINT..]

FOLDER is a repository, by default this one. A row is a place to look at, not a fault: docs/DESIGN-PASS.md says of each
what was changed, and the source says beside each that stayed why. With --count only the counts are printed.
"""
import collections
import pathlib
import re
import sys

KEYWORDS = set('''as break const continue crate else enum extern false fn for if impl in let loop match mod move mut pub
ref return self Self static struct super trait true type unsafe use where while Some None Ok Err'''.split())


class Function:
    """A function: its name, its clauses, and its body's lines with their numbers."""

    def __init__(self, path, line, head, clauses, body):
        self.path, self.line, self.head, self.clauses, self.body = path, line, head, clauses, body
        self.name = re.search(r'fn (\w+)', head).group(1)
        self.text = '\n'.join(text for _, text in body)

    def params(self):
        inside = self.head[self.head.index(self.name) + len(self.name):]
        inside = inside[inside.index('('):inside.rfind(')')] if '->' not in inside else inside[inside.index('('):inside.index('->')]
        found = re.findall(r'(?:mut )?(\w+): ([^,()]+(?:\([^)]*\))?)', inside)
        names = [(name, re.sub(r"&(?:'\w+ )?(?:mut )?", '', kind).strip()) for name, kind in found]
        return names


def clean(text):
    """Comments out, strings emptied, braces in byte strings with them."""
    text = re.sub(r'//[^\n]*', '', text)
    return re.sub(r'b?"(?:\\.|[^"\\])*"', '""', text)


def functions(path, text):
    lines = text.split('\n')
    at = 0
    while at < len(lines):
        if re.match(r'\s*(pub(\(crate\))? )?(extern "" )?(final )?fn \w+', lines[at]):
            start, head, clauses = at, [], []
            while at < len(lines):
                line = lines[at]
                if re.match(r'\s*(requires|ensures)\b', line):
                    clauses.append(line.strip())
                elif clauses and not re.match(r'\s*\{\}?\s*$', line) and not line.rstrip().endswith(';'):
                    clauses[-1] += ' ' + line.strip()
                else:
                    head.append(line)
                done = re.search(r'\{\}?\s*$', line) and not re.match(r'\s*(requires|ensures)\b', line)
                if done or (line.rstrip().endswith(';') and not line.strip().startswith('[')):
                    break
                at += 1
            body = []
            if at < len(lines) and re.search(r'\{\s*$', lines[at]):
                indent = len(re.match(r'\s*', lines[start]).group(0))
                at += 1
                while at < len(lines) and not re.match(r'\s{%d}\}' % indent, lines[at]):
                    body.append((at + 1, lines[at]))
                    at += 1
            yield Function(path, start + 1, ' '.join(h.strip() for h in head), clauses, body)
        at += 1


def structs(path, text):
    for found in re.finditer(r'^(?:pub )?struct (\w+)[^{;(]*\{(.*?)^\}', text, re.M | re.S):
        line = text[:found.start()].count('\n') + 1
        fields = re.findall(r'^\s*(?:pub(?:\(crate\))? )?(\w+): (?!\{)(.+?),?$', found.group(2), re.M)
        yield path, line, found.group(1), fields


def enums(path, text):
    for found in re.finditer(r'^(?:pub )?enum (\w+)[^{]*\{(.*?)^\s*\}', text, re.M | re.S):
        line = text[:found.start()].count('\n') + 1
        yield path, line, found.group(1), re.findall(r'^\s{4,8}(\w+)', found.group(2), re.M)


def place(path, line, what):
    return f'{path}:{line}: {what}'


def point1(files, funs):
    """Own enums like Option or Result, flags beside values, numbers for kinds, errors passed on by hand."""
    for path, text in files:
        for _, line, name, variants in enums(path, text):
            like = {'Refused', 'Denied', 'Failed', 'Error', 'Missing', 'NotMade', 'Nothing'} & set(variants)
            if like and len(variants) > 1:
                yield place(path, line, f'enum {name} with {", ".join(sorted(like))}')
        for _, line, name, fields in structs(path, text):
            for field, kind in fields:
                if kind == 'bool':
                    yield place(path, line, f'struct {name}: flag {field}')
        for found in re.finditer(r'None => (?:return )?None|Err\((\w+)\) => (?:return )?Err\(|if let Err\(\w+\)|else \{\s*return (?:None|Err\(\w+\));', text):
            yield place(path, text[:found.start()].count('\n') + 1, ' '.join(found.group(0).split()))
    for fun in funs:
        answer = fun.head.split('->')[-1] if '->' in fun.head else ''
        if re.match(r'\s*\(?(u8|i8|i64)\b', answer) and fun.name not in ('fmt',):
            yield place(fun.path, fun.line, f'fn {fun.name} answers a number: {answer.split("{")[0].strip()}')
        if re.search(r'let mut (\w+) = None;', fun.text) and re.search(r'is_none\(\) \|\|', fun.text):
            yield place(fun.path, fun.line, f'fn {fun.name}: an option with a value beside it')


def shape(fun):
    text = re.sub(r'\s+', ' ', fun.text)
    text = re.sub(r'\b\d[\w_]*\b', '0', text)
    return re.sub(r'\b[A-Za-z_]\w*\b', lambda m: m.group(0) if m.group(0) in KEYWORDS else 'x', text).strip()


def point2(files, funs):
    """Functions whose bodies are the same but for names, and functions named as variants of one another."""
    groups = collections.defaultdict(list)
    for fun in funs:
        if len(shape(fun)) >= 12:
            groups[shape(fun)].append(fun)
    for group in groups.values():
        if len(group) > 1 and group[0].body:
            for fun in group:
                yield place(fun.path, fun.line, f'fn {fun.name}, same shape as {len(group) - 1} more')
    names = {(fun.path, fun.name) for fun in funs}
    for fun in funs:
        stem = re.match(r'(\w+)_(own|other|with|at|slow)$', fun.name)
        if stem and any(p == fun.path and n != fun.name and n.startswith(stem.group(1) + '_') for p, n in names):
            yield place(fun.path, fun.line, f'fn {fun.name}, a variant by name')


def point3(files, funs):
    """Loops that count or step something by hand, run over an index, or only search, count or fold."""
    for fun in funs:
        body = fun.body
        for k, (line, text) in enumerate(body):
            if not re.match(r'\s*(for|while|loop)\b', text):
                continue
            indent = len(text) - len(text.lstrip())
            inside = []
            for _, t in body[k + 1:]:
                if t.strip() and len(t) - len(t.lstrip()) <= indent:
                    break
                inside.append(t)
            inner = '\n'.join(inside)
            if (re.search(r'\b\w+ [-+*]= |= \w+\.saturating_add|\breturn (true|Some)', inner) or re.search(r'in 0\.\.', text)
                    or (text.lstrip().startswith('while') and re.search(r'\b(\w+) = ', inner))):
                yield place(fun.path, line, text.strip())


def point4(files, funs):
    """Equality, order, copying, conversion and printing by hand."""
    for path, text in files:
        for found in re.finditer(r'^impl[^\n]*\b(Clone|Copy|PartialEq|Eq|PartialOrd|Ord|Hash|Default|From<[^\n]*>) for [^\n]*', text, re.M):
            yield place(path, text[:found.start()].count('\n') + 1, found.group(0).rstrip(' {'))
        for found in re.finditer(r'if [\w.()]+ \{ 1 \} else \{ 0 \}', text):
            yield place(path, text[:found.start()].count('\n') + 1, found.group(0))
    for fun in funs:
        if re.match(r'(number|of|letters|digits?|put_\w+|bytes_of|printed|say|listed|counted|note|figures|refusal|first_live)$', fun.name) and fun.name != 'put_all':
            yield place(fun.path, fun.line, f'fn {fun.name}')


def point5(files, funs):
    """Facts required by three functions or more, and parameters that three functions or more take together."""
    facts = collections.defaultdict(list)
    pairs = collections.defaultdict(list)
    for fun in funs:
        for clause in fun.clauses:
            found = re.match(r'requires (?:\w+ )?\{ (.*) \}$', clause)
            if found:
                fact = re.sub(r'\.(old|new|now|entry)\b|\bself\.|\bmeta\.', '', found.group(1))
                facts[re.sub(r'\s+', ' ', fact)].append(fun)
        params = sorted(set(fun.params()))
        for i, a in enumerate(params):
            for b in params[i + 1:]:
                pairs[(fun.path.split('/')[1], a, b)].append(fun)
    for fact, users in facts.items():
        if len(users) >= 3:
            yield place(users[0].path, users[0].line, f'{fact}: {", ".join(f.name for f in users)}')
    for (crate, a, b), users in pairs.items():
        if len(users) >= 3 and 'rt' not in (a[0], b[0]):
            yield place(users[0].path, users[0].line, f'{a[0]}: {a[1]} with {b[0]}: {b[1]}: {", ".join(f.name for f in users)}')


def point6(files, funs):
    """Buffers with a length or a place beside them, parallel arrays."""
    for path, text in files:
        for _, line, name, fields in structs(path, text):
            arrays = [f for f, kind in fields if re.match(r"(&('\w+ )?(mut )?)?\[", kind) or kind.startswith('Vec<')]
            counts = [f for f, kind in fields if kind == 'usize']
            if arrays and (counts or len(arrays) > 1):
                yield place(path, line, f'struct {name}: {", ".join(arrays + counts)}')
    for fun in funs:
        params = fun.params()
        slices = [n for n, kind in params if kind.startswith('[')]
        places = [n for n, kind in params if n in ('at', 'written', 'place', 'cursor', 'from', 'last') and kind == 'usize']
        if slices and places:
            yield place(fun.path, fun.line, f'fn {fun.name}: {", ".join(slices)} with {", ".join(places)}')
        if {'calls', 'notes'} <= set(slices):
            yield place(fun.path, fun.line, f'fn {fun.name}: calls with notes')


def point7(files, funs):
    """Switches on which step to run, function tables, and work that is opened and closed round by hand."""
    for fun in funs:
        for line, text in fun.body:
            if re.search(r'\bmatch (call|record|self\.stage|stage|mark)\b', text):
                yield place(fun.path, line, text.strip())
            if re.search(r'\blet done = ', text):
                yield place(fun.path, line, text.strip())
    for path, text in files:
        for found in re.finditer(r'\[fn\(|: fn\(|\bdyn ', text):
            yield place(path, text[:found.start()].count('\n') + 1, found.group(0))


POINTS = {1: point1, 2: point2, 3: point3, 4: point4, 5: point5, 6: point6, 7: point7}


def main():
    words = [w for w in sys.argv[1:] if not w.startswith('--')]
    root = pathlib.Path(words[0]) if words and not words[0].isdigit() else pathlib.Path(__file__).resolve().parent.parent
    chosen = [int(w) for w in words if w.isdigit()] or sorted(POINTS)
    files = [(str(p.relative_to(root)), clean(p.read_text())) for p in sorted(root.glob('crates/*/src/**/*.rt'))]
    funs = [f for path, text in files for f in functions(path, text)]
    for number in chosen:
        rows = list(POINTS[number](files, funs))
        print(f'point {number}: {len(rows)} places. {POINTS[number].__doc__}')
        if '--count' not in sys.argv:
            print(''.join(f'  {row}\n' for row in rows), end='')


main()
