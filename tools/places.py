#!/usr/bin/env python3
"""Lists places in src/ where an older form of code may stand in place of one of today's.

    python3 tools/places.py [FOLDER] [POINT]

FOLDER is a checkout (the one around this file by default); POINT is a number from 1 to 8, all by default. The last line of
each point is its count. A place is a candidate: docs/DESIGN-PASS.md says which were changed and which stay, and why.
"""
import collections
import glob
import os
import re
import sys

TOKEN = re.compile(r"b?'(?:\\.|[^'\\])'|b?\"(?:\\.|[^\"\\])*\"|[A-Za-z_]\w*|\d\w*|->|=>|::|\.\.=|\.\.|&&|\|\||[-+*/%<>=!&|^]=|<<|>>|\S")
WORDS = set('fn let mut for in if else match while loop return self Self true false as pub struct enum impl u8 u16 u32 u64 usize i32 '
            'bool Some None Ok Err Option Result ensures requires'.split())


def bare(text):
    """The text without comments; its lines stay where they were."""
    return re.sub(r'//[^\n]*', '', text)


def closing(text, start):
    """The index behind the bracket that closes the one at start."""
    depth = 0
    for i in range(start, len(text)):
        if text[i] in '([{':
            depth += 1
        elif text[i] in ')]}':
            depth -= 1
            if depth == 0:
                return i + 1
    return len(text)


class Function:
    def __init__(self, crate, path, text, found):
        self.crate, self.path, self.name = crate, path, found.group(1)
        self.line = text.count('\n', 0, found.start()) + 1
        at = text.index('(', found.end() - 1)
        end = closing(text, at)
        self.params = [' '.join(p.split()) for p in split(text[at + 1:end - 1])]
        rest = text[end:]
        self.clauses = []
        result = re.match(r'\s*->\s*', rest)
        i = result.end() if result else 0
        stop = re.search(r'\b(requires|ensures)\b|\{|;(?![^\[\]{]*\])|\bwhere\b', rest[i:])
        self.result = ' '.join(rest[i:i + stop.start()].split()) if result and stop else ''
        i += stop.start() if stop else 0
        while True:
            clause = re.match(r'\s*(requires|ensures)\*?\s*(\w+)?\s*\{', rest[i:])
            if not clause:
                break
            finish = closing(rest, i + clause.end() - 1)
            self.clauses.append((clause.group(1), ' '.join(rest[i + clause.end():finish - 1].split())))
            i = finish
        body = re.match(r'\s*\{', rest[i:])
        self.body = rest[i + body.end() - 1:closing(rest, i + body.end() - 1)] if body else ''
        self.body_line = self.line + text[found.start():end].count('\n') + rest[:i].count('\n')

    def where(self, offset=0):
        return f'{self.path}:{self.body_line + self.body.count(chr(10), 0, offset) if offset else self.line} {self.name}'


def split(text):
    parts, depth, part = [], 0, ''
    for c in text.replace('=>', '\u21d2').replace('->', '\u2192'):
        depth += c in '([{<'
        depth -= c in ')]}>'
        if c == ',' and depth == 0:
            parts.append(part)
            part = ''
        else:
            part += c
    return [p.replace('\u21d2', '=>').replace('\u2192', '->') for p in (p.strip() for p in parts + [part]) if p]


def read(folder):
    files = {}
    for path in sorted(glob.glob(os.path.join(folder, 'crates', '*', 'src', '**', '*.rt'), recursive=True)):
        files[os.path.relpath(path, folder)] = bare(open(path).read())
    functions = []
    for path, text in files.items():
        for found in re.finditer(r'\bfn (\w+)\s*(?:<[^({]*>)?\(', text):
            functions.append(Function(path.split('/')[1], path, text, found))
    return files, functions


def at_lines(files, pattern):
    for path, text in files.items():
        for found in re.finditer(pattern, text, re.M):
            yield f'{path}:{text.count(chr(10), 0, found.start()) + 1} {" ".join(found.group(0).split())[:100]}'


def point_1(files, functions):
    for path, text in files.items():
        for found in re.finditer(r'enum (\w+)[^{]*\{', text):
            variants = split(text[found.end():closing(text, found.end() - 1) - 1])
            if len(variants) == 2 and any('(' in v or '{' in v for v in variants):
                yield f'{path} enum {found.group(1)}: two cases, one with a value'
    for f in functions:
        if f.result == 'bool' and any('&mut' in p for p in f.params):
            yield f.where() + ': a flag that says whether it was done'
    yield from at_lines(files, r'^\s*None => .*|^\s*_ => None,|^\s*Err\(\w+\) => .*|^\s*Ok\(\(\)\) => Ok\(\(\)\).*')
    yield from at_lines(files, r'let (Some|Ok)\([^=]*\) = [^;{]*\belse \{[^}]*\}')
    yield from at_lines(files, r'^(pub )?const [A-Z]+: u8 = \d+;')
    yield from at_lines(files, r'^\s*\d+ => .*')


def shape(body):
    names, out = {}, []
    for token in TOKEN.findall(body):
        if re.match(r'\d|b?[\'"]', token):
            out.append('#')
        elif re.match(r'[A-Za-z_]', token) and token not in WORDS:
            out.append(names.setdefault(token, f'n{len(names)}'))
        else:
            out.append(token)
    return ' '.join(out)


def point_2(files, functions):
    groups = collections.defaultdict(list)
    for f in functions:
        if len(TOKEN.findall(f.body)) >= 16:
            groups[shape(f.body)].append(f)
    for group in groups.values():
        if len(group) > 1:
            yield 'same but for names and constants: ' + ', '.join(f.where() for f in group)
    types = collections.defaultdict(list)
    for path, text in files.items():
        for found in re.finditer(r'(struct|enum) (\w+)[^{;(]*\{', text):
            fields = split(text[found.end():closing(text, found.end() - 1) - 1])
            names = tuple(re.sub(r'\(.*|\{.*|:.*|pub(\(crate\))? ', '', x, flags=re.S).strip() for x in fields if not x.startswith('ghost'))
            if len(names) > 1:
                types[names].append(f'{path} {found.group(2)}')
    for names, places in types.items():
        if len(places) > 1:
            yield f'types with the same parts {"/".join(names)}: ' + ', '.join(places)
    by_name = collections.defaultdict(list)
    for f in functions:
        if f.body and not f.path.split('/')[1].endswith('_tests') and not any(p.lstrip('&').replace('mut ', '') in ('self',) for p in f.params):
            by_name[f.name].append(f)
    for name, group in by_name.items():
        if len({f.crate for f in group}) > 1 and name not in ('main', 'new'):
            yield f'the same name in several crates: ' + ', '.join(f.where() for f in group)


def point_3(files, functions):
    for f in functions:
        for found in re.finditer(r'\bwhile (?!let\b)[^{]*\{', f.body):
            yield f.where(found.start()) + ': ' + ' '.join(found.group(0).split())
        for found in re.finditer(r'\bfor (\w+) in [^{]*\.\.[^{]*\{', f.body):
            loop = f.body[found.end():closing(f.body, found.end() - 1)]
            if re.search(r'\[\s*' + found.group(1) + r'( as usize)?\s*\]', loop):
                yield f.where(found.start()) + ': ' + ' '.join(found.group(0).split())
        for found in re.finditer(r'\b(for|while)\b[^{]*\{', f.body):
            loop = f.body[found.end():closing(f.body, found.end() - 1)]
            for step in re.finditer(r'\b(\w+) \+= (\w+);', loop):
                yield f.where(found.start()) + ': ' + step.group(0)


def point_4(files, functions):
    for f in functions:
        inner = f.body.strip()[1:-1].strip() if f.body else ''
        one = re.fullmatch(r'match [^{]*\{(.*)\}', inner, re.S)
        if one and all(re.search(r'=>\s*\{?\s*[\w:]+(\(\w*\))?\s*\}?$', arm.strip(), re.S) for arm in split(one.group(1))) and len(split(one.group(1))) > 1:
            if re.search(r'=>\s*(\d+|true|false)\b', one.group(1)) or re.search(r'\d+ =>', one.group(1)):
                yield f.where() + ': a conversion or a test by cases'
        if re.search(r'\bif [^{]*\{\s*1\s*\} else \{\s*0\s*\}', f.body):
            yield f.where() + ': a number of a bool'
        if re.search(r'(\w+) <= (\w+) && \2 <= \1|(\w+) < 0 \|\| 0 < \3', f.body):
            yield f.where() + ': equality by order'
        if re.search(r'(-?\d+) <= (\w+) && \2 <= -?\d+', f.body):
            yield f.where() + ': a range by hand'
        if len(re.findall(r'(\w+): old\.\1', f.body)) > 1:
            yield f.where() + ': a copy field by field'


def point_5(files, functions):
    facts = collections.defaultdict(set)
    for f in functions:
        for kind, text in f.clauses:
            if kind == 'requires':
                facts[(f.crate, re.sub(r'\.(old|now)', '', text))].add(f.where())
    for (crate, text), places in sorted(facts.items()):
        if len(places) >= 3:
            yield f'{crate}: required in {len(places)} functions: {text[:110]}'
    groups = collections.defaultdict(set)
    for f in functions:
        params = sorted(p for p in f.params if ':' in p and not p.startswith('system:') and not p.startswith('rt:'))
        for g in functions:
            if g.crate == f.crate and g is not f:
                common = tuple(p for p in params if p in g.params)
                if len(common) >= 3:
                    groups[(f.crate, common)].update((f.where(), g.where()))
    closed = [(k, v) for k, v in groups.items() if len(v) >= 3]
    for (crate, common), places in sorted(closed):
        if not any(c == crate and set(common) < set(other) and v >= places for (c, other), v in closed):
            yield f'{crate}: together in {len(places)} functions: {", ".join(common)}'


def point_6(files, functions):
    for path, text in files.items():
        for found in re.finditer(r'struct (\w+)[^{;(]*\{', text):
            body = text[found.end():closing(text, found.end() - 1) - 1]
            arrays = re.findall(r'(\w+): (?:\[[^\]]*;[^\]]*\]|&\'\w+ mut \[)', body)
            counts = re.findall(r'(\w+): usize', body)
            if arrays and counts:
                yield f'{path} {found.group(1)}: {", ".join(arrays)} with {", ".join(counts)}'
    for f in functions:
        if re.search(r'(\w+) \+ \(\w+ - \1\) / 2', f.body):
            yield f.where() + ': halving by hand'
        slices = [p for p in f.params if re.search(r': &(mut )?\[', p)]
        if len(slices) >= 2 and f.crate.endswith('_tests') is False:
            yield f.where() + f': {len(slices)} slices side by side'


def point_7(files, functions):
    for f in functions:
        for found in re.finditer(r'\bmatch [^{]*\{', f.body):
            arms = split(f.body[found.end():closing(f.body, found.end() - 1) - 1])
            calls = [re.search(r'=>\s*[\w.:<>, ]+?\((.*)\)$', arm, re.S) for arm in arms]
            args = collections.Counter(c.group(1) for c in calls if c and c.group(1).count(',') >= 1)
            if args and args.most_common(1)[0][1] >= 2:
                yield f.where(found.start()) + ': a switch on which step to run'
    yield from at_lines(files, r'\bfn\([^)]*\) -> .*\]|&dyn |Box<dyn ')


def point_8(folder):
    for path in sorted(glob.glob(os.path.join(folder, 'crates', '*', 'proofs', '**', 'Answers.antt'), recursive=True)):
        if '/out/' not in path:
            for found in re.finditer(r'^pub ([\w-]+) : goal\.', open(path).read(), re.M):
                yield f'{os.path.relpath(path, folder)} {found.group(1)}'


def main():
    args = sys.argv[1:]
    folder = args.pop(0) if args and not args[0].isdigit() else os.path.join(os.path.dirname(os.path.abspath(__file__)), '..')
    files, functions = read(folder)
    points = {1: point_1, 2: point_2, 3: point_3, 4: point_4, 5: point_5, 6: point_6, 7: point_7}
    for n in ([int(args[0])] if args else range(1, 9)):
        found = list(point_8(folder) if n == 8 else points[n](files, functions))
        for place in found:
            print(f'{n}: {place}')
        print(f'point {n}: {len(found)}')


main()
