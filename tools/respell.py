#!/usr/bin/env python3
"""Brings the names of this repository's own definitions and lemmas to the spelling of Rattle kit 13f.

Run once, at the top of the repository, right after the kit's port.py. Functions and lemmas go to snake case, facts and
types to upper camel case; the members of a bound are named by their parameter; the crate `bytes`, whose name the kit's own
library has, becomes `byte_numbers`. Names that Rattle makes for its goals, and names of the library, stay.
"""
import glob
import os
import re
import subprocess
import sys

WORD = r"[^\W\d][\w'-]*"
TOKEN = re.compile(r"(?<![\w'◌·-])" + WORD + r"(?![\w◌·])")
DASHED = re.compile(r"\w-\w")
# a name of these forms is more likely one that Rattle makes for a goal: it is turned only where a file declares or imports it
MADE = re.compile(
    r"^(in|in_\w+|at|after|before|start|for|if|then|else|loop|index|returns|ensures|overflow|requires|decreases|invariant|"
    r"match|while|cast|arm|call)-")
OWN = set()
LEMMA_MODULES = {}
TAKEN = set()  # names whose new spelling already means something else where they are used
CRATE = ('bytes', 'byte_numbers')


def new_name(name):
    parts = name.split('-')
    if name[0].isupper():
        return ''.join(p[:1].upper() + p[1:] for p in parts)
    return '_'.join(parts) + ('_lem' if name in TAKEN else '')


def files(pattern):
    return sorted(glob.glob(pattern, recursive=True))


def function_folder(path):
    return bool(re.search(r'/proofs/.+/', path))


def declared_in(text, made_for_goals):
    """The names that a file declares at its left margin or as members of a record, a data type or a where block."""
    names = set()
    for line in text.split('\n'):
        if line.startswith(('use ', '--', 'pub mod', 'mod ')):
            continue
        m = re.match(r"\s*(?:(?:abbrev|unfoldable|pub|private) )*(" + WORD + r"(?: " + WORD + r")*) :(?= |$)(.*)", line)
        if m:
            if made_for_goals and re.match(r"\s*goal\.", m.group(2)):
                continue
            names.update(m.group(1).split())
        m = re.match(r"\s*(?:(?:abbrev|unfoldable|pub|private) )*(?:record|data) (" + WORD + ")", line)
        if m:
            names.add(m.group(1))
    return {n for n in names if DASHED.search(n)}


def imports(text):
    """(module, name) of each `use` line of a file, those of clauses too."""
    for m in re.finditer(r"^\s*(?:ghost )?(?:pub )?use ([^\s{;]+?)\.\{([^}]*)\}", text, re.M):
        for item in m.group(2).split(','):
            item = item.strip().split(' as ')[0].strip()
            if item:
                yield m.group(1), item


def is_own(module):
    parts = module.split('.')
    return len(parts) > 2 and parts[0] == 'Rattle' and parts[1] in OWN


def is_made(module):
    """A module that Rattle makes for a function's proof."""
    parts = module.split('.')
    return is_own(module) and parts[2] == 'proofs' and parts[-1] not in LEMMA_MODULES.get(parts[1], ())


def respell(path, text, names, fields, is_code):
    """The text of one file, respelled."""
    here = declared_in(text, function_folder(path))
    kept = set()
    for module, name in imports(text):
        if not is_own(module):
            kept.add(name)
        elif is_made(module):
            kept.add(name)
        else:
            here.add(name)
    kept -= declared_in(text, function_folder(path))

    def turn(name, behind_dot):
        if name not in names or name in kept:
            return name
        if MADE.match(name) and not (name in fields if behind_dot else name in here):
            return name
        return new_name(name)

    out = []
    for line in text.split('\n'):
        module = re.match(r"\s*(?:ghost )?use ([^\s{;]+?)\.\{", line)
        if module and (not is_own(module.group(1)) or is_made(module.group(1))):
            out.append(line)
        elif is_code and outside(line):
            out.append(line)
        elif re.match(r"\s*(--|//)", line):
            out.append(re.sub("`(" + WORD + ")`", lambda m: '`' + turn(m.group(1), False) + '`', line))
        else:
            code, mark, comment = line.partition(' -- ')
            out.append(TOKEN.sub(lambda m: turn(m.group(0), code[:m.start()].endswith('.')), code) + mark + comment)
    return '\n'.join(out)


def name_bound_members(text):
    """In a function with a bound, `meaning x` becomes `S.meaning x`, and a rank's members likewise."""
    out = []
    bounds, of_impl = {}, {}
    inside_trait = False
    for line in text.split('\n'):
        if re.match(r"(pub )?trait ", line):
            inside_trait = True
        elif line.startswith('}'):
            inside_trait = False
        sig = re.match(r"\s*(?:pub(?:\(crate\))? )?(?:fn \w+|impl)(<[^>]*>)?", line)
        if re.match(r"\s*(pub(\(crate\))? )?fn ", line) or line.startswith('impl'):
            found = dict(re.findall(r"(\w+): (System|Rank)\b", sig.group(1) or ''))
            if line.startswith('impl'):
                of_impl = found
            bounds = {**(of_impl if line.startswith((' ', '\t')) else {}), **found}
        if not inside_trait and re.match(r"\s*(requires|ensures)", line):
            for param, trait in bounds.items():
                for member in (['meaning'] if trait == 'System' else ['kind', 'value']):
                    line = re.sub(r"(?<![\w.'-])" + member + r"(?![\w'-])", param + '.' + member, line)
        out.append(line)
    return '\n'.join(out)


def outside(line):
    """A line of code: no clause, no ghost item and no comment."""
    return not re.match(r"\s*(ghost|requires|ensures|//)", line)


def main():
    for path in files('crates/*/'):
        OWN.add(path.split('/')[1])
    for crate in OWN:
        LEMMA_MODULES[crate] = {os.path.basename(p)[:-5] for p in files(f'crates/{crate}/proofs/*.antt')}
    texts = {p: open(p).read() for p in files('crates/*/specs/*.antt') + files('crates/*/proofs/**/*.antt')}
    names, fields = set(), set()
    for path, text in texts.items():
        mine = declared_in(text, function_folder(path))
        names |= mine
        for block in re.finditer(r"^(?:pub )?record .*where\n((?: .*\n|\n(?= ))*)", text, re.M):
            for m in re.finditer(r"^ +(?:pub )?(" + WORD + r"(?: " + WORD + r")*) :(?= |$)", block.group(1), re.M):
                fields |= {n for n in m.group(1).split() if DASHED.search(n)}
    for path in files('crates/*/src/*.rt'):
        texts[path] = open(path).read()
    for text in texts.values():
        words = set(TOKEN.findall(text))
        TAKEN.update(n for n in words & names if new_name(n) in words)
    if '-v' in sys.argv:
        print('already taken:', ' '.join(sorted(TAKEN)))
        print('members like goals:', ' '.join(sorted(n for n in fields if MADE.match(n))))
    out = {p: respell(p, t, names, fields, False) for p, t in texts.items() if p.endswith('.antt')}
    for path, text in texts.items():
        if path.endswith('.antt'):
            continue
        out[path] = name_bound_members(respell(path, text, names, fields, True))
    for path, text in out.items():
        text = re.sub(r"\bRattle\." + CRATE[0] + r"\.", 'Rattle.' + CRATE[1] + '.', text)
        if path.endswith('.rt'):
            text = re.sub(r"^(\s*(?:pub )?use )" + CRATE[0] + "::", r"\g<1>" + CRATE[1] + "::", text, flags=re.M)
        if text != texts[path]:
            open(path, 'w').write(text)
    listed = open('crates.txt').read()
    open('crates.txt', 'w').write(re.sub(r"(?<![\w])" + CRATE[0] + r"(?!\w)", CRATE[1], listed))
    if os.path.isdir('crates/' + CRATE[0]):
        subprocess.run(['git', 'mv', 'crates/' + CRATE[0], 'crates/' + CRATE[1]], check=True)


main()
