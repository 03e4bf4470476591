#!/usr/bin/env python3
"""Brings the names that this repository defines in specs/ and proofs/ to one spelling: snake_case for what is
not a type, CamelCase for types. Run once, at the top of the repository, after the toolchain's own scripts.

  tools/respell.py          rewrites crates/*/specs, crates/*/proofs and the clauses of crates/*/src
  tools/respell.py --list   prints the names, old and new, and writes nothing

Names of src/ (functions, fields, constants), names that the checker makes and names of the library stay.
"""
import glob, os, re, sys

TOKEN = re.compile(r"[A-Za-z_][A-Za-z0-9_'′₀-₉-]*")
DEFINES = re.compile(r"^\s*(?:(?:abbrev|unfoldable|pub|record|data)\s+)*([A-Za-z_][A-Za-z0-9_'′₀-₉-]*)(?:\s.*)?\s:(?:\s|$)")
# lemmas whose new spelling would fall together with a definition's or a library's name
APART = {
    'is-plan': 'plan_is_plan',
    'odds-fit': 'odds_fit_within',
    'posed-by': 'posed_by_members',
    'weights-fit': 'weights_all_fit',
    'words-fit': 'words_all_fit',
    'word-of': 'word_of_set',
    'weight-of': 'weight_of_set',
    'bit-and': 'bit_of_and',
    'bit-or': 'bit_of_or',
    'held_back': 'held_back_along',
}


def snake(name):
    name = name.replace('-', '_').replace('′', "'")
    name = re.sub(r"(?<=[a-z0-9])([A-Z])(?=[a-z_]|\b)", lambda m: '_' + m.group(1).lower(), name)
    return name


def own_files(kind):
    return sorted(glob.glob(f'crates/*/{kind}/*.antt'))


def parts(text):
    """The text cut into code and comments, in turn."""
    return re.split(r'(--[^\n]*|//[^\n]*)', text)


def defined():
    names = set()
    for f in own_files('specs') + own_files('proofs'):
        for line in open(f, encoding='utf8'):
            if re.match(r'\s*(use|mod|pub mod|module|--)\b', line):
                continue
            m = DEFINES.match(line)
            if m:
                names.add(m.group(1))
    return names


def imported():
    """Names that the library defines and that some file brings in."""
    names = set()
    for f in glob.glob('crates/**/*.antt', recursive=True) + glob.glob('crates/*/src/**/*.rt', recursive=True):
        for m in re.finditer(r'use Rattle\.std[\w.]*\.\{([^}]*)\}', open(f, encoding='utf8').read()):
            for part in m.group(1).split(','):
                names.add(part.strip().split(' as ')[0].strip())
    return names


def table():
    library = imported()
    out = {}
    for name in sorted(defined()):
        if name in library:
            continue
        new = APART.get(name) or (snake(name) if not name[0].isupper() else name.replace('′', "'"))
        if new != name:
            out[name] = new
    return out


def respell(text, names):
    pieces = parts(text)
    for i in range(0, len(pieces), 2):
        pieces[i] = TOKEN.sub(lambda m: names.get(m.group(0), m.group(0)), pieces[i])
    return ''.join(pieces)


def clauses(text, names):
    """A .rt file with its ghost lines and clauses respelled, and nothing else."""
    out, i = [], 0
    for m in re.finditer(r'^(?:\s*)(?:ghost use .*?;|(?:requires|ensures|ghost)\b[^\n{]*\{)', text, re.M | re.S):
        if m.start() < i:
            continue
        out.append(text[i:m.start()])
        end = m.end()
        if not m.group(0).lstrip().startswith('ghost use'):
            deep = 1
            while deep:
                deep += {'{': 1, '}': -1}.get(text[end], 0)
                end += 1
        out.append(respell(text[m.start():end], names))
        i = end
    out.append(text[i:])
    return ''.join(out)


def main():
    names = table()
    if '--list' in sys.argv:
        for old, new in sorted(names.items()):
            print(old, new)
        return
    for f in glob.glob('crates/**/*.antt', recursive=True) + glob.glob('crates/*/src/**/*.rt', recursive=True):
        if '/out/' in f:
            continue
        old = open(f, encoding='utf8').read()
        new = respell(old, names) if f.endswith('.antt') else clauses(old, names)
        if new != old:
            open(f, 'w', encoding='utf8').write(new)


main()
