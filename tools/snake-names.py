#!/usr/bin/env python3
"""snake-names: brings the names of this repository's own definitions, lemmas and record fields to snake case. Run once, after port.py, at the top.

Names come from specs/ and proofs/*.antt (not from the folders of a function's proof, whose names Rattle makes). A name is changed wherever it stands as a
whole word: in .antt files, in the `ghost use` lines and clauses of .rt files, in the texts of edits, and between back quotes in the pages.
Types, facts and modules keep their capital. Functions of src/, exported names and strings keep theirs.
Where two names would fall together, the lemma gets `_lem` (one with a dash is a lemma, one in camel case a definition); the rest is refused.
`snake-names.py --list` prints old and new and changes nothing.
"""
import glob
import os
import re
import sys

WORD = re.compile(r"[^\s(){}\[\]:;,.=λ`\"∷→×|⌜⌝¬]+")
DEF = re.compile(r"^\s*(?:(?:abbrev|unfoldable|pub)\s+)*(?:(?:record|data|ruleset)\s+)?(?:(?:abbrev|unfoldable|pub)\s+)*([^\s:({=]+)\s*(?:\{[^}]*\}\s*)*(?:\([^)]*\)\s*)*(?:\{[^}]*\}\s*)*:(?!=)")
KEYWORDS = {'let', 'in', 'use', 'mod', 'module', 'where', 'elim', 'λ', 'unfolding', 'record', 'data'}


# Lemmas that port.py had brought to snake case, where a definition comes to the same name.
FALLEN = ['one_more', 'only_end', 'read_meets', 'run_in', 'too_short', 'write_meets']


def text(path):
    with open(path, encoding='utf-8') as f:
        return f.read()


def found(*patterns):
    return sorted(p for pattern in patterns for p in glob.glob(pattern, recursive=True))


SPECS = found('crates/*/specs/**/*.antt')
LEMMAS = [p for p in found('crates/*/proofs/**/*.antt') if not p.endswith('/Proof.antt')]
WALKS = [p for p in found('crates/*/proofs/**/*.antt') if p not in LEMMAS]
CODE = found('crates/*/src/**/*.rt')
EDITS = found('crates/*/must-*/*.edit')
PAGES = found('README.md', 'docs/**/*.md', '.ci/*', 'oracle/README.md')


def snake(name):
    name = re.sub(r'(?<=[a-z0-9])([A-Z])', r'_\1', name.replace('-', '_'))
    return name.lower()


def names_of(paths):
    names = {}
    for path in paths:
        for line in text(path).split('\n'):
            if line.lstrip().startswith(('--', 'use ', 'mod ', 'pub mod ')):
                continue
            m = DEF.match(line)
            if m and m[1] not in KEYWORDS and not line.lstrip().startswith(('let ', 'λ')):
                names.setdefault(m[1], []).append(path)
    return names


def own():
    names = names_of(SPECS + LEMMAS)
    # The theorem of a function, in the file of its walk: `f-spec` is `f_spec`.
    for path in WALKS:
        for m in re.finditer(r'^pub (\S+-spec) :', text(path), re.M):
            names.setdefault(m[1], []).append(path)
    return {n: p for n, p in names.items() if re.match(r"^[a-z][A-Za-z0-9_'-]*$", n) and snake(n) != n}


def imported():
    """What is imported from the library."""
    crates = {p.split('/')[1] for p in found('crates/*/src')}
    names = set()
    for path in SPECS + LEMMAS + WALKS + CODE:
        for m in re.finditer(r'\buse ([^\s{]+)\{([^}]*)\}', text(path)):
            if not re.match(r'Rattle\.(%s)\.' % '|'.join(crates), m[1]):
                names |= {part.split(' as ')[-1].strip() for part in m[2].split(',')}
    return names


def mapping():
    names = own()
    used = set()
    for path in SPECS + LEMMAS + WALKS:
        # A part of a path or a field is no name of its own.
        used |= set(WORD.findall(re.sub(r'\.\w[^\s(){}\[\]:;,=]*|[^\s(){}\[\]:;,=]*\w\.(?=\w)', ' ', re.sub(r'--.*', '', text(path)))))
    fields = set()
    for path in CODE:
        body = re.sub(r'//.*', '', text(path))
        fields |= set(re.findall(r'\b(\w+):', body)) | set(re.findall(r'\bconst (\w+)', body))
    turned, taken = {}, {}
    for name in FALLEN:
        turned[name] = taken_by = name + '_lem'
        taken[taken_by] = name
    used -= set(FALLEN) | {'has_run'}
    library = imported() & set(names)
    if library:
        sys.exit('snake-names: of the library too: %s' % ' '.join(sorted(library)))
    # definitions first, so that a lemma of the same words gives way
    for name in sorted(names, key=lambda n: ('-' in n, n)):
        new = snake(name)
        if new in taken or (new in used and new not in names) or new in fields:
            new += '_lem' if '-' in name else '_of'
        if new in taken or new in used:
            sys.exit('snake-names: %s would fall together with %s' % (name, taken.get(new, new)))
        taken[new] = name
        turned[name] = new
    return turned


def words(line, turned):
    return WORD.sub(lambda m: turned.get(m[0], m[0]), line)


def code(body, turned):
    """The clauses and the imports of a .rt file, and nothing else."""
    out, depth, clause = [], 0, False
    for line in body.split('\n'):
        bare = line.strip()
        if bare.startswith('ghost use') or re.match(r'(requires|ensures|ghost)\b', bare) or clause:
            starts = line.split('//')[0]
            depth += starts.count('{') - starts.count('}')
            clause = depth > 0 if not bare.startswith('ghost use') else not bare.endswith(';')
            if not clause:
                depth = 0
            line = words(line, turned)
        else:
            # in a comment: what stands between back quotes
            line = re.sub(r'`([^`]*)`', lambda m: '`' + words(m[1], turned) + '`', line) if '//' in line else line
        out.append(line)
    return '\n'.join(out)


def edit(body, turned):
    """The texts of an edit: of a .antt file each word, of a .rt file those of clauses and imports."""
    out, antt = [], False
    for line in body.split('\n'):
        if line.startswith('file: '):
            antt = line.endswith('.antt')
        elif line.startswith(('old:', 'new:')) and (antt or re.search(r'\b(ensures|requires|ghost)\b', line)):
            line = words(line, turned)
        out.append(line)
    return '\n'.join(out)


def quoted(body, turned):
    return re.sub(r'`([^`\n]*)`', lambda m: '`' + words(m[1], turned) + '`', body)


def contracts_file():
    """Rattle makes a module `specs.contracts` of its own, so the file of that name says what it has in another word: the operations."""
    old, new = 'crates/promises/specs/Contracts.antt', 'crates/promises/specs/Operations.antt'
    if os.path.exists(old):
        os.rename(old, new)
    for path in found('crates/promises/**/*.antt', 'crates/*/must-*/*.edit', 'README.md', 'docs/**/*.md', '.ci/*'):
        before = text(path)
        after = re.sub(r'\bpromises\.specs\.Contracts\b', 'promises.specs.Operations', before)
        if path == 'crates/promises/specs/Lib.antt':
            after = after.replace('mod Contracts\n', 'mod Operations\n')
        after = after.replace('specs/Contracts.antt', 'specs/Operations.antt')
        if after != before:
            with open(path, 'w', encoding='utf-8') as f:
                f.write(after)


def main():
    turned = mapping()
    if '--list' in sys.argv:
        for old in sorted(turned):
            print(old, turned[old])
        return
    # In pages and edits, which port.py does not read: also what it had brought to snake case by itself.
    plain = re.compile(r"^[a-z][a-z0-9]*(?:[A-Z-][A-Za-z0-9]*)+$")
    now = {turned.get(n, n) for n in names_of(SPECS + LEMMAS)}
    told = dict(turned)
    for path in EDITS + PAGES:
        for word in set(WORD.findall(text(path))):
            if plain.match(word) and word not in turned and snake(word) in now:
                told[word] = snake(word)
    for path in SPECS + LEMMAS + WALKS + CODE + EDITS + PAGES:
        before = text(path)
        if path.endswith('.antt'):
            after = '\n'.join(words(line, turned) for line in before.split('\n'))
        elif path.endswith('.rt'):
            after = code(before, turned)
        elif path.endswith('.edit'):
            after = edit(before, told)
        else:
            after = quoted(before, told)
        if after != before:
            with open(path, 'w', encoding='utf-8') as f:
                f.write(after)
    contracts_file()


main()
