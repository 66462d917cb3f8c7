#!/usr/bin/env python3
"""Brings the names of definitions, lemmas, fields and rules in specs/ and proofs/ to snake case, in every file that
cites them: specs/, proofs/, the clauses of src/ and of must-fail edits, and the pages. Run once, at the top, after the
toolchain's own script. A name that a file takes from std keeps its spelling there, and so do names that Rattle makes
(goals, steps) and all names of src/. It prints the names that would fall together with another, and leaves those."""
import glob
import re
import sys

MADE_FILES = ('Answers.antt', 'Invariants.antt', 'Choices.antt', 'Proof.antt')
GOAL = re.compile(r'^(returns|loop|decreases|invariant|overflow|bounds|slice-bounds|ghost)\b|(-requires(-.*)?|-init|-preserved|-smaller|-end)$')
SIGNATURE = re.compile(r"^\s*(?:(?:abbrev|unfoldable|pub)\s+)*([a-z][^\s:(){}\[\],;.|=λ→∷]*)\s*:(?:\s|$)")
FIELD = re.compile(r"\bpub ([a-z][^\s:]*)\s*:")
CAMEL = re.compile(r'[a-z0-9][A-Z]')
# a name, as antt reads one; a dot before it is a field, and is no part of it
TOKEN = re.compile(r"[^\s(){}\[\],;.|⌜⌝`\"]+")
IMPORT = re.compile(r"use\s+(Rattle\.std|Rattle\.core|base|lib|borrow|mathlib|Prim)[^\n{]*\{([^}]*)\}")

# where the plain spelling is taken by another name
OTHERWISE = {
    'allHold': 'hold_all',
    'askLimit': 'limit_asked',
    'flow-line': 'line_of_flow',
    'freshGates': 'fresh_gate_list',
    'grown-from': 'grown_from_lem',
    'leftFrom': 'left_from_point',
    'nextTouching': 'next_that_touches',
    'other-end': 'ends_apart',
    'partEnd': 'end_of_part',
    'reportLines': 'lines_of_report',
    'rowBlock': 'block_of_rows',
    'rows-from': 'rows_from_lem',
}


def snake(name):
    if name in OTHERWISE:
        return OTHERWISE[name]
    name = name.replace('getD', 'get_or').replace('-', '_')
    return re.sub(r'([a-z0-9])([A-Z])', lambda m: m.group(1) + '_' + m.group(2), name).lower()


def antt_files():
    return sorted(glob.glob('crates/*/specs/**/*.antt', recursive=True) + glob.glob('crates/*/proofs/**/*.antt', recursive=True))


def declared():
    names = set()
    for path in antt_files():
        made = path.endswith(MADE_FILES)
        lines = open(path, encoding='utf-8').read().split('\n')
        for i, line in enumerate(lines):
            if line.lstrip().startswith('--'):
                continue
            found = [m.group(1) for m in [SIGNATURE.match(line)] if m] + FIELD.findall(line)
            for name in found:
                after = line.split(':', 1)[1] + (lines[i + 1] if i + 1 < len(lines) else '')
                if made and (GOAL.search(name) or 'goal.' + name in after):
                    continue
                if '-' in name or CAMEL.search(name):
                    names.add(name)
    return names


def turned(text, mapping, kept):
    return TOKEN.sub(lambda m: mapping[m.group(0)] if m.group(0) in mapping and m.group(0) not in kept else m.group(0), text)


def turned_code(text, mapping, kept, comment):
    """All but comments, which are prose."""
    lines = []
    for line in text.split('\n'):
        code, mark, prose = line.partition(comment)
        lines.append(turned(code, mapping, kept) + mark + prose)
    return '\n'.join(lines)


def turned_page(text, names):
    """What stands between backticks, where that is a name that is declared in snake case now."""
    def one(m):
        name = m.group(0)
        old = name[0].islower() and ('-' in name or CAMEL.search(name))
        return snake(name) if old and snake(name) in names else name
    return re.sub(r'`[^`\n]*`', lambda m: TOKEN.sub(one, m.group(0)), text)


def from_std(text):
    kept = set()
    for _, inside in IMPORT.findall(text):
        for item in inside.split(','):
            kept.add(item.strip().split(' as ')[-1])
    return kept


def main():
    mapping = {name: snake(name) for name in declared()}
    texts = {path: open(path, encoding='utf-8').read() for path in antt_files()}
    sources = sorted(glob.glob('crates/*/src/**/*.rt', recursive=True))
    texts.update({path: open(path, encoding='utf-8').read() for path in sources})
    clashes = {}
    for path, text in texts.items():
        tokens = set(TOKEN.findall(text))
        for name in tokens & mapping.keys():
            if mapping[name] in tokens and mapping[name] != name:
                clashes.setdefault(name, []).append(path)
    new = {}
    for name, to in mapping.items():
        new.setdefault(to, []).append(name)
    for to, names in sorted(new.items()):
        if len(names) > 1:
            print('fall together:', to, 'from', ', '.join(sorted(names)))
    for name, paths in sorted(clashes.items()):
        print('taken:', mapping[name], 'for', name, 'in', paths[0], f'(+{len(paths) - 1})')
    if '--write' not in sys.argv:
        print(len(mapping), 'names; --write turns them')
        return
    for path in glob.glob('crates/*/must-fail/*.edit'):
        texts[path] = open(path, encoding='utf-8').read()
    changed = {}
    for path, text in texts.items():
        changed[path] = turned_code(text, mapping, from_std(text), '-- ' if path.endswith('.antt') else '// ')
    for path, text in changed.items():
        if text != texts[path]:
            open(path, 'w', encoding='utf-8').write(text)
    names = set(TOKEN.findall(''.join(text for path, text in changed.items() if path.endswith('.antt'))))
    for path in glob.glob('docs/*.md') + ['README.md']:
        text = open(path, encoding='utf-8').read()
        page = turned_page(text, names)
        if page != text:
            open(path, 'w', encoding='utf-8').write(page)


main()
