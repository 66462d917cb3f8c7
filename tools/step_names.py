#!/usr/bin/env python3
"""Brings the names of goals and steps in Answers.antt, Invariants.antt and Choices.antt to the toolchain's spelling: in
a name that it makes, a dash joins the parts, and a name from the source keeps its underscores, as in
returns-then-not-reach_joins. Run at the top, with the names of the crates to turn, or with none for all."""
import glob
import re
import sys

WORDS = ('in_ok', 'in_err', 'in_default', 'from_residual', 'type_inv', 'overflow_add', 'overflow_sub', 'overflow_mul',
         'overflow_cast', 'overflow_step', 'overflow_shl', 'nonzero_div', 'nonzero_rem', 'slice_bounds', 'ok_part', 'err_part', 'offset_bounds',
         'invariant_of', 'index_mut', 'ghost_name', 'unwrap_or', 'as_slice', 'as_mut_slice', 'deref_mut')
TOKEN = re.compile(r"[^\s(){}\[\],;.|⌜⌝]+")


def names_of(crate):
    text = ''.join(open(path, encoding='utf-8').read() for path in glob.glob(f'crates/{crate}/src/**/*.rt', recursive=True))
    found = set(re.findall(r'\b[A-Za-z][A-Za-z0-9]*(?:_[A-Za-z0-9]+)+\b', text)) | set(WORDS)
    return sorted(found, key=len, reverse=True)


def main():
    for crate in sys.argv[1:] or [path.split('/')[1] for path in glob.glob('crates/*/')]:
        names = names_of(crate)
        for path in glob.glob(f'crates/{crate}/proofs/**/*.antt', recursive=True):
            if not path.endswith(('Answers.antt', 'Invariants.antt', 'Choices.antt')):
                continue
            text = open(path, encoding='utf-8').read()
            taken = set(re.findall(r"[^\s,{}]+", ' '.join(re.findall(r'use (?![^\n{]*\.Goals\.)[^\n{]*\{([^}]*)\}', text))))

            def turned(m):
                token = m.group(0)
                if '-' not in token or token in taken:
                    return token
                for name in names:
                    old = name.replace('_', '-')
                    token = re.sub(r'(?<![^-+])' + re.escape(old) + r'(?![^-+])', name, token)
                return token

            after = '\n'.join(line if line.startswith('use ') and '.Goals.' not in line else TOKEN.sub(turned, line) for line in text.split('\n'))
            if after != text:
                open(path, 'w', encoding='utf-8').write(after)


main()
