#!/usr/bin/env python3
"""Writes the words of the outer syntax with their classes, for `iv_outer`.

Then `rt tidy` in the crate, which drops imports and lays out.
"""
import os

import outer_table as T

ROOT = os.path.join(os.path.dirname(os.path.abspath(__file__)), '..', 'crates', 'iv_outer')
BRACES = [(c, w) for c, w, _ in T.COMMANDS if w in ('{', '}', '.', '..')]
TABLES = [
    ('WORDS', 'words', 'identifiers that are words of their own',
     [(w, c) for c, w, _ in T.COMMANDS if w not in ('{', '}', '.', '..')] + [(w, c) for c, w in T.MINOR] + [(w, c) for c, w in T.NAMED]),
    ('DELIMITERS', 'delimiters', 'delimiters', [(w, c) for c, w in T.SINGLES + BRACES]),
    ('SIGNS', 'signs', 'symbols that a form has', [(w, c) for c, w in T.SIGNS]),
]


def quoted(w):
    return w.replace('\\', '\\\\')


def main():
    rs = '// Written by tools/outer_words.py. Do not edit.\n//! The words of the outer syntax with their classes.\nghost use Rattle.std.specs.Prelude.{◌≡◌};\nghost use Rattle.iv_outer.specs.Words.{%s, plain};\n\nuse iv_recogniser::Class;\n\n' % ', '.join(t[1] for t in TABLES)
    antt = '-- The words of the outer syntax with their classes. After the outer syntax of Isabelle\'s Reference Manual, in a profile of this project.\n-- Written by tools/outer_words.py.\n'
    antt += 'use Rattle.std.specs.Prelude.{ℕ, List, [], ◌∷◌, map, codes}\nuse Rattle.std.specs.Borrow.{Bor}\nuse Rattle.iv_recogniser.specs.declared.class.Class.{Class}\nuse Rattle.iv_recogniser.specs.declared.class.Class.TheVariants as class\nuse Rattle.iv_outer.specs.declared.words.Word.{Word}\n\n'
    antt += '-- a text with its class\nabbrev pub Entry : Type 0\nEntry = List ℕ × Class\n\n-- the entries without their references\nabbrev pub plain : List Word → List Entry\nplain ws = map (λ w. (w.text.now, w.class)) ws\n'
    rs += '/// A text with its class.\n#[derive(Clone, Copy)]\npub struct Word {\n    /// The text.\n    pub text: &\'static str,\n    /// Its class.\n    pub class: Class,\n}\n\n'
    for const, name, about, rows in TABLES:
        rs += 'const %s: &[Word] = &[\n' % const
        for w, c in rows:
            rs += '    Word { text: "%s", class: Class::%s },\n' % (quoted(w), c)
        rs += '];\n\n'
        antt += '\n-- %s\nabbrev pub %s : List Entry\n%s =\n' % (about, name, name)
        for w, c in rows:
            antt += '    (codes "%s", class.%s) ∷\n' % (quoted(w), c)
        antt += '    []\n'
    for const, name, about, rows in TABLES:
        rs += '/// The %s.\npub fn %s() -> &\'static [Word]\n    ensures { plain result.now ≡ %s }\n{\n    %s\n}\n\n' % (about, name, name, const)
    open(os.path.join(ROOT, 'src/words.rt'), 'w').write(rs.rstrip('\n') + '\n')
    open(os.path.join(ROOT, 'specs/Words.antt'), 'w').write(antt)


if __name__ == '__main__':
    main()
