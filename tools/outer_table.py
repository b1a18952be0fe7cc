#!/usr/bin/env python3
"""Keeps the table of the outer syntax: reads `forms.txt`, checks it, and writes what repeats.

    outer_table.py check            follow sets, samples and conflicts
    outer_table.py write            the generated files of `iv_recogniser`

Then `rt tidy` in the crate, which drops imports and lays out.
"""
import os
import re
import sys

HERE = os.path.dirname(os.path.abspath(__file__))

# The words of commands: class, text, and the rest of their row.
COMMANDS = [
    ('Theory', 'theory', 'NAME IMPORTS NAME Names BEGIN'),
    ('End', 'end', ''),
    ('Chapter', 'chapter', 'QUOTED'), ('Section', 'section', 'QUOTED'),
    ('Subsection', 'subsection', 'QUOTED'), ('Subsubsection', 'subsubsection', 'QUOTED'),
    ('Paragraph', 'paragraph', 'QUOTED'), ('Subparagraph', 'subparagraph', 'QUOTED'),
    ('Prose', 'text', 'QUOTED'), ('Txt', 'txt', 'QUOTED'),
    ('Typedecl', 'typedecl', 'Typed'), ('Consts', 'consts', 'Const MoreConsts'),
    ('Judgment', 'judgment', 'IDENT COLONS TYPE JudgmentForm'),
    ('Axiomatization', 'axiomatization', 'Axiomatized'),
    ('Lemmas', 'lemmas', 'NAME OptAtts EQUAL Facts'), ('Declare', 'declare', 'Facts'),
    ('NamedTheorems', 'named_theorems', 'IDENT'), ('Method', 'method', 'IDENT OptFor Parts'),
    ('Lemma', 'lemma', 'Statement'), ('Theorem', 'theorem', 'Statement'),
    ('Corollary', 'corollary', 'Statement'), ('Proposition', 'proposition', 'Statement'),
    ('Fix', 'fix', 'Vars'), ('Assume', 'assume', 'Props'), ('Presume', 'presume', 'Props'),
    ('Define', 'define', 'IDENT OfType WHERE LabelledTerm'), ('Note', 'note', 'NAME NoteName'),
    ('Let', 'let', 'TERM EQUAL TERM MoreEquations'),
    ('LeftBrace', '{', ''), ('RightBrace', '}', ''), ('Next', 'next', ''), ('Then', 'then', ''),
    ('From', 'from', 'Facts'), ('With', 'with', 'Facts'),
    ('Have', 'have', 'Claim'), ('Show', 'show', 'Claim'), ('Hence', 'hence', 'Claim'), ('Thus', 'thus', 'Claim'),
    ('Obtain', 'obtain', 'Obtained'),
    ('Also', 'also', ''), ('Moreover', 'moreover', ''), ('Finally', 'finally', ''), ('Ultimately', 'ultimately', ''),
    ('Apply', 'apply', 'Method'), ('Using', 'using', 'Facts'), ('Defer', 'defer', 'OptNat'),
    ('Prefer', 'prefer', 'NAT'), ('Back', 'back', ''),
    ('Proof', 'proof', 'OptMethod'), ('Qed', 'qed', 'OptMethod'), ('By', 'by', 'Method OptMethod'),
    ('Dot', '.', ''), ('Dots', '..', ''), ('Done', 'done', ''), ('Oops', 'oops', ''),
]
# The minor keywords.
MINOR = [('And', 'and'), ('Assumes', 'assumes'), ('Begin', 'begin'), ('Declares', 'declares'), ('Fixes', 'fixes'),
         ('For', 'for'), ('Imports', 'imports'), ('In', 'in'), ('Is', 'is'), ('Methods', 'methods'),
         ('Shows', 'shows'), ('Uses', 'uses'), ('Where', 'where')]
# Identifiers that a form names.
NAMED = [('OfFacts', 'OF'), ('ThenFact', 'THEN'), ('OfTerms', 'of'), ('Infix', 'infix'), ('Infixl', 'infixl'),
         ('Infixr', 'infixr'), ('Binder', 'binder'), ('Rule', 'rule'), ('Rule', 'erule'), ('Rule', 'drule'),
         ('Rule', 'frule'), ('Rule', 'intro'), ('Rule', 'elim'), ('Match', 'match'), ('Premises', 'premises'),
         ('Conclusion', 'conclusion'), ('Cut', 'cut')]
SINGLES = [('Open', '('), ('Close', ')'), ('Left', '['), ('Right', ']'), ('Comma', ','), ('Semicolon', ';'),
           ('Colon', ':'), ('Colons', '::')]
SIGNS = [('Equal', '='), ('Arrow', '=>'), ('Bar', '|'), ('CaseBar', r'\<bar>'), ('Plus', '+'), ('Question', '?'),
         ('Exclamation', '!'), ('Minus', '-'), ('Dummy', '_')]
OTHERS = ['Ident', 'Long', 'Low', 'Thousand', 'Nat', 'Var', 'Tvar', 'Plain', 'Prefix', 'Spaced', 'Judging', 'Str',
          'Cart', 'Into', 'OutOf', 'Other']

named = list(dict.fromkeys(c for c, _ in NAMED))
CLASSES = ([c for c, _, _ in COMMANDS] + [c for c, _ in MINOR] + named + [c for c, _ in SINGLES]
           + [c for c, _ in SIGNS] + OTHERS)
STRINGS = ['Plain', 'Prefix', 'Spaced', 'Judging', 'Str']
IDENTS = ['Ident'] + named
SORTS = {
    'Identifier': IDENTS,
    'Name': IDENTS + ['Long'],
    'OtherName': [c for c in IDENTS + ['Long'] if c not in ('OfFacts', 'ThenFact', 'OfTerms')],
    'CallName': [c for c in IDENTS + ['Long'] if c not in ('Rule', 'Match')],
    'SubjectName': [c for c in IDENTS + ['Long'] if c not in ('Premises', 'Conclusion')],
    'Term': IDENTS + ['Long', 'Var'] + STRINGS + ['Cart'],
    'NoName': ['Var'] + STRINGS + ['Cart'],
    'NoIdent': ['Long', 'Var'] + STRINGS + ['Cart'],
    'Type': IDENTS + ['Tvar'] + STRINGS + ['Cart'],
    'Quoted': STRINGS + ['Cart'],
    'Numeral': ['Low', 'Thousand', 'Nat'],
    'Priority': ['Low', 'Thousand'],
    'Mark': ['Question', 'Exclamation'],
    'Binding': ['Plain', 'Spaced'],
}
WORDS = {'IDENT': 'Identifier', 'NO_IDENT': 'NoIdent', 'NO_NAME': 'NoName', 'NAT': 'Numeral'}


def camel(word):
    return ''.join(w.capitalize() for w in word.lower().split('_'))


def snake(name):
    return re.sub(r'(?<!^)([A-Z])', r'_\1', name)


def symbol_of(word):
    """A word of forms.txt as ('word', sort or class) or ('part', name)."""
    if word.upper() == word:
        name = WORDS.get(word, camel(word))
        assert name in SORTS or name in CLASSES, word
        return ('word', name)
    return ('part', word)


def read_forms():
    parts = {}
    for line in open(os.path.join(HERE, 'forms.txt')):
        line = line.strip()
        if not line or line.startswith('#'):
            continue
        name, _, rows = line.partition(' = ')
        if rows == '$COMMANDS':
            parts[name] = [[('word', c)] + [symbol_of(w) for w in r.split()] for c, _, r in COMMANDS]
        else:
            parts[name] = [[] if r.strip() == '-' else [symbol_of(w) for w in r.split()] for r in rows.split(' | ')]
    return parts


def members(name):
    return SORTS.get(name, [name])


class Table:
    def __init__(self):
        self.parts = read_forms()
        for p, rows in self.parts.items():
            for r in rows:
                for k, n in r:
                    assert k == 'word' or n in self.parts, (p, n)
        self.compute()

    def may_end(self, p):
        return [] in self.parts[p]

    def first(self, p):
        return set(c for r in self.parts[p] if r for c in members(r[0][1]))

    def begins(self, syms, more=None):
        out = set()
        for k, n in syms:
            if k == 'word':
                return out | set(members(n)), False
            out |= self.first(n)
            if not self.may_end(n):
                return out, False
        return out, True

    def compute(self):
        self.follow = {p: set() for p in self.parts}
        changed = True
        while changed:
            changed = False
            for p, rows in self.parts.items():
                for r in rows:
                    for i, (k, n) in enumerate(r):
                        if k == 'part':
                            b, e = self.begins(r[i + 1:])
                            new = b | (self.follow[p] if e else set())
                            if not new <= self.follow[n]:
                                self.follow[n] |= new
                                changed = True
        self.sample = {p: [] for p in self.parts if self.may_end(p)}
        changed = True
        while changed:
            changed = False
            for p, rows in self.parts.items():
                for r in rows:
                    if p not in self.sample and all(k == 'word' or n in self.sample for k, n in r):
                        self.sample[p] = [c for k, n in r for c in (members(n)[:1] if k == 'word' else self.sample[n])]
                        changed = True

    def check(self):
        bad = []
        for p, rows in self.parts.items():
            seen = {}
            for i, r in enumerate(rows):
                if not r:
                    if i:
                        bad.append('%s: the empty row is not first' % p)
                    continue
                if r[0][0] != 'word':
                    bad.append('%s: a row begins with a part' % p)
                    continue
                for c in members(r[0][1]):
                    if c in seen:
                        bad.append('%s: rows %d and %d both begin with %s' % (p, seen[c], i, c))
                    seen[c] = i
            if self.may_end(p):
                for c in self.follow[p] & set(seen):
                    bad.append('%s: %s goes on and follows' % (p, c))
            if p not in self.sample:
                bad.append('%s: no sample' % p)
        used = {'Command'}
        todo = ['Command']
        while todo:
            for r in self.parts[todo.pop()]:
                for k, n in r:
                    if k == 'part' and n not in used:
                        used.add(n)
                        todo.append(n)
        for p in self.parts:
            if p not in used:
                bad.append('%s: unused' % p)
        return bad


HEAD = '// Written by tools/outer_table.py. Do not edit.\n'
HEAD2 = '-- Written by tools/outer_table.py. Do not edit.\n'
ROOT = os.path.join(HERE, '..', 'crates')


def save(path, text):
    path = os.path.join(ROOT, path)
    os.makedirs(os.path.dirname(path), exist_ok=True)
    if not os.path.exists(path) or open(path).read() != text:
        open(path, 'w').write(text)


def const(name):
    return snake(name).upper()


def sort_term(name):
    return name if name in SORTS else 'Only %s' % name


def doc_of():
    docs = {}
    for c, w, _ in COMMANDS:
        docs[c] = 'The command word `%s`.' % w
    for c, w in MINOR:
        docs[c] = 'The keyword `%s`.' % w
    for c, w in NAMED + SINGLES + SIGNS:
        docs[c] = 'The identifier `%s`.' % w if (c, w) in NAMED else 'The token `%s`.' % w
    docs['Rule'] = 'One of the identifiers `rule`, `erule`, `drule`, `frule`, `intro` and `elim`.'
    docs.update(
        Ident='Any other identifier.', Long='An identifier with dots.',
        Low='A number up to 999.', Thousand='The number 1000.', Nat='A greater number, up to 4,294,967,295.',
        Var='A schematic variable.', Tvar='A type variable.',
        Plain='A string that is a symbol: one or more characters without blanks and without `_`.',
        Prefix='A string that is a symbol, maybe a space, and `_`.', Spaced='A string that is a symbol and a space.',
        Judging='The string `_` or `(_)`.', Str='Any other string.', Cart='A cartouche.',
        Into='The opening of a cartouche that stands behind `=>`.', OutOf='The closing of such a cartouche.',
        Other='A token that no form has.')
    return docs


SORT_DOCS = {
    'Identifier': 'Identifiers.', 'Name': 'Identifiers, with dots or without.',
    'OtherName': 'Names other than `OF`, `THEN` and `of`.',
    'CallName': 'Names other than those of rule methods and `match`.',
    'SubjectName': 'Names other than `premises` and `conclusion`.',
    'Term': 'What may stand for a term.', 'NoName': 'Terms that are no names.', 'NoIdent': 'Terms that are no identifiers.',
    'Type': 'What may stand for a type.', 'Quoted': 'Strings and cartouches.', 'Numeral': 'Numbers.',
    'Priority': 'Numbers up to 1000.', 'Mark': '`?` and `!`.', 'Binding': 'Symbols that may have a space behind them.',
}


def write_class(t):
    docs = doc_of()
    out = HEAD + "//! The classes of tokens, and sets of them.\nghost use Rattle.std.specs.Prelude.{◌≡◌};\nghost use Rattle.std.specs.List.{list_any};\nghost use Rattle.iv_recogniser.specs.Class.{has, same_class};\n\n"
    out += "/// The class of a token: all that the forms ask of it.\n#[derive(Clone, Copy, Debug, PartialEq, Eq)]\npub enum Class {\n"
    for c in CLASSES:
        out += "    /// %s\n    %s,\n" % (docs[c], c)
    out += "}\n\n/// A set of classes, as a form names it.\n#[derive(Clone, Copy, Debug, PartialEq, Eq)]\npub enum Sort {\n    /// One class.\n    Only(Class),\n"
    for n in SORTS:
        out += "    /// %s\n    %s,\n" % (SORT_DOCS[n], n)
    out += "}\n\n"
    for n, ms in SORTS.items():
        out += "/// %s\npub const %s: &[Class] = &[%s];\n" % (SORT_DOCS[n], const(n), ', '.join('Class::' + m for m in ms))
    out += """
impl Class {
    /// Whether both are the same class.
    pub fn is(self, other: Class) -> bool
        ensures { result ≡ same_class self other }
    {
        self as u8 == other as u8
    }

    /// Whether it is one of these.
    pub fn is_in(self, classes: &[Class]) -> bool
        ensures { result ≡ list_any (same_class self) classes.now }
    {
        classes.iter().any(|class| self.is(*class))
    }
}

impl Sort {
    /// Whether it has this class.
    pub fn has(self, class: Class) -> bool
        ensures { result ≡ has self class }
    {
        match self {
            Sort::Only(only) => class.is(only),
"""
    for n in SORTS:
        out += "            Sort::%s => class.is_in(%s),\n" % (n, const(n))
    out += "        }\n    }\n}\n"
    save('iv_recogniser/src/class.rt', out)
    # specs
    out = HEAD2 + "-- Classes of tokens and sets of them. Of this project.\n"
    out += "use Rattle.std.specs.Prelude.{ℕ, Bool, List, [], ◌∷◌, ◌==◌}\nuse Rattle.std.specs.List.{list_any}\n"
    out += "use Rattle.iv_recogniser.specs.declared.class.Class.{Class}\nuse Rattle.iv_recogniser.specs.declared.class.Class.TheVariants.{%s}\n" % ', '.join(CLASSES)
    out += "use Rattle.iv_recogniser.specs.declared.class.Sort.{Sort}\nuse Rattle.iv_recogniser.specs.declared.class.Sort.TheVariants as sort\n\n"
    out += "-- the number of a class\nabbrev pub number : Class → ℕ\n"
    for i, c in enumerate(CLASSES):
        out += "number %s = %d\n" % (c, i)
    out += "\n-- whether two are the same class\nabbrev pub same_class : Class → Class → Bool\nsame_class a b = number a == number b\n"
    out += "\n-- all classes\nunfoldable pub classes : List Class\nclasses = %s ∷ []\n" % ' ∷ '.join(CLASSES)
    for n, ms in SORTS.items():
        out += "\nabbrev pub %s : List Class\n%s = %s ∷ []\n" % (snake(n).lower() + '_classes', snake(n).lower() + '_classes', ' ∷ '.join(ms))
    out += "\n-- the members of a set\nabbrev pub members : Sort → List Class\nmembers (sort.Only only) = only ∷ []\n"
    for n in SORTS:
        out += "members sort.%s = %s\n" % (n, snake(n).lower() + '_classes')
    out += "\n-- whether a set has a class\nabbrev pub has : Sort → Class → Bool\nhas (sort.Only only) c = same_class c only\n"
    for n in SORTS:
        out += "has sort.%s c = list_any (same_class c) %s\n" % (n, snake(n).lower() + '_classes')
    save('iv_recogniser/specs/Class.antt', out)


def described(rows):
    return '; or '.join('`%s`' % ' '.join(const(n) if k == 'word' else n for k, n in r) if r else 'nothing' for r in rows)


def write_table(t):
    words = list(dict.fromkeys(n for rows in t.parts.values() for r in rows for k, n in r if k == 'word'))
    parts = list(t.parts)
    out = HEAD + "//! The parts of the forms.\n\nuse crate::class::{Class, Sort};\n\n"
    out += "/// A part of the forms. Each has its rows here: in small letters parts, in capitals tokens.\n#[derive(Clone, Copy, Debug, PartialEq, Eq)]\npub enum Part {\n"
    for p, rows in t.parts.items():
        out += "    /// %s\n" % ('A command: its word, and what stands behind it.' if p == 'Command' else described(rows))
        out += "    %s,\n" % p
    out += "}\n\n/// What stands in a row: a token, or a part.\n#[derive(Clone, Copy, Debug, PartialEq, Eq)]\npub enum Symbol {\n    /// A token of a set.\n    Word(Sort),\n    /// A part.\n    Goes(Part),\n}\n\n"
    for w in words:
        out += "pub(crate) const %s: Symbol = Symbol::Word(Sort::%s);\n" % ('W_' + const(w), w if w in SORTS else 'Only(Class::%s)' % w)
    called = [p for p in parts if any(('part', p) in r for rows in t.parts.values() for r in rows)]
    for p in called:
        out += "pub(crate) const %s: Symbol = Symbol::Goes(Part::%s);\n" % (const(p), p)
    save('iv_recogniser/src/part.rt', out)
    out = HEAD + "//! The table of forms: each part with its rows.\nghost use Rattle.std.specs.Prelude.{◌≡◌};\nghost use Rattle.iv_recogniser.specs.Table.{forms, plain};\n\n"
    out += "use crate::part::{%s, Part, Symbol};\n\n" % ', '.join(sorted([const(p) for p in called] + ['W_' + const(w) for w in words]))
    for p, rows in t.parts.items():
        rs = ', '.join('&[' + ', '.join(('W_' if k == 'word' else '') + const(n) for k, n in r) + ']' for r in rows)
        out += "const %s_ROWS: &[&[Symbol]] = &[%s];\n" % (const(p), rs)
    out += "\n/// The rows of a part.\npub fn forms(part: Part) -> &'static [&'static [Symbol]]\n    ensures { plain result.now ≡ forms part }\n{\n    match part {\n"
    for p in parts:
        out += "        Part::%s => %s_ROWS,\n" % (p, const(p))
    out += "    }\n}\n"
    save('iv_recogniser/src/table.rt', out)
    out = HEAD2 + "-- The table of forms. After the outer syntax of Isabelle's Reference Manual, in a profile of this project.\n"
    out += "use Rattle.std.specs.Prelude.{List, [], ◌∷◌, map}\nuse Rattle.std.specs.Borrow.{Bor}\n"
    out += "use Rattle.iv_recogniser.specs.declared.class.Class.{Class}\nuse Rattle.iv_recogniser.specs.declared.class.Class.TheVariants as class\n"
    out += "use Rattle.iv_recogniser.specs.declared.class.Sort.TheVariants as sort\n"
    out += "use Rattle.iv_recogniser.specs.declared.part.Part.{Part}\nuse Rattle.iv_recogniser.specs.declared.part.Part.TheVariants.{%s}\n" % ', '.join(parts)
    out += "use Rattle.iv_recogniser.specs.declared.part.Symbol.{Symbol}\nuse Rattle.iv_recogniser.specs.declared.part.Symbol.TheVariants.{Word, Goes}\n\n"
    for w in words:
        out += "abbrev pub %s : Symbol\n%s = Word %s\n" % (const(w), const(w), 'sort.' + w if w in SORTS else '(sort.Only class.%s)' % w)
    out += "\n-- the rows of each part\nabbrev pub forms : Part → List (List Symbol)\n"
    for p, rows in t.parts.items():
        out += "forms %s =\n" % p
        for r in rows:
            cells = ' ∷ '.join(const(n) if k == 'word' else 'Goes ' + n for k, n in r)
            out += "    (%s) ∷\n" % (cells + ' ∷ []' if r else '[]')
        out += "    []\n"
    out += "\n-- the rows without their references\nabbrev pub plain : List (Bor (List Symbol)) → List (List Symbol)\nplain rows = map (λ r. r.now) rows\n"
    save('iv_recogniser/specs/Table.antt', out)



def write_proofs(t):
    parts = list(t.parts)
    imp = "use Rattle.iv_recogniser.specs.declared.class.Class.{Class}\nuse Rattle.iv_recogniser.specs.declared.class.Class.TheVariants as class\n"
    pimp = "use Rattle.iv_recogniser.specs.declared.part.Part.{Part}\nuse Rattle.iv_recogniser.specs.declared.part.Part.TheVariants as part\n"
    # classes by their numbers
    out = HEAD2 + "-- Each class by its number.\nuse Rattle.std.proofs.Common.{◌≡◌, ℕ, List, refl}\nuse Rattle.std.specs.Prelude.{Some}\n" + imp
    out += "use Rattle.iv_recogniser.specs.declared.class.Sort.{Sort}\nuse Rattle.iv_recogniser.specs.declared.class.Sort.TheVariants as sort\n"
    out += "use denote.Enum.Declared.{tag_of}\nuse Rattle.iv_recogniser.specs.contracts.class.Class.{the_type}\nuse Rattle.iv_recogniser.specs.Class.{number, classes, members, has}\nuse Rattle.iv_recogniser.proofs.Sets.{nth, Among, has_only}\n\n"
    out += "-- the number of a variant in the code\npub tag_is : (c : Class) → tag_of the_type c ≡ number c\n"
    for c in CLASSES:
        out += "tag_is class.%s = refl\n" % c
    out += "\n-- a class stands at its number\npub number_at : (c : Class) → nth (number c) classes ≡ Some c\nunfolding classes\n"
    for c in CLASSES:
        out += "number_at class.%s = refl\n" % c
    out += "\n-- the classes of a set are its members\npub has_members : (k : Sort) (c : Class) → has k c ≡ Rattle.std.specs.Prelude.true → Among c (members k)\n".replace('Rattle.std.specs.Prelude.true', 'true')
    out = out.replace("specs.Prelude.{Some}", "specs.Prelude.{Some, true}")
    out += "has_members (sort.Only o) c h = has_only o c h\n"
    for n in SORTS:
        out += "has_members sort.%s c h = h\n" % n
    save('iv_recogniser/proofs/Numbers.antt', out)
    # a member of each set
    out = HEAD2 + "-- A member of each set of classes.\nuse Rattle.std.proofs.Common.{◌≡◌, ℕ, Bool, refl, true}\nuse Rattle.std.proofs.lemmas.Bool.{eq-eqb}\n" + imp
    out += "use Rattle.iv_recogniser.specs.declared.class.Sort.{Sort}\nuse Rattle.iv_recogniser.specs.declared.class.Sort.TheVariants as sort\nuse Rattle.iv_recogniser.specs.Class.{has, number}\n\n"
    out += "pub some_of : (k : Sort) → (c : Class) × (has k c ≡ true)\nsome_of (sort.Only o) = (o, eq-eqb (number o) (number o) refl)\n"
    for n, ms in SORTS.items():
        out += "some_of sort.%s = (class.%s, refl)\n" % (n, ms[0])
    save('iv_recogniser/proofs/Some.antt', out)
    # follow sets and samples
    out = HEAD2 + "-- What may follow each part, and some classes that each part spells.\nuse Rattle.std.proofs.Common.{List, [], ◌∷◌}\n" + imp + pimp + '\n'
    out += "-- what may follow a part\npub abbrev follow : Part → List Class\n".replace('pub abbrev', 'abbrev pub')
    for p in parts:
        out += "follow part.%s = %s\n" % (p, ' ∷ '.join(['class.' + c for c in CLASSES if c in t.follow[p]] + ['[]']))
    out += "\n-- classes that a part spells\nabbrev pub sample : Part → List Class\n"
    for p in parts:
        out += "sample part.%s = %s\n" % (p, ' ∷ '.join(['class.' + c for c in t.sample[p]] + ['[]']))
    save('iv_recogniser/proofs/Follow.antt', out)
    # the checks
    out = HEAD2 + "-- The table is checked, part by part.\nuse Rattle.std.proofs.Common.{◌≡◌, refl, true}\n" + pimp
    out += "use Rattle.iv_recogniser.specs.Table.{forms}\nuse Rattle.iv_recogniser.proofs.Follow.{follow, sample}\nuse Rattle.iv_recogniser.proofs.Checks.{is_good, is_sampled}\n"
    for p in parts:
        n = snake(p).lower()
        out += "\ngood_%s : is_good forms follow part.%s ≡ true\ngood_%s = refl\nsampled_%s : is_sampled forms sample part.%s ≡ true\nsampled_%s = refl\n" % (n, p, n, n, p, n)
    out += "\npub good : (p : Part) → is_good forms follow p ≡ true\n"
    for p in parts:
        out += "good part.%s = good_%s\n" % (p, snake(p).lower())
    out += "\npub sampled : (p : Part) → is_sampled forms sample p ≡ true\n"
    for p in parts:
        out += "sampled part.%s = sampled_%s\n" % (p, snake(p).lower())
    save('iv_recogniser/proofs/Checked.antt', out)


def write(t):
    write_class(t)
    write_table(t)
    write_proofs(t)


if __name__ == '__main__':
    t = Table()
    if sys.argv[1] == 'check':
        for b in t.check():
            print(b)
        print(len(t.parts), 'parts,', sum(len(r) for r in t.parts.values()), 'rows,', len(CLASSES), 'classes,',
              max(len(f) for f in t.follow.values()), 'in the largest follow set')
    elif sys.argv[1] == 'write':
        bad = t.check()
        assert not bad, bad
        write(t)
