#!/usr/bin/env python3
"""Writes three laws of each form of `readings.txt`, for its reader in `iv_facts`, `iv_readmethod` or `iv_read`: how many tokens
it takes, with which it begins, and that what it leaves is among what it reads.

Then `rt tidy` in the crates, which lays out.
"""
import os
import re

import outer_forms as F

HERE = os.path.dirname(os.path.abspath(__file__))
# the crates of readers, the lowest first, each with the files of its forms
CRATES = {'iv_facts': ['FactForm', 'PropForm'], 'iv_readmethod': ['MethodForm'], 'iv_read': ['CommandForm']}
# what the proofs of the last crate name
ROOTS = {
    'Lengths': ['IsConst', 'IsEquation', 'IsAxiom', 'IsNoteGroup'],
    'Firsts': ['IsAndConsts', 'IsAssumes', 'IsAxioms', 'IsFixes', 'IsMoreConsts', 'IsMoreNotes', 'IsParts'],
    'Tails': ['IsAxiomConsts', 'IsAxiom', 'IsFixes', 'IsNoteGroup', 'IsParts'],
}
HEAD = '-- Written by tools/outer_laws.py from tools/readings.txt.\n'


def items(con):
    """The items of a constructor: a set of tokens, or a form with its arguments."""
    out = []
    for it in con['items']:
        head, _, var = it.partition(':')
        if head.startswith('AreAll'):
            out.append(('all', head.partition('.')[2]))
        elif head.startswith('Is'):
            out.append(('form', head.partition('.')[0]))
        else:
            out.append(('token', var))
    return out


def sort_of(name):
    return '(sort.Only class.%s)' % name[1:] if name.startswith("'") else 'sort.' + name


def arg_of(name):
    return 'not_' + name.lstrip("'").lower()


class Forms:
    def __init__(self):
        self.groups = [g for f in F.parse() for g in f['groups']]
        self.files = {r['name']: ('%sForm' % f['name']) if f['name'] != 'Form' else 'CommandForm'
                      for f in F.parse() for _, g in f['groups'] for r in g}
        self.rels = {r['name']: r for _, g in self.groups for r in g}
        self.empty = set()
        while True:
            more = {n for n, r in self.rels.items() if n not in self.empty and any(
                all(k == 'all' or (k == 'form' and x in self.empty) for k, x in items(c)) for c in r['cons'])}
            if not more:
                break
            self.empty |= more
        self.first = {n: [] for n in self.rels}
        changed = True
        while changed:
            changed = False
            for n, r in self.rels.items():
                for c in r['cons']:
                    for k, x in items(c):
                        for s in ([x] if k != 'form' else self.first[x]):
                            if s not in self.first[n]:
                                self.first[n].append(s)
                                changed = True
                        if k == 'token' or (k == 'form' and x not in self.empty):
                            break

    def values(self, r):
        """The binders and the form at its values."""
        names = ['v', 'w'][:len(r['types'])]
        return ''.join('{%s : %s} ' % p for p in zip(names, r['types'])), ' '.join([r['name']] + names)

    def length(self, r):
        b, form = self.values(r)
        sign = '≤' if r['name'] in self.empty else '<'
        text = 'pub len_%s : %s{ts us : List Lexeme} → %s ts us → length us %s length ts\n' % (r['name'], b, form, sign)
        for c in r['cons']:
            args, facts = [], []
            for i, (k, x) in enumerate(items(c)):
                v = 'abcdefgh'[i]
                args.append(v)
                if k == 'form':
                    facts.append('len_%s %s' % (x, v))
                elif k == 'all':
                    facts.append('len_AreAll %s' % v)
            if c['cond']:
                args.append('z')
            pat = ' '.join([c['name']] + args)
            text += 'len_%s %s = omega (%s)\n' % (r['name'], '(%s)' % pat if args else pat, ', '.join(['arith'] + facts))
        return text

    def tail(self, r):
        b, form = self.values(r)
        n = r['name']
        text = 'pub tail_%s : (p : Pos) → %s{ts us : List Lexeme} → %s ts us → IsAmong p us → IsAmong p ts\n' % (n, b, form)
        for c in r['cons']:
            its = items(c)
            args = ['abcdefgh'[i] for i in range(len(its))] + (['z'] if c['cond'] else [])
            pat = ' '.join([c['name']] + args)
            end = 'q'
            for (k, x), v in reversed(list(zip(its, args))):
                call = 'inr' if k == 'token' else 'tail_%s p %s' % ('AreAll' if k == 'all' else x, v)
                end = '%s %s' % (call, end if end == 'q' else '(%s)' % end)
            text += 'tail_%s p %s q = %s\n' % (n, '(%s)' % pat if args else pat, end)
        return text

    def begin(self, r):
        n = r['name']
        b, form = self.values(r)
        tests = ''.join('clear k %s ≡ true → ' % sort_of(x) for x in self.first[n])
        names = ' '.join(arg_of(x) for x in self.first[n])
        before = 'begins k us ≡ false → ' if n in self.empty else ''
        text = 'pub free_%s : (k : Sort) → %s%s{ts us : List Lexeme} → %s ts us → %sbegins k ts ≡ false\n' % (n, tests, b, form, before)
        for c in r['cons']:
            its = items(c)
            args = ['abcdfghi'[i] for i in range(len(its))] + (['z'] if c['cond'] else [])
            pat = ' '.join([c['name']] + args)
            chain, end = [], 'e'
            for (k, x), v in zip(its, args):
                if k == 'token':
                    end = 'apart k %s %s _ %s' % (sort_of(x), arg_of(x), v)
                    break
                call = 'free_%s k %s %s' % (('AreAll', '%s %s' % (sort_of(x), arg_of(x)), v) if k == 'all' else
                                            (x, ' '.join(arg_of(y) for y in self.first[x]), v))
                if k == 'form' and x not in self.empty:
                    end = call
                    break
                chain.append(call)
            for call in reversed(chain):
                end = '%s %s' % (call, end if end == 'e' else '(%s)' % end)
            text += 'free_%s k %s %s%s = %s\n' % (n, names, '(%s)' % pat if args else pat, ' e' if before else '', end)
        return text


def named(names, body):
    """The names that stand in a text."""
    return sorted(x for x in names if re.search(r'(?<![\w.])%s(?!\w)' % re.escape(x), body))


def used(lines, body):
    """The lines of `use` with the names that a text needs."""
    out = ''
    for line in lines.splitlines():
        path, _, names = line.partition('.{')
        if not names:
            keep = re.search(r'(?<!\w)%s\.' % line.split()[-1], body)
            out += line + '\n' if keep else ''
            continue
        kept = [n for n in names.rstrip('}').split(', ') if (n.strip('◌') in body if '◌' in n else named([n], body))]
        out += '%s.{%s}\n' % (path, ', '.join(kept)) if kept else ''
    return out


def imports(f, body):
    """The values, forms and constructors that a text names."""
    out = ''.join(l + '\n' for l in F.imports(body) if ' as ' not in l)
    for file in ['FactForm', 'PropForm', 'MethodForm', 'CommandForm']:
        names = named([x for n, r in f.rels.items() if f.files[n] == file for x in [n] + [c['name'] for c in r['cons']]], body)
        if names:
            out += 'use Rattle.iv_forms.specs.%s.{%s}\n' % (file, ', '.join(names))
    return out


LEXEMES = '''use Rattle.iv_lex.specs.declared.cutting.Token.{Token}
use Rattle.iv_forms.specs.declared.lexeme.Lexeme.{Lexeme}
use Rattle.iv_forms.specs.Lexeme.{AreAll, no_more, one_more}
use Rattle.iv_recogniser.specs.declared.class.Sort.{Sort}
'''

# each law: the first word of its names, how it is written, what it is about, what it uses, and the law of tokens of a set
LAWS = {
    'Lengths': ('len', Forms.length, 'How many tokens a form leaves.', '''use Rattle.std.proofs.Common.{ℕ, ◌<◌, ◌≤◌, List, length, arith}
use Rattle.std.specs.Prelude.{Option}
''', '', '''
pub len_AreAll : {k : Sort} {v : List Token} {ts us : List Lexeme} → AreAll k v ts us → length us ≤ length ts
len_AreAll no_more = omega (arith)
len_AreAll (one_more a b) = omega (arith, len_AreAll b)
'''),
    'Firsts': ('free', Forms.begin, 'With which tokens a form begins: none of a set that has none of its first ones.', '''use Rattle.std.proofs.Common.{◌≡◌, ℕ, true, false, List}
use Rattle.std.specs.Prelude.{Option}
''', '''use Rattle.iv_recogniser.specs.declared.class.Class.TheVariants as class
use Rattle.iv_recogniser.specs.declared.class.Sort.TheVariants as sort
use Rattle.iv_facts.specs.Found.{begins}
use Rattle.iv_facts.specs.Laws.{clear}
''', '''
pub free_AreAll : (k l : Sort) → clear k l ≡ true → {v : List Token} {ts us : List Lexeme} → AreAll l v ts us → begins k us ≡ false → begins k ts ≡ false
free_AreAll k l t no_more e = e
free_AreAll k l t (one_more a b) e = apart k l t _ a
'''),
    'Tails': ('tail', Forms.tail, 'Where a place among the tokens that a form leaves is: among those that it reads.', '''use Rattle.std.proofs.Common.{ℕ, List, inr}
use Rattle.std.specs.Prelude.{Option}
use Rattle.iv_text.specs.declared.Pos.{Pos}
''', '''use Rattle.iv_facts.specs.Found.{IsAmong}
''', '''
pub tail_AreAll : (p : Pos) → {k : Sort} {v : List Token} {ts us : List Lexeme} → AreAll k v ts us → IsAmong p us → IsAmong p ts
tail_AreAll p no_more q = q
tail_AreAll p (one_more a b) q = inr (tail_AreAll p b q)
'''),
}


def indented(text):
    return ''.join('  %s\n' % l if l else '\n' for l in text.split('\n')).rstrip('\n') + '\n'


def field(form):
    """The name of a form in the laws of its crate that crates above know."""
    if form in ('IsMethod', 'IsOptMethod'):
        return 'one' if form == 'IsMethod' else 'opt'
    return 'tokens' if form == 'AreAll' else re.sub('(?<!^)([A-Z])', r'_\1', form[2:]).lower()


def from_below(f, crate, law, body):
    """The text with what is known of forms of lower crates."""
    word = LAWS[law][0]
    for low, files in CRATES.items():
        if low == crate:
            return body.replace('apart k', 'law.sets.apart k')
        known = 'law.%s%s' % ('' if low == 'iv_facts' else 'method_', law.lower())
        for n in [n for n in f.rels if f.files[n] in files] + (['AreAll'] if low == 'iv_facts' else []):
            body = re.sub(r'\b%s_%s\b' % (word, n), '%s.%s' % (known, field(n)), body)


def wanted(f, crate, law):
    """The forms of a crate whose laws are written: all, but in the last crate those that its proofs name, and what these need."""
    own = [n for n in f.rels if f.files[n] in CRATES[crate]]
    if crate != 'iv_read':
        return own
    todo, found = list(ROOTS[law]), set()
    while todo:
        n = todo.pop()
        if n in own and n not in found:
            found.add(n)
            todo += [x for c in f.rels[n]['cons'] for k, x in items(c) if k == 'form']
    return found


def laws(f, crate, law):
    """The laws of a crate's forms, in one text."""
    word, make, about, std, own, of_set = LAWS[law]
    forms = wanted(f, crate, law)
    body = of_set if crate == 'iv_facts' else ''
    for kind, group in f.groups:
        group = [r for r in group if r['name'] in forms]
        if group:
            text = '\n'.join(make(f, r) for r in group)
            body += '\n' + ('mutual\n' + indented(text.rstrip('\n')) if kind == 'mutual' else text)
    if crate != 'iv_facts':
        own += 'use Rattle.%s.specs.Laws.{Below}\n' % crate
        body = '\nmodule _ (law : Below) where\n' + indented(from_below(f, crate, law, body).strip('\n'))
    elif law == 'Firsts':
        own += 'use Rattle.iv_facts.proofs.Sorts.{Law, apart}\n'
        body = '\nmodule _ (law : Law) where\n' + indented(body.replace('apart k', 'apart law k').strip('\n'))
    return HEAD + '-- %s\n' % about + used(std + LEXEMES + own + imports(f, body), body) + body.rstrip('\n') + '\n'


def write():
    f = Forms()
    for crate in CRATES:
        for law in LAWS:
            path = os.path.join(HERE, '..', 'crates', crate, 'proofs', law + '.antt')
            open(path, 'w').write(laws(f, crate, law))


if __name__ == '__main__':
    write()
