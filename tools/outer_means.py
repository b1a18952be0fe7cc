#!/usr/bin/env python3
"""Writes what each row of the table means, from `forms.txt` and `meanings.txt`.

Then `rt tidy` in the crate, which drops imports and lays out.
"""
import os
import re

import outer_forms as F
import outer_table as T

HERE = os.path.dirname(os.path.abspath(__file__))
ROOT = os.path.join(HERE, '..', 'crates', 'iv_forms')
LAWFUL = ['within', 'name_term', 'ident_term', 'ident_name', 'long_name', 'no_ident_term', 'word_name', 'ident_tail',
          'obtained_tail']
HEAD = '-- Written by tools/outer_means.py from tools/meanings.txt.\n'


def meanings():
    rows, part = {}, None
    for line in open(os.path.join(HERE, 'meanings.txt')):
        line = line.rstrip('\n')
        if not line or line.startswith('#'):
            continue
        if '=>' in line:
            a, _, b = line.partition('=>')
            rows[part].append((a.split(), b.strip()))
        else:
            part = line
            rows[part] = []
    return rows


def name_of(p, i):
    return 'row_%s_%d' % (T.snake(p).lower(), i)


def cells(row):
    return ' ∷ '.join([(T.const(n) if k == 'word' else 'Goes P.' + n) for k, n in row] + ['[]'])


def constructors():
    """Each constructor with the file of specs that has it."""
    out = {}
    for f in F.parse():
        file = ('%sForm' % f['name']) if f['name'] != 'Form' else 'CommandForm'
        for _, g in f['groups']:
            for r in g:
                out[r['name']] = file
                for c in r['cons']:
                    out[c['name']] = file
    for c in ['other_name', 'with_sels', 'with_atts', 'with_facts', 'IsBeyond']:
        out[c] = 'MethodForm'
    for c in ['Is', 'IsA', 'AreAll', 'no_more', 'one_more']:
        out[c] = 'Lexeme'
    return out


HELPERS = ['mark_of', 'and_props', 'opt_nat', 'alt_of', 'seq_of', 'semi_of', 'bar_of', 'semicolon_of', 'comma_of', 'paren_of',
           'bare', 'item_of', 'args_of', 'call_after', 'fact_then', 'word_alone', 'and_notes', 'noted', 'labelled',
           'obtained_tail', 'ident_tail', 'and_tail']
MEANT = ['call_args', 'call_sections', 'brief', 'full', 'prop_tail', 'var_tail']
SORTS = ['within', 'name_term', 'ident_term', 'ident_name', 'long_name', 'no_ident_term', 'word_name']


def uses(text, table, module):
    found = sorted(x for x in table if re.search(r'(?<![\w.])%s(?![\w])' % re.escape(x), text))
    return 'use %s.{%s}\n' % (module, ', '.join(found)) if found else ''


def imports(text):
    cons = constructors()
    out = 'use Rattle.std.proofs.Common.{◌≡◌, List, [], ◌∷◌, refl, subst, inl, inr}\n'
    out += 'use Rattle.iv_recogniser.specs.declared.class.Class.TheVariants as class\nuse Rattle.iv_recogniser.specs.declared.class.Sort.TheVariants as sort\n'
    out += 'use Rattle.iv_recogniser.specs.declared.part.Part.TheVariants as P\nuse Rattle.iv_recogniser.specs.declared.part.Symbol.{Symbol}\nuse Rattle.iv_recogniser.specs.declared.part.Symbol.TheVariants.{Goes}\n'
    words = [T.const(n) for n in list(T.SORTS) + T.CLASSES]
    out += uses(text, words, 'Rattle.iv_recogniser.specs.Table')
    out += ''.join(l + '\n' for l in F.imports(text) if ' as ' in l)
    out += 'use Rattle.iv_forms.specs.declared.lexeme.Lexeme.{Lexeme}\n'
    for file in ['Lexeme', 'FactForm', 'PropForm', 'MethodForm', 'CommandForm']:
        out += uses(text, [c for c, f in cons.items() if f == file], 'Rattle.iv_forms.specs.' + file)
    out += uses(text, SORTS + ['Law'], 'Rattle.iv_forms.proofs.Sorts')
    out += uses(text, MEANT + ['MeansPart', 'Means', 'end', 'token', 'phrase'], 'Rattle.iv_forms.proofs.Means')
    out += uses(text, HELPERS, 'Rattle.iv_forms.proofs.Helpers')
    return out


def row_text(p, i, row, vs, rhs):
    pat = 'end'
    for (k, n), v in reversed(list(zip(row, vs))):
        pat = '(token %s %s %s)' % (v[0].upper() + v[1:], v, pat) if k == 'word' else '(phrase %s %s)' % (v, pat)
    for h in LAWFUL:
        rhs = re.sub(r'(?<![\w.])%s (?=\S)' % h, h + ' law ', rhs)
    name = name_of(p, i)
    return '  pub %s : {ts us : List Lexeme} → Means (%s) ts us → MeansPart P.%s ts us\n  %s %s = %s\n' % (
        name, cells(row), p, name, pat, rhs)


GROUPS = [('RowsFact', 'Fact', 'MoreWheres'), ('RowsProp', 'Prop', 'Fixity'), ('RowsMethod', 'Method', 'MorePats'),
          ('RowsCommand', 'Typed', 'ObtainedMore'), ('RowsWord', 'Command', 'Command')]


def write():
    t = T.Table()
    rows = meanings()
    parts = list(t.parts)
    for file, a, b in GROUPS:
        body = 'module _ (law : Law) where\n'
        for p in parts[parts.index(a):parts.index(b) + 1]:
            for i, (row, (vs, rhs)) in enumerate(zip(t.parts[p], rows[p])):
                body += row_text(p, i, row, vs, rhs)
            # the part as a whole
            body += '\n  pub part_%s : (r : List Symbol) → IsIn r (forms P.%s) → {ts us : List Lexeme} → Means r ts us → MeansPart P.%s ts us\n' % (T.snake(p).lower(), p, p)
            place = 'inl e'
            for i in range(len(t.parts[p])):
                body += '  part_%s r (%s) {ts = ts} {us = us} m = %s (subst (λ q. Means q ts us) e m)\n' % (T.snake(p).lower(), place, name_of(p, i))
                place = 'inr (%s)' % place
            body += '  part_%s r (%s) m = elim e [ ]\n\n' % (T.snake(p).lower(), place.replace('inl e', 'e'))
        text = HEAD + '-- What the rows of the table mean.\n' + imports(body)
        text += 'use Rattle.iv_recogniser.specs.Table.{forms}\nuse Rattle.iv_recogniser.specs.Spell.{IsIn}\n\n' + body.rstrip('\n') + '\n'
        save('proofs/%s.antt' % file, text)
    body = 'module _ (law : Law) where\n  pub closed : (p : Part) (r : List Symbol) → IsIn r (forms p) → {ts us : List Lexeme} → Means r ts us → MeansPart p ts us\n'
    for p in parts:
        body += '  closed P.%s r i m = part_%s law r i m\n' % (p, T.snake(p).lower())
    text = HEAD + '-- What a row of a part means, the part means.\n' + imports(body).replace('specs.declared.part.Part.TheVariants as P\n', 'specs.declared.part.Part.TheVariants as P\nuse Rattle.iv_recogniser.specs.declared.part.Part.{Part}\n')
    text += 'use Rattle.iv_recogniser.specs.Table.{forms}\nuse Rattle.iv_recogniser.specs.Spell.{IsIn}\n'
    for file, a, b in GROUPS:
        text += 'use Rattle.iv_forms.proofs.%s.{%s}\n' % (file, ', '.join('part_' + T.snake(p).lower() for p in parts[parts.index(a):parts.index(b) + 1]))
    save('proofs/Closed.antt', text + '\n' + body)


def save(path, text):
    path = os.path.join(ROOT, path)
    if not os.path.exists(path) or open(path).read() != text:
        open(path, 'w').write(text)


if __name__ == '__main__':
    write()
