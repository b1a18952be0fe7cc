#!/usr/bin/env python3
"""Writes the way from the forms back to the table, from `back.txt`.

Then `rt tidy` in the crate, which drops imports and lays out.
"""
import os
import re

import outer_forms as F
import outer_means as M
import outer_table as T

HERE = os.path.dirname(os.path.abspath(__file__))
BY = ['by_name', 'by_ident', 'by_att', 'by_call', 'by_subject', 'by_long', 'by_obtained', 'strong_mark', 'weak_mark']
FILES = ['BackFact', 'BackProp', 'BackMethod', 'BackCommand', 'BackForm']
FLAGS = {'Parts': (1, 1, 1), 'UsesDeclares': (0, 1, 1), 'MethodsDeclares': (1, 0, 1), 'MethodsUses': (1, 1, 0),
         'MethodsAlone': (1, 0, 0), 'UsesAlone': (0, 1, 0), 'DeclaresAlone': (0, 0, 1), 'Body': (0, 0, 0)}


def place(i):
    p = 'inl refl'
    for _ in range(i):
        p = 'inr (%s)' % p
    return '(%s)' % p


def main():
    t = T.Table()
    rels = F.relations(F.parse())

    def row(m):
        p, i = m.group(1), int(m.group(2))
        return 'part (%s) %s' % (M.cells(t.parts[p][i]), place(i))

    def expand(line):
        return re.sub(r'%(\w+)\.(\d+)', row, line)

    files, defined, cur = {}, {}, 'BackFact'
    pad = '  '
    files[cur] = []
    for line in open(os.path.join(HERE, 'back.txt')):
        line = line.rstrip('\n')
        if line.startswith('FILE '):
            cur = line[5:]
            files[cur] = []
        elif line == 'mutual':
            files[cur].append('  mutual')
            pad = '    '
        elif line == 'end':
            pad = '  '
        elif line.startswith('--'):
            files[cur].append(pad + line)
        elif line.startswith('DEF '):
            _, name, rel, part = line.split()
            base, _, arg = rel.partition('.')
            if base == 'AreAll':
                b, r = '{v : List Token}', 'AreAll sort.%s v' % arg
            else:
                types = rels[base][0]['types']
                if len(types) == 2:
                    b, r = '{m v : MethodText}', base + ' m v'
                else:
                    b, r = '{v : %s}' % types[0], base + ' v'
            files[cur].append('%spub %s : %s {s : List Symbol} {ts us : List Lexeme} → %s ts us → S s us → S (Goes P.%s ∷ s) ts' % (pad, name, b, r, part))
            defined[name] = cur
        elif line.startswith('SIG '):
            files[cur].append(pad + 'pub ' + line[4:])
            defined[line.split()[1]] = cur
        elif line.startswith('INCL '):
            _, name, a, b = line.split()
            files[cur].append('%spub %s : {s : List Symbol} {cs : List Class} → Spells forms (Goes P.%s ∷ s) cs → Spells forms (Goes P.%s ∷ s) cs' % (pad, name, a, b))
            where = []
            for i, r in enumerate(t.parts[a]):
                where.append((place(i).replace('refl', 'e'), place(t.parts[b].index(r)).replace('refl', 'e')))
            for i, j in where:
                files[cur].append('%s%s (part r %s d) = part r %s d' % (pad, name, i, j))
            last = 'e'
            for _ in t.parts[a]:
                last = 'inr (%s)' % last if last != 'e' else 'inr e'
            files[cur].append('%s%s (part r (%s) d) = elim e [ ]' % (pad, name, last))
            defined[name] = cur
        elif line == 'PARTS':
            defined['parts_s'] = cur
            files[cur].append('  abbrev pub part_of : Bool → Bool → Bool → Part')
            tf = lambda fs: ' '.join('true' if f else 'false' for f in fs)
            for p, fs in FLAGS.items():
                files[cur].append('  part_of %s = P.%s' % (tf(fs), p))
            files[cur].append('  pub parts_s : (a b c : Bool) {p : Parts} {s : List Symbol} {ts us : List Lexeme} → IsParts p ts us → Lacks a p.methods → Lacks b p.uses → Lacks c p.declares → S (EQUAL ∷ Goes P.Method ∷ s) us → S (Goes (part_of a b c) ∷ s) ts')
            for p, fs in FLAGS.items():
                files[cur].append(expand('  parts_s %s no_parts x y z d = %%%s.%d d' % (tf(fs), p, len(t.parts[p]) - 1)))
            for k, con in enumerate(['methods_part', 'uses_part', 'declares_part']):
                for p, fs in FLAGS.items():
                    args = ['x', 'y', 'z']
                    if fs[k]:
                        less = tuple(0 if i == k else f for i, f in enumerate(fs))
                        q = next(q for q, g in FLAGS.items() if g == less)
                        i = next(i for i, r in enumerate(t.parts[p]) if ('part', q) in r and r[0][1].lower() + '_part' == con)
                        call = [('e' if i2 == k else args[i2]) for i2 in range(3)]
                        files[cur].append(expand('  parts_s %s (%s w n xs p e) x y z d = %%%s.%d (word w (word n (idents_s xs (parts_s %s p %s d))))' % (tf(fs), con, p, i, tf(less), ' '.join(call))))
                    else:
                        files[cur].append('  parts_s %s (%s w n xs p e) x y z d = cc' % (tf(fs), con))
        elif line == 'FORMS':
            body = next(r for f in F.parse() for _, g in f['groups'] for r in g if r['name'] == 'IsForm')
            calls = {'IsTvars': None, 'IsConst': 'const_s', 'IsMoreConsts': 'more_consts_s', 'IsJudgmentForm': 'judgment_form_s',
                     'IsOptAtts': 'opt_atts_s', 'IsFacts': 'facts_s', 'IsOptFor': 'opt_for_s', 'IsStatement': 'statement_s',
                     'IsVars': 'vars_s', 'IsProps': 'props_s', 'IsOfType': 'of_type_s', 'IsClaim': 'claim_s',
                     'IsObtained': 'obtained_s', 'IsMethod': 'method_s', 'IsOptMethod': 'opt_method_s', 'IsSomeNat': 'some_nat_s',
                     'IsMoreEquations': 'more_equations_s'}
            special = {
                'typedecl': ('w xs x', 'word w (tvars_s xs (word x d))'),
                'axiomatization': ('w cs xs', 'word w (axiomatized_s cs xs d)'),
                'method_': ('w x gs p e m', 'word w (word x (opt_for_s gs (parts_s true true true p tt tt tt (word e (method_s m d)))))'),
                'define': ('{b = b} w x t h l k', 'word w (word x (of_type_s t (word h (labelled_term_s b l k d))))'),
                'note': ('w gs', 'word w (notes_s gs d)'),
                'let_': ('w (equation p e t) xs', 'word w (word p (word e (word t (more_equations_s xs d))))'),
            }
            for i, c in enumerate(body['cons']):
                if i == 0:
                    continue
                if c['name'] in special:
                    pat, term = special[c['name']]
                else:
                    pat, term = '', 'd'
                    names = []
                    for j, it in enumerate(c['items']):
                        names.append(chr(ord('h') + j))
                    for n, it in reversed(list(zip(names, c['items']))):
                        head = it.split(':')[0]
                        term = '%s %s %s' % (calls[head], n, term if term == 'd' else '(%s)' % term) if head.startswith('Is') else 'word %s %s' % (n, term if term == 'd' else '(%s)' % term)
                    pat = ' '.join(names)
                files[cur].append(expand('  form_s (%s %s) d = %%Command.%d (%s)' % (c['name'], pat, i, term)))
        elif line:
            files[cur].append(pad + expand(line))
    for k, file in enumerate(FILES):
        body = 'module _ (law : Law) where\n' + '\n'.join(files[file]) + '\n'
        for name, f in defined.items():
            if FILES.index(f) < k:
                body = re.sub(r'(?<![\w.])%s (?=[\w(])' % name, name + ' law ', body)
        text = '-- From the forms back to the table. Written by tools/outer_back.py from tools/back.txt.\n'
        text += M.imports(body).replace('specs.declared.part.Part.TheVariants as P\n', 'specs.declared.part.Part.TheVariants as P\nuse Rattle.iv_recogniser.specs.declared.part.Part.{Part}\n').replace('{◌≡◌, List', '{◌≡◌, Bool, true, false, ℕ, List')
        text += 'use Rattle.std.specs.Prelude.{Option}\nuse Rattle.iv_lex.specs.declared.cutting.Token.{Token}\n'
        text += ''.join(l + '\n' for l in F.imports(body) if ' as ' not in l)
        text += 'use Rattle.iv_recogniser.specs.declared.class.Class.{Class}\nuse Rattle.iv_recogniser.specs.Table.{forms}\nuse Rattle.iv_recogniser.specs.Spell.{Spells, word, part}\n'
        text += M.uses(body, BY, 'Rattle.iv_forms.proofs.Splits')
        text += 'use Rattle.iv_forms.proofs.Splits.{S}\nuse Rattle.iv_forms.proofs.Means.{Lacks}\n'
        for f2 in FILES[:k]:
            text += M.uses(body, [n for n, f in defined.items() if f == f2], 'Rattle.iv_forms.proofs.' + f2)
        M.save('proofs/%s.antt' % file, text + '\n' + body)


if __name__ == '__main__':
    main()
