#!/usr/bin/env python3
"""Writes the relations of `iv_forms` from `readings.txt`: the forms, each with what it reads.

Then `rt tidy` in the crate, which drops imports and lays out.
"""
import os
import re
import sys

HERE = os.path.dirname(os.path.abspath(__file__))
ROOT = os.path.join(HERE, '..', 'crates', 'iv_forms')
LISTS = ['ts', 'us', 'vs', 'ws', 'ys', 'zs', 'ts2', 'us2']


def wrapped(value, places):
    return '(%s)' % value if places == 1 and ' ' in value and not value.startswith('(') else value


def parse():
    """Files with groups of relations: (name, value types, comment, [(constructor, items, condition, value)])."""
    files, group, comment = [], None, None
    rel = None
    for line in open(os.path.join(HERE, 'readings.txt')):
        line = line.rstrip('\n')
        if not line or line.startswith('#'):
            continue
        if line.startswith('file '):
            files.append(dict(name=line[5:], about='', uses=[], groups=[]))
            group = None
        elif line.startswith('about '):
            files[-1]['about'] = line[6:]
        elif line.startswith('use '):
            w = line.split()
            files[-1]['uses'].append((w[1], w[2:]))
        elif line == 'mutual':
            group = []
            files[-1]['groups'].append(('mutual', group))
        elif line == 'end':
            group = None
        elif line.startswith('--'):
            comment = line
        elif not line.startswith(' '):
            name, _, typ = line.partition(' :')
            typ = typ.strip()
            typs = [typ] if typ.startswith(('List', 'Option')) else typ.split()
            rel = dict(name=name, types=typs, comment=comment, cons=[])
            if group is None:
                files[-1]['groups'].append(('one', [rel]))
            else:
                group.append(rel)
        else:
            con, _, rest = line.strip().partition(' = ')
            items, _, value = rest.partition('->')
            cond = None
            m = re.search(r'\?\((.*)\)\s*$', items)
            if m:
                cond = m.group(1)
                items = items[:m.start()]
            rel['cons'].append(dict(name=con, items=items.split(), cond=cond, value=wrapped(value.strip(), len(rel['types']))))
    return files


def relations(files):
    return {r['name']: (r, f['name']) for f in files for _, g in f['groups'] for r in g}


def constructor(rel, con, rels):
    """The constructor's type, threading the tokens through its items."""
    names = iter(LISTS)
    binders = []

    def bind(x, t):
        if not any(b == x for b, _ in binders):
            binders.append((x, t))

    premises = []
    items = con['items']
    # the tokens before item i are `before`; build the lists from the left
    segs = []
    for it in items:
        head, _, var = it.partition(':')
        if head.startswith('Is') or head.startswith('AreAll'):
            segs.append(('rel', head, var))
        else:
            segs.append(('tok', head, var))
    cur = next(names)
    start_prefix = []
    lists = [cur]
    i = 0
    while i < len(segs) and segs[i][0] == 'tok':
        start_prefix.append(segs[i])
        i += 1
    for _, x, s in start_prefix:
        bind(x, 'Lexeme')
        premises.append(('IsA class.%s %s' % (s[1:], x)) if s.startswith("'") else 'Is sort.%s %s' % (s, x))
    now = cur
    while i < len(segs):
        _, head, var = segs[i]
        i += 1
        toks = []
        while i < len(segs) and segs[i][0] == 'tok':
            toks.append(segs[i])
            i += 1
        nxt = next(names)
        lists.append(nxt)
        after = nxt
        for _, x, s in reversed(toks):
            after = '%s ∷ %s' % (x, after)
        after_arg = '(%s)' % after if toks else after
        base, _, arg = head.partition('.')
        if base == 'AreAll':
            bind(var, 'List Token')
            premises.append('AreAll sort.%s %s %s %s' % (arg, var, now, after_arg))
        else:
            r = rels[base][0]
            if arg:
                a = arg.replace('_', ' ')
                for v in re.findall(r'\b[a-z]\b', a):
                    bind(v, r['types'][0])
                bind(var, r['types'][-1])
                premises.append('%s %s %s %s %s' % (base, a, var, now, after_arg))
            else:
                if r['types']:
                    bind(var, r['types'][0])
                premises.append(' '.join(x for x in (base, var, now, after_arg) if x))
        for _, x, s in toks:
            bind(x, 'Lexeme')
            premises.append(('IsA class.%s %s' % (s[1:], x)) if s.startswith("'") else 'Is sort.%s %s' % (s, x))
        now = nxt
    if con['cond']:
        premises.append('(%s)' % con['cond'] if '≡' in con['cond'] else con['cond'])
    inp = cur
    for _, x, s in reversed(start_prefix):
        inp = '%s ∷ %s' % (x, inp)
    if start_prefix:
        inp = '(%s)' % inp
    if len(rel['types']) == 2:
        bind('m', 'MethodText')
    for l in lists:
        bind(l, 'List Lexeme')
    # group the binders by type, in order
    groups = []
    for x, t in binders:
        for g in groups:
            if g[1] == t:
                g[0].append(x)
                break
        else:
            groups.append(([x], t))
    bs = ' '.join('{%s : %s}' % (' '.join(xs), t) for xs, t in groups)
    concl = ' '.join(x for x in (rel['name'], con['value'], inp, now) if x)
    return '%s : %s → %s' % (con['name'], bs, ' → '.join(premises + [concl]))


VALUES = {
    'Fact': ('fact', ['Sel', 'Mark', 'Where', 'TermPlace', 'Fact', 'Att', 'Place']),
    'Prop': ('prop', ['Label', 'Prop', 'Claim', 'Group', 'VarGroup']),
    'Method': ('method', ['Section', 'Subject', 'Cut', 'Pattern', 'MethodText', 'Arg', 'Case']),
    'Form': ('command', ['Fixity', 'Constant', 'Axiom', 'Statement', 'Parts', 'NoteGroup', 'Equation', 'Obtained', 'Body']),
}
ALIAS = {'MethodText': 'VMethod'}


def imports(text):
    out = []
    for mod, typs in VALUES.values():
        for t in typs:
            if re.search(r'(?<![\w.])%s\b' % t, text):
                out.append('use Rattle.iv_forms.specs.declared.%s.%s.{%s}' % (mod, t, t))
            v = ALIAS.get(t, 'V' + t)
            if re.search(r'\b%s\.' % v, text):
                out.append('use Rattle.iv_forms.specs.declared.%s.%s.TheVariants as %s' % (mod, t, v))
    return out


def write():
    files = parse()
    rels = relations(files)
    for f in files:
        body = ''
        for kind, group in f['groups']:
            pad = ''
            if kind == 'mutual':
                body += 'mutual\n'
                pad = '  '
            for r in group:
                if r['name'] == 'IsSubject':
                    body += BEYOND
                body += pad + r['comment'] + '\n'
                sig = ' → '.join(r['types'] + ['List Lexeme', 'List Lexeme', 'Type 0'])
                body += pad + 'pub data %s : %s where\n' % (r['name'], sig)
                for c in r['cons']:
                    body += pad + '  ' + constructor(r, c, rels) + '\n'
                body += '\n'
        head = '-- %s: what tokens are read as which value. `IsR v ts us`: the tokens ts begin with the form R of the value v, and us stand behind it.\n-- After the outer syntax of Isabelle\'s Reference Manual, in a profile of this project. Written by tools/outer_forms.py from tools/readings.txt.\n' % f['about']
        head += 'use Rattle.std.specs.Prelude.{◌≡◌, ℕ, List, [], ◌∷◌, Option, Some, None}\n'
        head += 'use Rattle.iv_lex.specs.declared.cutting.Token.{Token}\n'
        head += 'use Rattle.iv_recogniser.specs.declared.class.Class.TheVariants as class\nuse Rattle.iv_recogniser.specs.declared.class.Sort.TheVariants as sort\n'
        head += '\n'.join(imports(body)) + '\n'
        head += 'use Rattle.iv_forms.specs.declared.lexeme.Lexeme.{Lexeme}\nuse Rattle.iv_forms.specs.Lexeme.{Is, IsA, AreAll}\n'
        for m, names in f['uses']:
            head += 'use Rattle.iv_forms.specs.%sForm.{%s}\n' % (m, ', '.join(names))
        path = os.path.join(ROOT, 'specs', ('%sForm.antt' % f['name']) if f['name'] != 'Form' else 'CommandForm.antt')
        text = head + '\n' + body.rstrip('\n') + '\n'
        if not os.path.exists(path) or open(path).read() != text:
            open(path, 'w').write(text)


BEYOND = '''-- facts that begin with this name are more than the words `premises` and `conclusion` alone
pub data IsBeyond : Lexeme → List Sel → List Att → List Fact → Type 0 where
  other_name : {n : Lexeme} {ss : List Sel} {xs : List Att} {fs : List Fact} → Is sort.SubjectName n → IsBeyond n ss xs fs
  with_sels : {n : Lexeme} {s : Sel} {ss : List Sel} {xs : List Att} {fs : List Fact} → IsBeyond n (s ∷ ss) xs fs
  with_atts : {n : Lexeme} {ss : List Sel} {fs : List Fact} (x : Att) (xs : List Att) → IsBeyond n ss (x ∷ xs) fs
  with_facts : {n : Lexeme} {ss : List Sel} {xs : List Att} {f : Fact} {fs : List Fact} → IsBeyond n ss xs (f ∷ fs)

'''

if __name__ == '__main__':
    write()
