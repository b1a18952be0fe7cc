#!/usr/bin/env python3
"""The rows of the program `rows`: what it is given, and what it must print.

    tools/rows.py                  writes crates/rows/stdin and crates/rows/stdout
    tools/rows.py --check          compares them with what it would write, and fails where they differ
    tools/rows.py --against CMD    runs CMD with each row's words on its document, and tells where report or status differ
    tools/rows.py --fill CMD FILE  prints FILE of rows with the reports and statuses that CMD gives

Rows stand in tools/rows/*.txt: a line `@ row WORD ..`, the document, a line `@ report`, the report, and a line
`@ status N`. A document that a file can't hold as lines stands behind `@ row` as lines `@ text LITERAL`, each a literal of
Python, of a text or of bytes, and is their concatenation. Lines between rows are comments.

Each example in README.md and docs/ is a row too: a block ```isar, and behind it, with nothing but text between, a block ```report. The
words and the status of a report other than `check` and 0 (1 where a line begins with `refused `) stand behind its fence:
```report count, ```report check 1."""
import argparse
import ast
import os
import shlex
import subprocess
import sys

ROOT = os.path.dirname(os.path.dirname(os.path.abspath(__file__)))


class Row:
    def __init__(self, where, words, document, report, status):
        self.where, self.words, self.document, self.report, self.status = where, words, document, report, status


def literal(text):
    value = ast.literal_eval(text)
    return value.encode() if isinstance(value, str) else value


def rows_of(path):
    """The rows of a file of rows, and its comments as strings among them."""
    found, row, part = [], None, None
    for number, line in enumerate(open(path, 'rb').read().split(b'\n')[:-1], 1):
        mark = line.split(b' ', 2) if line.startswith(b'@ ') else [b'', b'', b'']
        kind = mark[1]
        if row is None and kind == b'row':
            row = Row(f'{os.path.relpath(path, ROOT)}:{number}', line[6:].decode().split(), b'', b'', None)
            part = 'document'
        elif row is None:
            found.append(line)
        elif part == 'document' and kind == b'text':
            row.document += literal(line[7:].decode())
        elif part == 'document' and kind == b'report':
            part = 'report'
        elif part == 'report' and kind == b'status':
            row.status = int(line[9:])
            found.append(row)
            row = None
        elif part == 'document':
            row.document += line + b'\n'
        else:
            row.report += line + b'\n'
    if row is not None:
        sys.exit(f'{row.where}: the row has no `@ status`')
    return found


def examples_of(path):
    """The examples of a document."""
    found, block, fence, document, at = [], None, '', None, 0
    for number, line in enumerate(open(path, encoding='utf-8').read().split('\n'), 1):
        if block is None and line.startswith('```') and line != '```':
            block, fence, at = [], line[3:], number
        elif block is not None and line == '```':
            text = ''.join(l + '\n' for l in block).encode()
            kind = fence.split()
            if kind[0] == 'isar':
                document = text
            elif kind[0] == 'report':
                if document is None:
                    sys.exit(f'{path}:{at}: a report without a document in front of it')
                refused = any(l.startswith('refused ') for l in block)
                words = kind[1:2] or ['check']
                status = int(kind[2]) if kind[2:] else int(refused)
                found.append(Row(f'{os.path.relpath(path, ROOT)}:{at}', words, document, text, status))
            block = None
        elif block is not None:
            block.append(line)
    return found


def all_rows():
    rows = []
    folder = os.path.join(ROOT, 'tools', 'rows')
    for name in sorted(os.listdir(folder)):
        rows += [r for r in rows_of(os.path.join(folder, name)) if isinstance(r, Row)]
    docs = os.path.join(ROOT, 'docs')
    for path in [os.path.join(ROOT, 'README.md')] + sorted(os.path.join(docs, d) for d in os.listdir(docs)):
        rows += examples_of(path)
    return rows


def given(rows):
    return b''.join(b'%d %s\n%s\n' % (len(r.document), ' '.join(r.words).encode(), r.document) for r in rows)


def printed(rows):
    return b''.join(b'== %d %s\n%sstatus %d\n' % (n, ' '.join(r.words).encode(), r.report, r.status)
                    for n, r in enumerate(rows, 1))


def run(command, row):
    done = subprocess.run(shlex.split(command) + row.words, input=row.document, stdout=subprocess.PIPE, stderr=subprocess.DEVNULL)
    return done.stdout, done.returncode


def against(command, rows):
    wrong = 0
    for row in rows:
        report, status = run(command, row)
        if (report, status) != (row.report, row.status):
            wrong += 1
            print(f'{row.where}: {command} gives status {status}, and not {row.status}')
            print(f'--- the row\n{row.report.decode(errors="replace")}--- {command}\n{report.decode(errors="replace")}', end='')
    print(f'{len(rows)} rows, {wrong} differ')
    return wrong


def fill(command, path):
    out = sys.stdout.buffer
    for row in rows_of(path):
        if not isinstance(row, Row):
            out.write(row + b'\n')
            continue
        report, status = run(command, row)
        plain = row.document.endswith(b'\n') and b'\r' not in row.document and not any(l.startswith(b'@ ') for l in row.document.split(b'\n'))
        try:
            shown = row.document.decode()
            text = [repr(part).encode() for part in shown.splitlines(True)] if shown else []
        except UnicodeDecodeError:
            text = [repr(row.document).encode()]
        body = row.document if plain else b''.join(b'@ text ' + part + b'\n' for part in text)
        out.write(b'@ row ' + ' '.join(row.words).encode() + b'\n' + body + b'@ report\n' + report + b'@ status %d\n' % status)


def main():
    parser = argparse.ArgumentParser()
    parser.add_argument('--check', action='store_true')
    parser.add_argument('--against', metavar='CMD')
    parser.add_argument('--fill', nargs=2, metavar=('CMD', 'FILE'))
    parser.add_argument('only', nargs='*')
    args = parser.parse_args()
    if args.fill:
        return fill(*args.fill)
    rows = all_rows()
    if args.against:
        rows = [r for r in rows if not args.only or any(r.where.startswith(o) for o in args.only)]
        sys.exit(1 if against(args.against, rows) else 0)
    for name, content in [('stdin', given(rows)), ('stdout', printed(rows))]:
        path = os.path.join(ROOT, 'crates', 'rows', name)
        if not args.check:
            open(path, 'wb').write(content)
        elif open(path, 'rb').read() != content:
            sys.exit(f'crates/rows/{name} is not what tools/rows.py writes')


main()
