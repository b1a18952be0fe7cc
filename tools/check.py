#!/usr/bin/env python3
"""Checks of the repository's own, after `rt ci`: what the scripts write is written anew and compared, and each example of the
documents is compared with what the program answers.

    check.py               both; the program is crates/isarvm/out/isarvm, as `rt ci` builds it
    check.py written       what the scripts write
    check.py documents     the examples
    check.py script        the script ./isarvm, over a false `rt`; by hand, after a change of it

Each failure is a line; the status is 1 where there is one.
"""
import os
import re
import shutil
import subprocess
import sys
import tempfile

import transcripts

ROOT = os.path.dirname(os.path.dirname(os.path.abspath(__file__)))
PROGRAM = os.path.join(ROOT, 'crates', 'isarvm', 'out', 'isarvm')
# What each script writes, with the words that it is called with.
WRITERS = {
    'outer_table.py': ['write'],
    'outer_words.py': [],
    'outer_forms.py': [],
    'outer_means.py': [],
    'outer_back.py': [],
    'outer_laws.py': [],
    'rows.py': [],
}
# Other scripts: modules of these, and checks.
OTHERS = {'check.py', 'script.py', 'transcripts.py'}
MARK = re.compile(r'Written by tools/(\w+\.py)')
IMPORT = re.compile(r'(?:ghost )?use [^;]*;?')


def written_by(file):
    """The script that a file says it is written by, if it does. It says so in its first lines."""
    with open(file, encoding='utf-8', errors='replace') as it:
        found = MARK.search(''.join(line for _, line in zip(range(3), it)))
    return found[1] if found else None


def sources(root):
    """The files of the crates, as git has them: without out/."""
    for folder, folders, files in os.walk(os.path.join(root, 'crates')):
        folders[:] = sorted(it for it in folders if it != 'out')
        for name in sorted(files):
            yield os.path.relpath(os.path.join(folder, name), root)


def imports_of(text):
    """A text without its imports, and each name that they bring in."""
    names, rest = set(), []
    for line in text.split('\n'):
        found = re.fullmatch(r'\s*(?:ghost )?use (\S+?)(?:\.\{(.*)\})?( as \w+)?;?', line)
        if found:
            names |= {(found[1], it.strip(), found[3]) for it in (found[2] or '').split(',')}
        else:
            rest.append(line)
    return rest, names


def is_same(old, new):
    """Whether a file is what its script writes. `rt tidy` takes away imports that nothing uses, so a file may have fewer of them."""
    if old == new:
        return True
    (rest, names), (new_rest, new_names) = imports_of(old), imports_of(new)
    return rest == new_rest and names <= new_names


def text_of(file):
    with open(file, encoding='utf-8', errors='surrogateescape') as it:
        return it.read()


def check_written():
    """Each script over a copy in which all that it writes is missing, then `rt fmt`, and then the copy is compared."""
    failures = []
    scripts = {it for it in os.listdir(os.path.join(ROOT, 'tools')) if it.endswith('.py')}
    failures += ['tools/%s: neither a writer nor a check that tools/check.py knows' % it for it in sorted(scripts - {*WRITERS} - OTHERS)]
    with tempfile.TemporaryDirectory(prefix='isarvm-written-') as room:
        for name in ('README.md', 'crates.txt', 'HANDLES'):
            shutil.copy(os.path.join(ROOT, name), room)
        for name in ('tools', 'docs', 'examples'):
            shutil.copytree(os.path.join(ROOT, name), os.path.join(room, name), ignore=shutil.ignore_patterns('__pycache__'))
        shutil.copytree(os.path.join(ROOT, 'crates'), os.path.join(room, 'crates'), ignore=shutil.ignore_patterns('out'))
        crates = set()
        for file in sources(room):
            script = written_by(os.path.join(room, file)) if file.endswith(('.rt', '.antt')) else None
            if script:
                if script not in scripts:
                    failures.append('%s: tools has no %s' % (file, script))
                else:
                    os.remove(os.path.join(room, file))
                crates.add(file.split('/')[1])
        for script, words in WRITERS.items():
            if script in scripts:
                ran = subprocess.run([sys.executable, 'tools/' + script, *words], cwd=room, stdout=subprocess.PIPE, stderr=subprocess.STDOUT, text=True)
                if ran.returncode:
                    failures.append('tools/%s ended with status %d: %s' % (script, ran.returncode, ran.stdout[-600:]))
        for crate in sorted(crates):
            ran = subprocess.run(['rt', 'fmt'], cwd=os.path.join(room, 'crates', crate), stdout=subprocess.PIPE, stderr=subprocess.STDOUT, text=True)
            if ran.returncode:
                failures.append('rt fmt in %s: %s' % (crate, ran.stdout[-600:]))
        old, new = set(sources(ROOT)), set(sources(room))
        failures += ['%s: no script writes it any more' % it for it in sorted(old - new)]
        failures += ['%s: it is missing here, and a script writes it' % it for it in sorted(new - old)]
        for file in sorted(old & new):
            if not is_same(text_of(os.path.join(ROOT, file)), text_of(os.path.join(room, file))):
                failures.append('%s: not what the scripts write' % file)
    return failures


def check_documents():
    """Each example against the program that `rt ci` built."""
    if not os.path.isfile(PROGRAM):
        return ['crates/isarvm/out/isarvm is not there, so no example was compared: run rt ci, or ./isarvm, before']
    failures = []
    try:
        for it in transcripts.examples():
            ran = subprocess.run([PROGRAM, *it.words], input=it.document.encode(), stdout=subprocess.PIPE, stderr=subprocess.DEVNULL, timeout=60)
            if ran.stdout != it.report.encode():
                failures.append('%s: the report is another one:\n%s' % (it.place, ran.stdout.decode(errors='replace')))
            if ran.returncode != it.status:
                failures.append('%s: the status is %d' % (it.place, ran.returncode))
    except ValueError as error:
        failures.append(str(error))
    return failures


def check_script():
    """The script ./isarvm, without a proof."""
    ran = subprocess.run([sys.executable, os.path.join(ROOT, 'tools', 'script.py')], stdout=subprocess.DEVNULL, stderr=subprocess.PIPE, text=True)
    return [ran.stderr.strip()] if ran.returncode else []


CHECKS = {'written': check_written, 'documents': check_documents, 'script': check_script}


def main():
    wanted = sys.argv[1:] or ['written', 'documents']
    failures = []
    for name in wanted:
        found = CHECKS[name]()
        print('check.py: %s: %s' % (name, 'as it should be' if not found else '%d failures' % len(found)), flush=True)
        failures += found
    for it in failures:
        print('check.py: ' + it)
    return 1 if failures else 0


if __name__ == '__main__':
    sys.exit(main())
