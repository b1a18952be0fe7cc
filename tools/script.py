#!/usr/bin/env python3
"""Tries the script `./isarvm` over an `rt` that proves nothing and only says what the real one says."""
import os
import shutil
import signal
import subprocess
import sys
import tempfile
import time

ROOT = os.path.dirname(os.path.dirname(os.path.abspath(__file__)))
# what stands for rt: it notes its calls, and FAKE says what happens
FAKE = r'''#!/bin/sh
echo "$*" >>"$FAKE_LOG"
case "$1 $FAKE" in
    'all slow') sleep 60 & echo $$ $! >"$FAKE_LOG.sleep"; wait ;;
    'all refuse') echo 'rt: mend these first: no library was built'; exit 1 ;;
    all*)
        for crate in low high; do
            if [ "$FAKE" = "$crate" ]; then
                printf '== %s\nfn f: not proved\n== summary\n%s: failed (1)\n' "$crate" "$crate"
                exit 1
            fi
            mkdir -p "../$crate/out/rlib" && : >"../$crate/out/rlib/stamp"
            printf '== %s\nlogic=proved\n' "$crate"
        done
        printf '== isarvm\nlogic=proved\n== summary\nlow: ok\nhigh: ok\nisarvm: ok\n3 of 3 crates ok\n' ;;
    'run link') echo 'no room' >&2; exit 1 ;;
    run*)
        mkdir -p out && printf '#!/bin/sh\necho "ran $*"; cat; exit 5\n' >out/isarvm && chmod +x out/isarvm ;;
    'try fail') echo 'run=none proved=no' >&2; exit 2 ;;
    try*) echo "tried $*"; cat; echo 'run=ended status=1 runners=1 proved=no' >&2; exit 1 ;;
esac
'''


class Script:
    """A repository of three crates and the script, with the `rt` that stands for the real one."""

    def __init__(self, room):
        self.room, self.log = room, f'{room}/calls'
        for crate in ('low', 'high', 'isarvm', 'other'):
            os.makedirs(f'{room}/a b/crates/{crate}/src')
        os.makedirs(f'{room}/bin')
        os.makedirs(f'{room}/tmp')
        with open(f'{room}/a b/crates.txt', 'w') as it:
            it.write('# crates\nisarvm: high\nlow:\nhigh: low bstr\nother: low\n')
        with open(f'{room}/bin/rt', 'w') as it:
            it.write(FAKE)
        os.chmod(f'{room}/bin/rt', 0o755)
        shutil.copy(f'{ROOT}/isarvm', f'{room}/a b/isarvm')
        os.symlink(f'{room}/a b/isarvm', f'{room}/link')

    def start(self, *words, fake='', path=None):
        env = dict(os.environ, PATH=path or f'{self.room}/bin:{os.environ["PATH"]}', FAKE=fake, FAKE_LOG=self.log, TMPDIR=f'{self.room}/tmp')
        return subprocess.Popen([f'{self.room}/link', *words], stdin=subprocess.PIPE, stdout=subprocess.PIPE,
                                stderr=subprocess.PIPE, text=True, env=env, start_new_session=True)

    def run(self, *words, **how):
        """The status, what was printed, what was said on standard error, and the calls of rt."""
        with open(self.log, 'w'):
            pass
        ran = self.start(*words, **how)
        out, err = ran.communicate('text\n', timeout=60)
        with open(self.log) as it:
            return ran.returncode, out, err, it.read().split('\n')[:-1]

    def edit(self, crate):
        with open(f'{self.room}/a b/crates/{crate}/src/lib.rt', 'a') as it:
            it.write('//\n')


def expect(what, found, wanted):
    if found != wanted:
        sys.exit(f'./isarvm: {what}: {found!r} and not {wanted!r}')


def interrupted(script, number):
    """The status after a signal to the whole group, as a terminal sends it, or to the script alone; and whether rt goes on."""
    ran = script.start('check', fake='slow')
    for _ in range(100):
        if os.path.exists(script.log + '.sleep'):
            break
        time.sleep(0.1)
    time.sleep(0.2)
    if number == signal.SIGINT:
        os.killpg(ran.pid, number)
    else:
        os.kill(ran.pid, number)
    ran.communicate(timeout=20)
    with open(script.log + '.sleep') as it:
        rt, sleeper = map(int, it.read().split())
    os.remove(script.log + '.sleep')
    # (the real rt ends what it started)
    os.kill(sleeper, signal.SIGKILL)
    return ran.returncode, os.path.exists(f'/proc/{rt}')


def main():
    with tempfile.TemporaryDirectory(prefix='isarvm-script-') as room:
        script = Script(room)
        tools = f'{room}/tools'
        os.mkdir(tools)
        for name in ('dirname', 'readlink', 'mktemp', 'rm', 'sed', 'awk', 'find', 'head', 'sh'):
            os.symlink(shutil.which(name), f'{tools}/{name}')
        status, out, err, _ = script.run('check', path=tools)
        expect('without rt', (status, out, 'no rt on the PATH' in err), (126, '', True))
        for number, wanted in ((signal.SIGINT, 130), (signal.SIGTERM, 143), (signal.SIGHUP, 129)):
            expect(f'interrupted by {number}', interrupted(script, number), (wanted, False))
        for crate in ('low', 'high'):
            status, out, err, calls = script.run('check', fake=crate)
            expect(f'{crate} fails', (status, out, len(calls)), (126, '', 1))
            expect(f'{crate} is named', (f'{crate} could not be proved' in err, 'fn f: not proved' in err), (True, True))
        status, out, err, _ = script.run('check', fake='refuse')
        expect('sources are refused', (status, 'mend these first' in err), (126, True))
        status, out, err, _ = script.run('check', fake='link')
        expect('the program is not linked', (status, 'no room' in err), (126, True))
        status, out, err, calls = script.run('count', '--', 'a b')
        expect('from nothing', (status, out), (5, 'ran count -- a b\ntext\n'))
        expect('calls', (len(calls), calls[0][:17], calls[1]), (2, 'all check --jobs ', 'run -- check'))
        expect('lines', [it for it in err.split('\n') if ' of 3 ' in it],
               ['isarvm: proved low, 1 of 3 crates done', 'isarvm: proved high, 2 of 3 crates done'])
        expect('nothing to do', script.run('check'), (5, 'ran check\ntext\n', '', []))
        time.sleep(0.05)
        script.edit('other')
        expect('a crate that is not below', len(script.run('check')[3]), 0)
        script.edit('low')
        expect('a crate that is below', len(script.run('check')[3]), 2)
        expect('and once', len(script.run('check')[3]), 0)
        status, out, err, calls = script.run('--try', 'check', 'x y')
        expect('a try', (status, out, calls, 'nothing of it is proved' in err), (1, 'tried try -- check x y\ntext\n', ['try -- check x y'], True))
        status, out, err, _ = script.run('--try', fake='fail')
        expect('a try that fails', (status, out, 'run=none' in err), (126, '', True))
        expect('temporary files', os.listdir(f'{room}/tmp'), [])
    print('./isarvm: as it should be')


if __name__ == '__main__':
    main()
