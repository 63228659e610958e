"""What .ci/answers and .ci/rewrites share: a proved program tried on cards and in trouble, wrong versions of it, and calls of its script.

No contract can say what a program prints, so each version of one in a folder must-differ is proved as well as the right one: it must differ here.
"""
import atexit
import concurrent.futures
import fcntl
import glob
import os
import re
import shutil
import struct
import subprocess
import sys
import tempfile
import termios
import time
import tty

os.chdir(os.path.join(os.path.dirname(os.path.abspath(__file__)), '..'))
LONGEST = 'cards/refused-2-full.card'
# Copies of the repository stand outside it: rt wants no crate's file and no link in any other place of it.
WORK = tempfile.mkdtemp(prefix='trimthuel-')
atexit.register(shutil.rmtree, WORK, ignore_errors=True)
wrong = []


def content(path):
    with open(path, 'rb') as f:
        return f.read()


def cards():
    """Name and bytes: the samples, the longest card, and files that go on after it."""
    found = [(path, content(path)) for path in sorted(glob.glob('cards/*.card'))]
    longest = content(LONGEST)
    assert len(longest) == 208, LONGEST
    return found + [('%d bytes' % n, longest + bytes(n - 208)) for n in (208, 209, 300)]


def stated_by(words, found):
    """Name, bytes and what the independent program says of each card, on standard output and standard error."""
    runs = [(name, card, subprocess.run(words, input=card, capture_output=True)) for name, card in found]
    return [(name, card, (run.stdout, run.stderr)) for name, card, run in runs]


def unread(pipe):
    return struct.unpack('i', fcntl.ioctl(pipe, termios.FIONREAD, bytes(4)))[0]


def said_of(words, pieces):
    """What the program says, on standard output and standard error, where each piece has been read before the next one comes."""
    run = subprocess.Popen(words, stdin=subprocess.PIPE, stdout=subprocess.PIPE, stderr=subprocess.PIPE, bufsize=0)
    try:
        for piece in pieces:
            run.stdin.write(piece)
            while unread(run.stdin) and run.poll() is None:
                time.sleep(0.0001)
    except BrokenPipeError:
        pass  # it has read all that it wants
    return run.communicate()


def ways(card):
    half = len(card) // 2
    yield 'at once', [card]
    yield 'in halves', [card[:half], card[half:]]
    yield 'byte by byte', [card[k:k + 1] for k in range(len(card))]


def failing(part):
    """An input that gives a part of a card and then fails: one end of a terminal whose other end is closed."""
    here, there = os.openpty()
    tty.setraw(there)
    os.write(there, part)
    os.close(there)
    return here


def differences(words, stated):
    """Where the program says something else than is stated of a card, or is silent on trouble."""
    found = []
    for name, card, said in stated:
        for way, pieces in ways(card):
            if said_of(words, pieces) != said:
                found.append('%s, %s' % (name, way))
    card = content('cards/A.card')
    inputs = {'a failed read': os.open('cards', os.O_RDONLY), 'a read that fails half way': failing(card[:20]), 'one that fails after a card': failing(card)}
    for name, opened in inputs.items():
        run = subprocess.run(words, stdin=opened, capture_output=True)
        os.close(opened)
        if run.stdout or b'could not be read' not in run.stderr:
            found.append(name)
    with open('cards/A.card', 'rb') as card, open('/dev/full', 'wb') as full:
        run = subprocess.run(words, stdin=card, stdout=full, stderr=subprocess.PIPE)
    if b'could not be written' not in run.stderr:
        found.append('a failed write')
    return found


def edited(folder, path):
    """Applies an edit, as `rt must-fail` does, to the copy of its crate."""
    for line in content(path).decode().split('\n'):
        key, _, value = line.partition(': ')
        if key == 'file':
            name = os.path.join(folder, os.path.dirname(path), '..', value)
        elif key == 'old':
            old = value
        elif key == 'new':
            now = content(name).decode()
            assert now.count(old) == 1, '%s: `%s` stands %d times in its file' % (path, old, now.count(old))
            with open(name, 'w', encoding='utf-8') as f:
                f.write(now.replace(old, value))


def copy(folder):
    """The repository in another folder, with nothing built. A library whose text is the same rt takes from here, where it is proved."""
    os.makedirs(folder)
    subprocess.run(['cp', '-r', 'crates.txt', 'answer', 'rewrite', 'scripts', 'bindings', 'cards', folder], check=True)
    made = {os.path.join('crates', name) for name in os.listdir('crates')}
    shutil.copytree('crates', folder + '/crates', ignore=lambda at, names: ['out'] if at in made else [])


def program(name, folder='.'):
    """The program that a script runs, of the sources as they are."""
    words = ['bash', '-c', 'home=$1 name=$2; . "$1/scripts/program"; program_of_sources', 'bash', os.path.abspath(folder), name]
    return subprocess.run(words, check=True, stdout=subprocess.PIPE, text=True).stdout.strip()


def without_rt(folder):
    """An environment in which the scripts find what they need to judge a call, and no rt; the folder is where it lies."""
    os.makedirs(folder, exist_ok=True)
    for name in ('env', 'bash', 'dirname', 'readlink', 'find', 'sort', 'xargs', 'sha256sum', 'flock', 'sed', 'cat', 'uname'):
        link = os.path.join(folder, name)
        if not os.path.lexists(link):
            os.symlink(shutil.which(name), link)
    return {'PATH': folder}


def called(words, status, out=b'', err=b'', cwd='.', **more):
    """One call of a script: its status, all of standard output, and what standard error must name; a whole line, or nothing where there is no trouble, must be all of it."""
    streams = {'stdin': subprocess.DEVNULL, 'stdout': subprocess.PIPE, 'stderr': subprocess.PIPE, **more}
    run = subprocess.run(words, cwd=cwd, **streams)
    said = run.stderr or b''
    told = said == err if err.endswith(b'\n') or (status < 2 and not err) else err in said
    if run.returncode != status or (run.stdout or b'') != out or not told:
        wrong.append('%s: status %d, said %r and %r' % (' '.join(words), run.returncode, run.stdout, run.stderr))


def common_calls(script, usage):
    """What both scripts do alike."""
    told = subprocess.run([script, '--help'], capture_output=True)
    if told.returncode or told.stderr or not told.stdout.startswith(b'usage: ' + usage + b'\n') or b'Exit status: 0 ' not in told.stdout:
        wrong.append('%s --help: %r' % (script, told))
    version = re.search(rb'^version = "(.*)"$', content('bindings/rust/Cargo.toml'), re.M)[1]
    called([script, '--version'], 0, b'trimthuel ' + version + b'\n')
    called([script, '--nothing'], 2, err=b'no option --nothing')
    called([script, 'cards'], 2, err=b'cards: it is a directory')
    called([script, 'nowhere'], 2, err=b'nowhere: it is not there')
    called(['sh', '-c', script + ' - <&-'], 2, err=b'-: it is not there')
    called([script, '/proc/%d/mem' % os.getpid()], 2, err=b'/mem: ')
    called(['sh', '-c', script + ' cards/A.card >&-'], 2, err=b'standard output is closed')
    called(['bash', '-c', script + ' cards/A.card | true; exit ${PIPESTATUS[0]}'], 2, err=b'could not be written')
    with open('/dev/full', 'wb') as full:
        called([script, 'cards/A.card'], 2, err=b'could not be written', stdout=full)
        called([script, '--help'], 2, stdout=full)


def try_versions(name, run, stated, beside):
    """Every wrong version of a program must be proved and differ; `beside` is done at the same time."""
    def version_differs(path):
        version = os.path.basename(path)[:-5]
        folder = os.path.join(WORK, version)
        copy(folder)
        edited(folder, path)
        built = subprocess.run(['./' + name, 'cards/A.card'], cwd=folder, capture_output=True)
        if b'crate %s is proved' % name.encode() not in built.stderr:
            return version, [], built.stderr.decode()
        return version, differences(run + [program(name, folder)], stated), 'does not differ'

    versions = sorted(glob.glob('crates/%s/must-differ/*.edit' % name))
    if not versions:
        wrong.append('there is no wrong version to try')
    with concurrent.futures.ThreadPoolExecutor(os.cpu_count()) as pool:
        doing = pool.submit(beside)
        for version, found, said in pool.map(version_differs, versions):
            if found:
                print('%s differs: %s%s' % (version, found[0], ' and %d more' % (len(found) - 1) if found[1:] else ''))
            else:
                wrong.append('%s: %s' % (version, said))
        doing.result()


def report(name):
    for line in wrong:
        print('%s: %s' % (name, line), file=sys.stderr)
    sys.exit(1 if wrong else 0)
