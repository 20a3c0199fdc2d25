"""What stands in target/ and which of it is up to date with the sources; proving and building with progress. For tools/wivakkol and tools/dist.py.

rt leaves what it makes in crates/NAME/out; what is taken from there stands in target/. Up to date is what was proved as the sources now are: target/stamp/NAME is the hash, written
once NAME is proved (and, a program, has run as it should), of the kit's line, the files of the crate and the stamps of the crates that it depends on. It is computed from the sources
alone, so that it also speaks of everything below NAME.
"""
import errno
import functools
import hashlib
import os
import pathlib
import platform
import re
import shutil
import subprocess
import sys
import time

TOP = pathlib.Path(__file__).resolve().parent.parent
STAMPED = ('src', 'specs', 'proofs', 'stdin', 'stdout', 'args', 'data')


class NotProved(Exception):
    """One line: what is not proved, or why nothing could be."""


# The crates

@functools.lru_cache(maxsize=None)
def crates(top=TOP):
    """Of each crate what it depends on, as crates.txt has it, and the section that it stands in."""
    found, section = {}, ''
    for line in (top / 'crates.txt').read_text().split('\n'):
        if line.startswith('# '):
            section = line[2:]
        name, colon, rest = line.split('#')[0].partition(':')
        if colon:
            found[name.split()[0]] = (rest, section)
    return found


def section(name, top=TOP):
    return [crate for crate, (_, where) in crates(top).items() if where == name]


def programs(top=TOP):
    """The programs of the desk."""
    return section('programs', top)


def archives(top=TOP):
    """The crates whose functions are called from C. What C links of one is built of a crate of its own, whose exports call it."""
    return section('from C', top)


def exports(name):
    """The crate whose exports call an archive's functions."""
    return name + '_c'


def closure(names, top=TOP):
    """The crates that some crates need, themselves too, each after those that it depends on."""
    found, ready = [], set()

    def put(name):
        if name in crates(top) and name not in ready:
            ready.add(name)
            for other in crates(top)[name][0].split():
                put(other)
            found.append(name)

    for name in names:
        put(name)
    return found


# The kit

def kit_folder():
    """The folder of the kit that `rt` is of, or None."""
    found = shutil.which('rt')
    return found and pathlib.Path(found).resolve().parent.parent


def kit_line():
    """What `rt version` says, or None."""
    try:
        return (kit_folder() / 'KIT-ID').read_text()
    except (OSError, TypeError):
        return None


# Stamps

def files_of(folder, name):
    """The files below a crate's part, by their names from the crate's folder."""
    try:
        with os.scandir(os.path.join(folder, name)) as found:
            for entry in found:
                inner = name + '/' + entry.name
                if entry.is_dir(follow_symlinks=False):
                    yield from files_of(folder, inner)
                elif entry.is_file(follow_symlinks=False):
                    yield inner
    except NotADirectoryError:
        yield name
    except FileNotFoundError:
        pass


def summed(folder, name):
    """A line as sha256sum writes it."""
    with open(os.path.join(folder, name), 'rb', buffering=0) as file:
        return '%s  %s\n' % (hashlib.sha256(file.read()).hexdigest(), name)


@functools.lru_cache(maxsize=None)
def stamp(name, kit, top=TOP):
    """The hash that is written for a crate where it and all below it are proved with this kit."""
    rest, crate = crates(top)[name][0], os.path.join(top, 'crates', name)
    rows = sorted(summed(crate, file) for part in STAMPED for file in files_of(crate, part))
    below = [stamp(other, kit, top) if other in crates(top) else 'kit ' + other for other in rest.split()]
    text = kit + 'machine %s\n' % platform.machine() + ''.join(rows) + 'deps: %s\n' % rest + ''.join(line + '\n' for line in below)
    return hashlib.sha256(text.encode()).hexdigest()


def kits(top=TOP):
    """The kits that what stands in target/ may be proved with: that of `rt`, and the one that dist/KIT names."""
    try:
        named = (top / 'dist/KIT').read_text()
    except OSError:
        named = None
    return [kit for kit in dict.fromkeys([kit_line(), named]) if kit]


def proved_with(name, top=TOP, among=None):
    """The kit with which a crate is proved, as it now is; None where it is not. It is one of `among`, or of those above."""
    try:
        found = (top / 'target/stamp' / name).read_text().strip()
        return next((kit for kit in among or kits(top) if stamp(name, kit, top) == found), None)
    except (OSError, KeyError):
        return None


def put(path, data):
    """A file in the place of what was there, also of a program that runs."""
    path.parent.mkdir(parents=True, exist_ok=True)
    new = path.with_name(path.name + '.new')
    new.write_bytes(data)
    new.chmod(0o755 if data[:4] == b'\x7fELF' or data[:2] == b'#!' else 0o644)
    new.replace(path)


def take(name, of, top=TOP):
    """What rt has just proved: a program is put into target/bin, and the stamp is written."""
    if (top / 'crates' / name / 'src/main.rt').exists():
        made = top / 'crates' / name / 'out' / name
        if not made.exists():
            raise NotProved('crates/%s/out/%s is not there: rt ci builds it' % (name, name))
        put(top / 'target/bin' / name, made.read_bytes())
    put(top / 'target/stamp' / name, (of + '\n').encode())


def take_all(top=TOP):
    """What `rt ci` has just proved, of every crate, in the place of all that stood in target/."""
    shutil.rmtree(top / 'target', ignore_errors=True)
    for name in crates(top):
        take(name, stamp(name, kit_line(), top), top)


# Proving, with progress

def show(line, end):
    sys.stderr.write(('\r%s\033[K' % line if sys.stderr.isatty() else line) + end)
    sys.stderr.flush()


def told(path):
    """Of what rt printed, the lines that say what failed."""
    lines = path.read_text(errors='replace').split('\n')
    found = [line for line in lines if re.search(r': error\b|^fn \S+: (not proved|no proof|could not tell)', line)]
    return found or [line for line in lines if line][-1:]


def prove(name, log, top):
    """Has rt prove a crate and build its library, archive or program, which is run once on its stored input; the status, and whether it printed what is stored."""
    folder = top / 'crates' / name
    is_program = (folder / 'src/main.rt').exists()
    stored = {part: (folder / part).read_bytes() if (folder / part).exists() else b'' for part in ('stdin', 'stdout')}
    with log.open('wb') as out:
        done = subprocess.run(['rt', 'run' if is_program else 'lib'], cwd=folder, input=stored['stdin'], stdout=subprocess.PIPE if is_program else out, stderr=out)
    return done.returncode, not is_program or done.stdout == stored['stdout']


def check(names, top=TOP):
    """Proves and builds crates and those below them, as far as they are not up to date, with progress: on a terminal one line that is written over, else a line for each crate."""
    everything, began, terminal = closure(names, top), time.monotonic(), sys.stderr.isatty()
    if kit_line() is None:
        raise NotProved('rt, which proves and builds, cannot be started: %s' % os.strerror(errno.ENOENT))
    log = top / 'target/log'
    log.mkdir(parents=True, exist_ok=True)

    def progress(done, at_work, end):
        took = int(time.monotonic() - began)
        line = '%d of %d crates proved, %d:%02d' % (done, len(everything), took // 60, took % 60)
        show(line + ('; at work on ' + at_work if at_work else ''), '' if terminal and not end else '\n')

    for done, name in enumerate(everything):
        if up_to_date(name, top):
            continue
        progress(done, name, False)
        of = stamp(name, kit_line(), top)
        try:
            status, as_stored = prove(name, log / (name + '.out'), top)
        except OSError as fault:
            raise NotProved('rt, which proves and builds, cannot be started: %s' % (fault.strerror or fault))
        if status or not as_stored:
            progress(done, '', True)
            what = '; '.join(told(log / (name + '.out'))[:3]) if status else 'it printed otherwise than crates/%s/stdout has it' % name
            raise NotProved('%s NOT PROVED: %s (rt ended with status %d; target/log/%s.out has all that it said)' % (name, what, status, name))
        take(name, of, top)
    progress(len(everything), '', True)


def up_to_date(name, top=TOP):
    """Whether a crate is proved, as it now is, with the kit that is here, and a program stands in target/bin."""
    is_program = (top / 'crates' / name / 'src/main.rt').exists()
    return bool(proved_with(name, top, [kit_line() or ''])) and (not is_program or (top / 'target/bin' / name).exists())
