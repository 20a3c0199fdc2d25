"""Installs into an empty folder from a copy of the repository, takes the copy away, and uses what is there: the command, C with pkg-config, Rust, manual pages, completions. Holds dist/'s one
archive against the archives apart, and tries what must be answered with one line and a status.

usage: python3 tests/install.py    (from the repository's top; needs a C compiler, `cc`; what cargo, pkg-config and man would do is left out where they are not there. Where target/staticlib has
                                    the archives apart, what a board links is compared)
"""
import os
import pathlib
import re
import shutil
import subprocess
import sys
import tempfile

TOP = pathlib.Path.cwd()
PARTS = ('Makefile', 'crates.txt', 'tools', 'dist', 'include', 'docs/man')
count = 0


def expect(what, found, wanted):
    global count
    count += 1
    if found != wanted:
        sys.exit('%s: expected\n%s\nfound\n%s' % (what, wanted, found))


def call(*words, data=b'', **more):
    done = subprocess.run([str(word) for word in words], input=data, stdout=subprocess.PIPE, stderr=subprocess.PIPE, **more)
    return done.stdout.decode(), done.stderr.decode(), done.returncode


def done(*words, **more):
    out, told, status = call(*words, **more)
    expect(' '.join(map(str, words)), (told, status), ('', 0))
    return out


def copy(folder):
    """What an installation needs of the repository."""
    for part in PARTS:
        there = folder / part
        there.parent.mkdir(parents=True, exist_ok=True)
        if (TOP / part).is_dir():
            shutil.copytree(TOP / part, there, ignore=shutil.ignore_patterns('__pycache__'))
        else:
            shutil.copy(TOP / part, there)
    return folder


def make(top, what, prefix, destination=''):
    """`make install` or `make uninstall`; where there is no make, what it calls."""
    if shutil.which('make'):
        return done('make', '-s', what, 'PREFIX=%s' % prefix, 'DESTDIR=%s' % destination, cwd=top)
    return done(sys.executable, 'tools/install.py', *['--remove'] * (what == 'uninstall'), prefix, destination, cwd=top)


def installed(folder):
    """An installation, through DESTDIR and moved to its place, whose repository is no more."""
    top, prefix = copy(folder / 'repository'), folder / 'prefix'
    told = make(top, 'install', '/w', folder / 'stage')
    expect('install', re.sub(r'^\d+', 'N', told), 'N files in %s\n' % (folder / 'stage/w'))
    (folder / 'stage/w').rename(prefix)
    shutil.rmtree(top)
    return prefix


# The command

def listing_of_readme():
    text = (TOP / 'README.md').read_text()
    return ''.join(line[4:] + '\n' for line in re.search(r'(    table 3 12 serial.*?)\n\n', text, re.S)[1].split('\n'))


def the_command(folder, prefix):
    """Every command's own example, with Python 3 alone on the path; the README's listing; where the programs are from."""
    alone = {'PATH': str(folder / 'alone')}
    (folder / 'alone').mkdir()
    (folder / 'alone/python3').symlink_to(sys.executable)
    command = prefix / 'bin/wivakkol'
    shutil.copytree(TOP / 'examples', folder / 'examples')
    expect('README', call(command, 'list', '-p', 2, '-K', 6, 'examples/e.text', cwd=folder, env=alone), (listing_of_readme(), '', 0))
    kit = (TOP / 'dist/KIT').read_text()
    version = re.search(r'^version = "(.*)"', (TOP / 'rust/wivakkol/Cargo.toml').read_text(), re.M)[1]
    for option in '--version', '-V':
        expect(option, call(command, option, env=alone), ('wivakkol %s\nprograms from %s\nkit %s' % (version, prefix / 'libexec/wivakkol', kit), '', 0))
    for name in re.findall(r'^  (\w+) ', call(command, 'help', env=alone)[0], re.M):
        example = re.findall(r'^    wivakkol (.*)\n(?:    (.*)\n)?', call(command, 'help', name, env=alone)[0], re.M)[0]
        out = call('sh', '-c', '%s %s' % (command, example[0]), cwd=folder, env={'PATH': '%s:/usr/bin:/bin' % alone['PATH']})
        expect('help %s' % name, (out[0].split('\n')[0], out[1:]), (example[1], ('', 0)))
    expect('--build', call(command, 'check', '--build', 'examples/e.text', cwd=folder, env=alone),
           ('', 'wivakkol: --build is for the repository: here the programs are those that were installed\n', 2))


def through_a_link(folder, prefix):
    os.symlink(prefix / 'bin/wivakkol', folder / 'linked')
    expect('a link', done(folder / 'linked', 'check', 'examples/e.text', cwd=folder), 'table 3 12 serial 6 depth 8 nested 2\n')


def harmed(folder, prefix):
    """Programs that are damaged, missing, not executable; no sums."""
    program, sums, command = prefix / 'libexec/wivakkol/tablecheck', prefix / 'libexec/wivakkol/SUMS', prefix / 'bin/wivakkol'
    data, kept = program.read_bytes(), sums.read_bytes()

    def says(line):
        expect(line, call(command, 'check', 'examples/e.text', cwd=folder), ('', 'wivakkol: %s\n' % line, 2))

    for bad in data[:-1], b'', data[:100] + b'\1' + data[101:], b'#!/bin/sh\necho table\n':
        program.write_bytes(bad)
        says('%s is damaged, its bytes are not those that SUMS names; install it again' % program)
    program.write_bytes(data)
    program.chmod(0o644)
    says('%s is not executable: `chmod +x` makes it so' % program)
    program.unlink()
    says('%s: No such file or directory; install it again' % program)
    program.write_bytes(data)
    program.chmod(0o755)
    for bad in b'nothing\n', b'\xff\xfe\n':
        sums.write_bytes(bad)
        says('%s: not understood; install it again' % sums)
    sums.unlink()
    says('%s: No such file or directory; install it again' % sums)
    sums.write_bytes(kept)
    expect('whole again', done(command, 'check', 'examples/e.text', cwd=folder), 'table 3 12 serial 6 depth 8 nested 2\n')


# C

def flags(prefix):
    """What pkg-config says, or else what stands in its file."""
    if shutil.which('pkg-config'):
        environment = {**os.environ, 'PKG_CONFIG_PATH': str(prefix / 'lib/pkgconfig')}
        expect('pkg-config', done('pkg-config', '--validate', 'wivakkol', env=environment), '')
        return done('pkg-config', '--cflags', '--libs', 'wivakkol', env=environment).split()
    print('pkg-config was left out: the lines of wivakkol.pc were read as they stand')
    text = (prefix / 'lib/pkgconfig/wivakkol.pc').read_text().replace('${pcfiledir}', str(prefix / 'lib/pkgconfig'))
    for name, given in re.findall(r'^(\w+)=(.*)$', text, re.M):
        text = text.replace('${%s}' % name, given)
    return ' '.join(re.findall(r'^(?:Cflags|Libs): (.*)$', text, re.M)).split()


def from_c(folder, prefix):
    """The example of a board, with the headers as they are included in the repository and as they are included where they are installed."""
    strict = ['-std=c99', '-Wall', '-Wextra', '-Werror', '-pedantic', '-O2']
    board, headers = (TOP / 'examples/board.c').read_text(), sorted(path.name for path in (TOP / 'include').glob('*.h'))
    for name, source in ('board', board), ('other', board.replace('#include "wivakkol.h"', '#include <wivakkol/wivakkol.h>')):
        (folder / (name + '.c')).write_text(''.join('#include <wivakkol/%s>\n' % header for header in headers) * (name == 'other') + source)
        done('cc', *strict, '-o', name, name + '.c', *flags(prefix), cwd=folder)
        told = done(folder / name, 2, 1, 55, data=(TOP / 'examples/e.table').read_bytes())
        expect(name, told.split('\n')[-2], 'done 14 peak 12')


TURNS = '''#include "wivakkol.h"
static wivakkol_run run;
int main(void)
{
    uint64_t row[WIVAKKOL_TURN_ROW];
    static const uint8_t table[4];
    return (int)(wivakkol_turn(&run, table, sizeof table, 0, row) + wivakkol_kind(table, sizeof table, row[WIVAKKOL_VALUE]));
}
'''


def kit_of_dist():
    """Whether the kit that is here is the one that dist/ was built with."""
    return bool(shutil.which('rt')) and call('rt', 'version')[0] == (TOP / 'dist/KIT').read_text()


def what_a_board_links(folder, prefix):
    """A board that takes turns alone links as much of the one archive as of the turn's own; all archives together link without a name twice."""
    (folder / 'turns.c').write_text(TURNS)
    apart = sorted((TOP / 'target/staticlib').glob('*.a'))
    done('cc', '-O2', '-I', TOP / 'include', '-o', 'one', 'turns.c', prefix / 'lib/libwivakkol.a', cwd=folder)
    names = {line.split()[-1] for line in done('nm', folder / 'one').splitlines() if 'wivakkol_' in line}
    expect('what a board links', names, {'wivakkol_turn_on', 'wivakkol_kind', 'wivakkol_argument', 'wivakkol_origin'})
    done('cc', '-O2', '-I', TOP / 'include', '-Wl,--whole-archive', '-o', 'whole', 'turns.c', prefix / 'lib/libwivakkol.a', '-Wl,--no-whole-archive', cwd=folder)
    if not (TOP / 'target/staticlib/libwivakkol_turn.a').exists() or not kit_of_dist():
        return 'the archives apart were left out: target/staticlib has none, or the kit is another'
    done('cc', '-O2', '-I', TOP / 'include', '-o', 'two', 'turns.c', TOP / 'target/staticlib/libwivakkol_turn.a', cwd=folder)
    sizes = {name: done('size', folder / name).split('\n')[1].split()[:4] for name in ('one', 'two', 'whole')}
    expect('the size of a board', sizes['one'], sizes['two'])
    for archive in apart:
        here = folder / archive.stem
        here.mkdir()
        done('ar', 'x', archive, cwd=here)
        name = archive.stem[3:] + '.o'
        for path in here.iterdir():
            expect('%s in the one archive' % name, subprocess.run(['ar', 'p', prefix / 'lib/libwivakkol.a', name], stdout=subprocess.PIPE).stdout, path.read_bytes())
    return 'a board of turns alone: text %s from the one archive and from libwivakkol_turn.a, %s with all of it' % (sizes['one'][0], sizes['whole'][0])


# Rust

def from_rust(folder, prefix):
    """The crate in a folder of its own, on the installed archive."""
    if not shutil.which('cargo'):
        return 'Rust was left out: no cargo'
    shutil.copytree(TOP / 'rust/wivakkol', folder / 'crate', ignore=shutil.ignore_patterns('target'))
    environment = {**os.environ, 'WIVAKKOL_ARCHIVE': str(prefix / 'lib'), 'CARGO_TARGET_DIR': str(folder / 'built')}
    for features in [], ['--no-default-features']:
        out = done('cargo', 'run', '--offline', '-q', *features, '--example', 'run', '--', TOP / 'examples/e.table', 2, 6, cwd=folder / 'crate', env=environment)
        expect('Rust %s' % features, 'peak 12' in out.lower(), True)
    told, status = call('cargo', 'build', '--offline', '-q', cwd=folder / 'crate', env={**environment, 'WIVAKKOL_ARCHIVE': str(folder / 'nowhere')})[1:]
    expect('no archive', (status, 'libwivakkol.a is not there' in told), (101, True))
    return None


# Pages and shells

def pages(prefix):
    """Each page is one that man takes without a word, and names the calls and options there are."""
    texts = {}
    for page in sorted((prefix / 'share/man').rglob('*.[135]')):
        text = page.read_text().replace('\\-', '-')
        texts[page.name] = text
        if shutil.which('man'):
            expect(page.name, call('man', '--warnings', '-E', 'UTF-8', '-l', page)[1:], ('', 0))
    headers = '\n'.join(re.sub(r'/\*.*?\*/', '', path.read_text(), flags=re.S) for path in (TOP / 'include').glob('*.h'))
    for name in sorted(set(re.findall(r'\b(wivakkol_\w+)\(', headers))):
        expect('%s in wivakkol(3)' % name, name + '(' in texts['wivakkol.3'], not name.endswith(('_on', '_')))
    expect('pages', sorted(texts), ['wivakkol-table.5', 'wivakkol.1', 'wivakkol.3'])
    return None if shutil.which('man') else 'man was left out: no man'


def completed(prefix, *words):
    """What bash completes of some words."""
    script = 'source "$0"; COMP_WORDS=("$@"); COMP_CWORD=$(($# - 1)); _wivakkol; printf "%s\\n" "${COMPREPLY[@]}"'
    return done('bash', '-c', script, prefix / 'share/bash-completion/completions/wivakkol', *words).split()


def shells(folder, prefix):
    """The options that are completed are those that the help shows."""
    for name in re.findall(r'^  (\w+) ', done(prefix / 'bin/wivakkol', 'help'), re.M):
        options = re.findall(r'^  (-\S+)', done(prefix / 'bin/wivakkol', 'help', name), re.M)
        expect('options of %s' % name, completed(prefix, 'wivakkol', name, '-'), options)
        expect(name, name in completed(prefix, 'wivakkol', name[:2]), True)
        for shell in 'zsh/site-functions/_wivakkol', 'fish/vendor_completions.d/wivakkol.fish':
            text = (prefix / 'share' / shell).read_text()
            expect('%s in %s' % (name, shell), re.search(r'\b%s\b' % name, text) is not None, True)
    expect('files', completed(prefix, 'wivakkol', 'check', str(folder / 'examples/e.te')), [str(folder / 'examples/e.text')])
    left = []
    for shell, script in ('zsh', 'zsh/site-functions/_wivakkol'), ('fish', 'fish/vendor_completions.d/wivakkol.fish'):
        if shutil.which(shell):
            done(shell, '-n', prefix / 'share' / script)
        else:
            left.append(shell)
    return 'what %s read%s of the completions was left out: not there' % (' and '.join(left), '' if len(left) > 1 else 's') if left else None


# Installing that fails, and removing

def refused(folder):
    """dist/ that is damaged or missing a program; a prefix that cannot be written to; removing."""
    top = copy(folder / 'again')
    tool = [sys.executable, top / 'tools/install.py']
    program = top / 'dist/x86_64-linux/turnlist'
    data = program.read_bytes()
    program.write_bytes(data[:-1])
    expect('damaged', call(*tool, folder / 'no')[1:], ('install.py: dist/x86_64-linux/turnlist is damaged, its bytes are not those that dist/SUMS names: `git checkout dist` brings it back\n', 1))
    program.unlink()
    expect('missing', call(*tool, folder / 'no')[1:], ('install.py: %s: No such file or directory; `git checkout dist` brings it back\n' % program, 1))
    program.write_bytes(data)
    program.chmod(0o755)
    expect('nothing was put', (folder / 'no').exists(), False)
    (folder / 'file').touch()
    expect('a prefix below a file', call(*tool, folder / 'file/below')[1:], ('install.py: %s: Not a directory; PREFIX names the folder to install to\n' % (folder / 'file/below/bin'), 1))
    make(top, 'install', folder / 'twice')
    make(top, 'install', folder / 'twice')
    (folder / 'twice/lib/other').touch()
    program.write_bytes(data[:-1])
    make(top, 'uninstall', folder / 'twice')
    expect('removed', [str(path.relative_to(folder / 'twice')) for path in sorted((folder / 'twice').rglob('*'))], ['lib', 'lib/other'])
    program.write_bytes(data)


def compared(folder):
    """tools/dist.py check: another kit, a file that differs, is missing, is not executable or is one too many. What it would compare with is the repository's own target/."""
    top = folder / 'again'
    (top / 'target').symlink_to(TOP / 'target')
    tool = [sys.executable, top / 'tools/dist.py', 'check']
    kit, program, strange = top / 'dist/KIT', top / 'dist/x86_64-linux/canontable', top / 'dist/x86_64-linux/more'
    line, data = kit.read_text(), program.read_bytes()
    alone = {'PATH': str(folder / 'alone')}
    expect('dist without rt', call(*tool[:-1], env=alone), ('', 'dist.py: no rt: its kit proves and compiles\n', 1))
    expect('compared without rt', call(*tool, env=alone), ('dist/ was not compared: it was built with %s, and here is no kit\n' % line.strip(), '', 0))
    if not kit_of_dist():
        return 'the comparison of dist/ was left out: no rt, or another kit'
    kit.write_text('another kit\n')
    expect('another kit', call(*tool), ('dist/ was not compared: it was built with another kit, and here is %s' % line, '', 0))
    kit.unlink()
    expect('no kit', call(*tool), ('', 'dist.py: dist/KIT is missing: `make dist` renews it\n', 1))
    kit.write_text(line)
    if not (TOP / 'target/module').exists():
        return 'the comparison of dist/ was left out: target/module has no modules'
    program.write_bytes(data + b'\0')
    expect('another program', call(*tool)[1:], ('dist.py: dist/x86_64-linux/canontable is not what was proved and built: `make dist` renews it\n', 1))
    program.unlink()
    expect('no program', call(*tool)[1:], ('dist.py: dist/x86_64-linux/canontable is missing: `make dist` renews it\n', 1))
    program.write_bytes(data)
    expect('not executable', call(*tool)[1:], ('dist.py: dist/x86_64-linux/canontable is not executable: `make dist` renews it\n', 1))
    program.chmod(0o755)
    strange.touch()
    expect('a file too many', call(*tool)[1:], ('dist.py: dist/x86_64-linux/more is none of its files: `make dist` renews it\n', 1))
    return None


def main():
    left = []
    with tempfile.TemporaryDirectory() as name:
        folder = pathlib.Path(name)
        prefix = installed(folder)
        the_command(folder, prefix)
        through_a_link(folder, prefix)
        harmed(folder, prefix)
        from_c(folder, prefix)
        left += [what_a_board_links(folder, prefix), from_rust(folder, prefix), pages(prefix), shells(folder, prefix)]
        refused(folder)
        left.append(compared(folder))
    for line in filter(None, left):
        print(line)
    print('%d things are as they should be where it is installed' % count)


if __name__ == '__main__':
    main()
