"""Installs the command with its programs, the headers, the archive, pkg-config's file, the manual pages and the completions, from dist/; or removes them again.

usage: python3 tools/install.py PREFIX [DESTDIR]             (make install)
       python3 tools/install.py --remove PREFIX [DESTDIR]    (make uninstall)
    DESTDIR is put in front of PREFIX. Nothing that is installed names a folder, so that it may be moved as a whole.
"""
import hashlib
import os
import pathlib
import runpy
import sys

import manual

TOP = manual.TOP
READY = 'x86_64-linux/'
PLAIN, EXECUTABLE = 0o644, 0o755
PKG_CONFIG = """prefix=${pcfiledir}/../..
includedir=${prefix}/include
libdir=${prefix}/lib

Name: wivakkol
Description: AsyncDF and DFDeques for job tables, proved
Version: %s
Cflags: -I${includedir} -I${includedir}/wivakkol
Libs: -L${libdir} -lwivakkol
"""


class Wrong(Exception):
    """One line that says what is wrong and what to do."""


def ready(removes):
    """The files that dist/SUMS names, each with its bytes, which must be those of its sum; to remove them their names are enough."""
    found = {}
    try:
        for line in (TOP / 'dist/SUMS').read_text().splitlines():
            total, name = line.split()
            data = b'' if removes else (TOP / 'dist' / name).read_bytes()
            if not removes and hashlib.sha256(data).hexdigest() != total:
                raise Wrong('dist/%s is damaged, its bytes are not those that dist/SUMS names: `git checkout dist` brings it back' % name)
            found[name] = data
    except OSError as fault:
        raise Wrong('%s: %s; `git checkout dist` brings it back' % (fault.filename, fault.strerror))
    except ValueError:
        raise Wrong('dist/SUMS is not understood: `git checkout dist` brings it back')
    return found


def files(removes):
    """What is installed: of each file its bytes and its mode."""
    found, dist = {}, ready(removes)
    tool = runpy.run_path(str(TOP / 'tools/wivakkol'))
    missing = [name for name in ['screen.html', *(READY + name for name in tool['PROGRAMS'])] if name not in dist]
    if missing:
        raise Wrong('dist/SUMS names no %s: `git checkout dist` brings it back' % missing[0])
    found['bin/wivakkol'] = (TOP / 'tools/wivakkol').read_bytes(), EXECUTABLE
    for name, data in dist.items():
        if name.startswith(READY) and not name.endswith('.a'):
            found['libexec/wivakkol/' + name[len(READY):]] = data, EXECUTABLE
    found['libexec/wivakkol/screen.html'] = dist['screen.html'], PLAIN
    for name in ('picture.py', 'design.py', 'explain.py'):
        found['libexec/wivakkol/' + name] = (TOP / 'tools' / name).read_bytes(), PLAIN
    for name in 'KIT', 'SUMS':
        found['libexec/wivakkol/' + name] = (TOP / 'dist' / name).read_bytes(), PLAIN
    for header in (TOP / 'include').glob('*.h'):
        found['include/wivakkol/' + header.name] = header.read_bytes(), PLAIN
    found['lib/libwivakkol.a'] = dist[READY + 'libwivakkol.a'], PLAIN
    found['lib/pkgconfig/wivakkol.pc'] = (PKG_CONFIG % tool['VERSION']).encode(), PLAIN
    for path, made in [('man/man1/wivakkol.1', '1'), ('man/man3/wivakkol.3', '3'), ('man/man5/wivakkol-table.5', '5'), ('bash-completion/completions/wivakkol', 'bash'),
                       ('zsh/site-functions/_wivakkol', 'zsh'), ('fish/vendor_completions.d/wivakkol.fish', 'fish')]:
        found['share/' + path] = manual.MADE[made]().encode(), PLAIN
    return found


def put(path, data, mode):
    """A file in the place of what was there, also of a program that runs."""
    path.parent.mkdir(parents=True, exist_ok=True)
    new = path.with_name(path.name + '.new')
    new.write_bytes(data)
    new.chmod(mode)
    new.replace(path)


def remove(prefix, names):
    """The files, and the folders that are then empty."""
    for name in names:
        path = prefix / name
        path.unlink(missing_ok=True)
        while path.parent != prefix:
            path = path.parent
            try:
                path.rmdir()
            except OSError:
                break


def main():
    words = sys.argv[1:]
    removes = words[:1] == ['--remove']
    words = words[removes:]
    if not 1 <= len(words) <= 2 or words[0].startswith('-'):
        sys.exit(__doc__)
    prefix = pathlib.Path((words[1] if len(words) > 1 else '') + os.path.abspath(os.path.expanduser(words[0])))
    try:
        if removes:
            remove(prefix, files(removes))
            print('removed from %s' % prefix)
            return
        wanted = files(removes)
        for name, (data, mode) in wanted.items():
            put(prefix / name, data, mode)
        print('%d files in %s' % (len(wanted), prefix))
    except Wrong as fault:
        sys.exit('install.py: %s' % fault)
    except OSError as fault:
        sys.exit('install.py: %s: %s; PREFIX names the folder to install to' % (fault.filename, fault.strerror))


if __name__ == '__main__':
    main()
