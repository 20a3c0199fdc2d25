"""dist/: what is proved, ready to run and to link.

usage: python3 tools/dist.py                  writes dist/ from target/ (make dist): what is proved there and up to date is taken, the rest is proved and built first
       python3 tools/dist.py check            compares dist/ with what stands in target/, byte for byte, and proves nothing; with another kit than dist/KIT names
                                              it says so and compares nothing
       python3 tools/dist.py build            proves and builds the programs of the desk and the archives, as far as they are not up to date (make build)
       python3 tools/dist.py proved           after `rt ci`: puts what it proved into target/, in the place of what stood there, and builds the archives over it
       python3 tools/dist.py program NAME ..  proves and builds each, as far as it is not up to date: target/bin/NAME
       python3 tools/dist.py archive NAME ..  brings what stands below each up to date and builds it: target/staticlib/libNAME.a, target/aarch64/libNAME.a, target/module/NAME.bc

dist/x86_64-linux has the programs of the desk and one archive with the objects of the proved ones. Each archive is built by rattle of the crate NAME_c, whose exports call those of
NAME, once for x86-64 and once for aarch64. The wasm32 module is compiled by the kit's compiler from the modules that rattle handed to it for x86-64, which is no target of rattle's. An
archive's module is had by a toolchain of links in which clang alone is a script that saves what it is given. The screen is made of screen/ and that module (tools/screen.py).
"""
import concurrent.futures
import functools
import hashlib
import os
import pathlib
import re
import shutil
import subprocess
import sys
import tempfile

import proving
import screen

TOP = proving.TOP
DIST, BIN, STATIC, OF_ARM, MODULES = TOP / 'dist', TOP / 'target/bin', TOP / 'target/staticlib', TOP / 'target/aarch64', TOP / 'target/module'
MOST = 2000000  # bytes of all files together
ELF, EXECUTABLE = b'\x7fELF', 0o755
RENEW = '`make dist` renews it'
# what the kit's compiler is told for wasm32, as rattle tells it for wasm64
WASM = 'wasm32-unknown-unknown'
FLAGS = ['-O3', '-ffunction-sections', '-fdata-sections', '-mllvm', '-trap-unreachable', '-mllvm', '-no-trap-after-noreturn', '-mllvm', '-expand-div-rem-bits=64',
         '-mllvm', '-disable-machine-licm', '-mllvm', '-disable-postra-machine-licm', '-mllvm', '-sink-common-insts=false', '-Wno-override-module']
WASM_STACK = 261120  # with the constants four pages


class Wrong(Exception):
    """One line that says what is wrong and what to do."""


def run(command, **more):
    try:
        done = subprocess.run([str(word) for word in command], stdout=subprocess.PIPE, stderr=subprocess.STDOUT, **more)
    except OSError as fault:
        raise Wrong('%s cannot be started: %s' % (command[0], fault.strerror or fault))
    if done.returncode:
        raise Wrong('%s ended with status %d: %s' % (pathlib.Path(command[0]).name, done.returncode, done.stdout.decode(errors='replace').strip().rsplit('\n', 1)[-1]))
    return done.stdout


# Archives with their modules

def kit_here():
    """The line of the kit that proves and compiles."""
    found = proving.kit_line()
    if found is None:
        raise Wrong('no rt: its kit proves and compiles')
    return found


def compiler():
    """The folder of the kit's compiler."""
    kit_here()
    return proving.kit_folder() / 'toolchain/bin'


SAVING = """#!/bin/sh
# the kit's clang, which saves the module that it is given
PATH='%(path)s'
for word; do
    case $word in *.bc) cp "$word" '%(module)s' ;; esac
done
exec '%(clang)s' "$@"
"""


def saving_toolchain(folder, module):
    """A toolchain of links whose clang is a script."""
    (folder / 'bin').mkdir(parents=True)
    (folder / 'lib').symlink_to(compiler().parent / 'lib')
    for path in compiler().iterdir():
        if path.name != 'clang':
            (folder / 'bin' / path.name).symlink_to(path)
    script = folder / 'bin/clang'
    script.write_text(SAVING % {'module': module, 'clang': compiler() / 'clang', 'path': os.defpath})
    script.chmod(EXECUTABLE)


def library(name):
    return TOP / 'crates' / name / 'out/rlib' / (name + '.rlib')


def built(name, out, toolchain, *more):
    """What rattle says of an archive that it proves, over the libraries below as rt left them, and builds."""
    kit, crate = proving.kit_folder(), proving.exports(name)
    needed, below = proving.crates()[crate][0].split(), proving.closure([crate])[:-1]
    words = ['--crate-name', crate, 'src/lib.rt', '--extern', 'std=%s/rlibs/std.rlib' % kit, '-L', 'dependency=%s/rlibs' % kit]
    for other in needed:
        words += ['--extern', '%s=%s' % (other, library(other))]
    for other in below:
        words += ['-L', 'dependency=%s' % library(other).parent]
    words += ['--antt-project', kit / 'rattle/logic/antt-project.json', '--logic-built', kit / 'logic_built', '--jobs', '1', '--crate-type', 'staticlib', '--toolchain', toolchain, '--backend', 'llvm']
    out.parent.mkdir(parents=True, exist_ok=True)
    done = subprocess.run([kit / 'bin/rattle', 'build', *map(str, words), *more, '-o', out], cwd=TOP / 'crates' / crate, stdin=subprocess.DEVNULL, stdout=subprocess.PIPE, stderr=subprocess.STDOUT)
    log = TOP / 'target/log' / (out.parent.name + '.' + name)
    log.parent.mkdir(parents=True, exist_ok=True)
    log.write_bytes(done.stdout)
    if done.returncode or b'\nlogic=proved ' not in b'\n' + done.stdout:
        raise Wrong('%s was not built: %s (rattle ended with status %d; %s has all that it said)'
                    % (os.path.relpath(out, TOP), '; '.join(proving.told(log)[:3]), done.returncode, os.path.relpath(log, TOP)))


def archive(name):
    """A crate's archives, over what rt proved of those below it; beside the one for x86-64 its module, and the stamp of the sources of all."""
    module, mark = MODULES / (name + '.bc'), MODULES / (name + '.of')
    MODULES.mkdir(parents=True, exist_ok=True)
    for path in module, mark:
        path.unlink(missing_ok=True)
    of = proving.stamp(proving.exports(name), kit_here())
    with tempfile.TemporaryDirectory() as folder:
        saving_toolchain(pathlib.Path(folder, 'toolchain'), module)
        built(name, STATIC / ('lib%s.a' % name), folder + '/toolchain', '--cpu', 'x86-64')
    if not module.exists():
        raise Wrong('the compiler was handed no module of lib%s.a' % name)
    built(name, OF_ARM / ('lib%s.a' % name), compiler().parent, '--target', 'aarch64-unknown-linux-gnu')
    mark.write_text(of + '\n')


def archives(names):
    with concurrent.futures.ThreadPoolExecutor(min(4, os.cpu_count())) as beside:
        list(beside.map(archive, names))


def archived(name):
    """Whether an archive and its module are those of the sources as they are and of the kit that is here."""
    try:
        of = (MODULES / (name + '.of')).read_text().strip()
        return all(path.exists() for path in parts(name)) and of == proving.stamp(proving.exports(name), kit_here())
    except OSError:
        return False


def parts(name):
    return STATIC / ('lib%s.a' % name), OF_ARM / ('lib%s.a' % name), MODULES / (name + '.bc')


# Programs

def program(name):
    """A program without what is not loaded: its sections' names, symbols and table. All that the loader reads is kept as it is."""
    data = (BIN / name).read_bytes()
    if data[:6] != ELF + b'\2\1':
        raise Wrong('target/bin/%s is no program for x86-64' % name)
    number = lambda at, size: int.from_bytes(data[at:at + size], 'little')
    first, size, count = number(32, 8), number(54, 2), number(56, 2)
    end = max([64, first + size * count] + [number(first + size * i + 8, 8) + number(first + size * i + 32, 8) for i in range(count)])
    return data[:40] + bytes(8) + data[48:58] + bytes(6) + data[64:end]


# WebAssembly

def emptied(target):
    """Datalayout and triple of a target, as the compiler has them."""
    text = run([compiler() / 'clang', '--target=' + target, '-S', '-emit-llvm', '-x', 'c', os.devnull, '-o', '-']).decode()
    return [re.search('^target %s = ".*"$' % word, text, re.M)[0] for word in ('datalayout', 'triple')]


@functools.lru_cache(maxsize=None)
def disassembled(name):
    """The module of an archive, as text."""
    return run([compiler() / 'clang', '-S', '-emit-llvm', '-O0', '-Xclang', '-disable-llvm-passes', '-x', 'ir', MODULES / (name + '.bc'), '-o', '-']).decode()


def exports(text):
    """The functions of a module that others may call."""
    return re.findall(r'^define (?!internal|private|linkonce)[^@]*@(\w+)\(', text, re.M)


def retargeted(text):
    """A module for wasm32, which has no pages to probe below the stack, and addresses of 32 bits."""
    for line in emptied(WASM):
        text = re.sub('^%s.*$' % re.escape(line.split('"')[0]), lambda _: line, text, count=1, flags=re.M)
    # a byte and an address: the address lies 8 bytes on in memory, as for x86-64, and not 4
    text = re.sub(r'(= extractvalue \{ i8), (ptr \} [^,]+), 1$', r'\1, [7 x i8], \2, 2', text, flags=re.M).replace('{ i8, ptr }', '{ i8, [7 x i8], ptr }')
    for kind in re.findall(r'\{ [^{}@%]*\bptr\b[^{}@%]* \}', text):
        if kind not in ('{ ptr, i64 }', '{ i8, [7 x i8], ptr }'):
            raise Wrong('the module has values of %s, whose parts lie elsewhere in memory for wasm32' % kind)
    # an address is 32 bits wide there: what the module has in 64 is its number, extended
    text = re.sub(r'\bptrtoaddr (ptr \S+) to i64', r'ptrtoint \1 to i64', text)
    return re.sub(' "(target-cpu|probe-stack|stack-probe-size)"="[^"]*"', '', text)


def compiled(folder, name):
    """The object of an archive for wasm32."""
    source, made_here = folder / (name + '.ll'), folder / (name + '.o')
    source.write_text(retargeted(disassembled(name)))
    run([compiler() / 'clang', '--target=' + WASM, *FLAGS, '-c', '-x', 'ir', source, '-o', made_here])
    return made_here


def packed(members, out):
    """An archive of these objects, the same bytes each time."""
    run([compiler() / 'llvm-ar', 'rcsD', out, *members])
    return out.read_bytes()


def unpacked(archive, folder):
    """The object of a proved archive, renamed after it."""
    here = folder / archive.stem
    here.mkdir()
    run([compiler() / 'llvm-ar', 'x', archive], cwd=here)
    found = sorted(here.iterdir())
    if len(found) != 1:
        raise Wrong('%s has %d objects, and one was expected' % (os.path.relpath(archive, TOP), len(found)))
    return found[0].rename(folder / (archive.stem[3:] + '.o'))


def one_archive(apart):
    """The archives that stand apart in a folder as one."""
    with tempfile.TemporaryDirectory() as folder:
        folder = pathlib.Path(folder)
        return packed([unpacked(apart / ('lib%s.a' % name), folder) for name in proving.archives()], folder / 'libwivakkol.a')


@functools.lru_cache(maxsize=None)
def wasm_module():
    """All calls, exported; no imports. The stack stands first, so that one that overflows leaves the memory and traps."""
    with tempfile.TemporaryDirectory() as folder:
        folder = pathlib.Path(folder)
        with concurrent.futures.ThreadPoolExecutor(os.cpu_count()) as beside:
            made = list(beside.map(functools.partial(compiled, folder), proving.archives()))
        names = [call for name in proving.archives() for call in exports(disassembled(name))]
        (folder / 'wasm-ld').symlink_to(compiler().resolve() / 'clang')
        out = folder / 'wivakkol.wasm'
        run([folder / 'wasm-ld', '--no-entry', '--stack-first', '-z', 'stack-size=%d' % WASM_STACK, '--export=__heap_base', *('--export=' + name for name in names),
             '--gc-sections', '--strip-all', *made, '-o', out])
        return out.read_bytes()


# dist/

def makers():
    """The files of dist/ but for SUMS, each with what makes its bytes from what stands in target/; those that take longer come last."""
    return {'KIT': lambda: kit_here().encode(), **{'x86_64-linux/' + name: functools.partial(program, name) for name in proving.programs()},
            'x86_64-linux/libwivakkol.a': functools.partial(one_archive, STATIC), 'aarch64-linux/libwivakkol.a': functools.partial(one_archive, OF_ARM), 'wasm32/wivakkol.wasm': wasm_module,
            'screen.html': lambda: screen.for_dist(wasm_module())}


def made():
    """The files of dist/, each with its bytes."""
    sums = {}
    for name, make in makers().items():
        data = make()
        sums[name] = hashlib.sha256(data).hexdigest()
        yield name, data
    yield 'SUMS', ''.join('%s  %s\n' % (total, name) for name, total in sorted(sums.items())).encode()


def missing():
    """What would have to stand in target/ and does not."""
    wanted = [BIN / name for name in proving.programs()] + [path for name in proving.archives() for path in parts(name)]
    return [str(path.relative_to(TOP)) for path in wanted if not path.exists()]


def build():
    """Proves and builds what is not up to date."""
    kit_here()
    if not all(map(proving.up_to_date, proving.programs())):
        proving.check(proving.programs())
    old = [name for name in proving.archives() if not archived(name)]
    if old:
        below(old)
        archives(old)


def below(names):
    """Has rt bring the libraries below some archives up to date in crates/*/out, which after `rt ci` has none of its own."""
    crates = list(map(proving.exports, names))
    proving.check(crates)
    for crate in crates:
        log = TOP / 'target/log' / (crate + '.out')
        with log.open('wb') as out:
            status = subprocess.run(['rt', 'lib'], cwd=TOP / 'crates' / crate, stdin=subprocess.DEVNULL, stdout=out, stderr=out).returncode
        if status:
            raise Wrong('rt lib of %s ended with status %d: %s; target/log/%s.out has all that it said' % (crate, status, '; '.join(proving.told(log)[:3]), crate))


def proved():
    """After `rt ci`: what it proved and built, and the archives over that. Libraries that rt put back as they stood before it are brought up to date first."""
    proving.take_all()
    left = [name for name in proving.closure(map(proving.exports, proving.archives())) if (library(name).parent / 'stamp').exists()]
    if left:
        below(proving.archives())
    archives(proving.archives())


def write():
    build()
    files = dict(made())
    total = sum(map(len, files.values()))
    if total >= MOST:
        raise Wrong('dist/ would have %d bytes, and is to stay below %d' % (total, MOST))
    shutil.rmtree(DIST, ignore_errors=True)
    for name, data in files.items():
        path = DIST / name
        path.parent.mkdir(parents=True, exist_ok=True)
        path.write_bytes(data)
        path.chmod(EXECUTABLE if data[:4] == ELF else 0o644)
    print('dist: %d files, %d bytes' % (len(files), total))


def compare():
    """Dist against what stands in target/; ends at the first file that differs."""
    kit = proving.kit_line()
    named = (DIST / 'KIT').read_text() if (DIST / 'KIT').exists() else None
    if named is None:
        raise Wrong('dist/KIT is missing: %s' % RENEW)
    if kit != named:
        print('dist/ was not compared: it was built with %s, and here is %s' % (named.strip(), kit.strip() if kit else 'no kit'))
        return
    for name in missing():
        raise Wrong('%s is not there: nothing to compare dist/ with' % name)
    for name in sorted({str(path.relative_to(DIST)) for path in DIST.rglob('*') if path.is_file()} - {*makers(), 'SUMS'}):
        raise Wrong('dist/%s is none of its files: %s' % (name, RENEW))
    count = total = 0
    for name, data in made():
        same(name, data)
        count, total = count + 1, total + len(data)
    print('dist: %d files are what was proved and built, %d bytes' % (count, total))


def same(name, data):
    path = DIST / name
    if not path.exists():
        raise Wrong('dist/%s is missing: %s' % (name, RENEW))
    if data != path.read_bytes():
        raise Wrong('dist/%s is not what was proved and built: %s' % (name, RENEW))
    if data[:4] == ELF and not os.access(path, os.X_OK):
        raise Wrong('dist/%s is not executable: %s' % (name, RENEW))


def named(names, there):
    for name in names:
        if name not in there:
            raise Wrong('crates.txt has no %s' % name)
    return names


def main():
    words = sys.argv[1:]
    try:
        if not words:
            write()
        elif words == ['check']:
            compare()
        elif words == ['build']:
            build()
        elif words == ['proved']:
            proved()
        elif words[0] == 'program' and len(words) > 1:
            proving.check(named(words[1:], proving.crates()))
        elif words[0] == 'archive' and len(words) > 1:
            named(words[1:], proving.archives())
            below(words[1:])
            archives(words[1:])
        else:
            sys.exit(__doc__)
    except (Wrong, proving.NotProved) as fault:
        sys.exit('dist.py: %s' % fault)


if __name__ == '__main__':
    main()
