"""The screen in a headless Chromium, from the disk, with real keys and clicks: what it saves is what the programs print, what is refused is told and leaves the run, links come back, the largest
run is drawn. Left out, and said so, where there is no Chromium.

usage: python3 tests/screen_page.py [--pictures] [--figures]    (from the repository's top, after `make build`)
    --pictures: writes the pictures of docs/SCREEN.md; --figures: prints times and sizes
"""
import json
import pathlib
import statistics
import subprocess
import sys
import tempfile
import time

import devtools

PAGE = pathlib.Path('dist/screen.html').resolve()
PICTURES = pathlib.Path('docs/pictures')
READY = 'globalThis.wivakkol?.frames > 0 && !wivakkol.asked'
count = 0


def expect(what, found, wanted):
    global count
    count += 1
    if found != wanted:
        sys.exit('%s: expected\n%s\nfound\n%s' % (what, str(wanted)[:1500], str(found)[:1500]))


def program(name, data):
    done = subprocess.run(['target/bin/' + name], input=data, stdout=subprocess.PIPE, stderr=subprocess.PIPE)
    return done.stdout + done.stderr


class Page:
    """The screen in a browser, and what a person does with it."""

    def __init__(self, browser, folder):
        self.browser, self.folder = browser, folder
        browser.downloads(folder)

    def open(self, link=''):
        self.browser.open('about:blank', 'location.href === "about:blank"')
        self.browser.open(PAGE.as_uri() + ('#' + link if link else ''), READY)

    def keys(self, *keys):
        for key in keys:
            self.browser.key(key)
        self.settled()

    def click(self, selector, shift=False):
        self.browser.click(selector, shift)
        self.settled()

    def settled(self):
        self.browser.until('!wivakkol.asked && !wivakkol.going && !wivakkol.typing')

    def field(self, name, value):
        """A number typed into its field, and time for it to be taken."""
        self.browser.type('#' + name, str(value))
        self.browser.key('Enter')
        self.browser.key('Escape')
        self.settled()

    def text(self, text):
        self.browser.type('#text', text)
        self.browser.key('Escape')
        self.settled()

    def example(self, name, p, quota):
        self.browser.run('(() => {const e = document.getElementById("example"); e.value = %s; e.dispatchEvent(new Event("change"));})()' % json.dumps(name))
        self.field('p', p)
        self.field('K', quota)

    def word(self, selector):
        return self.browser.run('document.querySelector(%s).textContent' % json.dumps(selector))

    def saved(self, what):
        """A file that the page saves, through its menu."""
        self.click('#save')
        self.browser.click('[data-save=%s]' % what)
        end = time.time() + 10
        while time.time() < end:
            found = [path for path in self.folder.iterdir() if not path.name.endswith('.crdownload')]
            size = int(self.word('#run-told').split(': ')[-1].split()[0].replace(',', '')) if found else 0
            if found and found[0].stat().st_size == size:
                data = found[0].read_bytes()
                found[0].unlink()
                return data
            time.sleep(0.02)
        sys.exit('%s was not saved: %s' % (what, self.word('#run-told')))

    def stale(self):
        return self.browser.run('document.querySelector("main").classList.contains("stale")')


def table_of(name):
    return program('tableasm', pathlib.Path('examples/%s.text' % name).read_bytes())


def order_bytes(order):
    return bytes(int(number) for word in order.split() for number in word.split(b':'))


def runs(page):
    """Runs by keys and clicks on each example; what is saved is what the programs print over the same order."""
    for name, p, quota, kind, order, keys in [
            ('e', 2, 6, 'asyncdf', 'rounds', [' '] * 5 + ['1', '1', 'r']), ('parts', 2, 10, 'asyncdf', 'random', ['0', '0', '1', 'r']), ('stages', 4, 8, 'asyncdf', 'worst', ['ArrowRight'] * 9 + ['3', 'r']),
            ('repeats', 3, 30, 'asyncdf', 'worst', ['r']), ('tree', 16, 12, 'asyncdf', 'random', ['a', 'f', '3', 'r']), ('e', 2, 5, 'dfdeques', 'rounds', ['0', '1', ' ', 'r']),
            ('repeats', 4, 40, 'dfdeques', 'random', [' '] * 3 + ['r']), ('stages', 3, 5, 'dfdeques', 'worst', [']', '1', '2', 'PageDown', 'r'])]:
        page.example(name, p, quota)
        page.click('#' + kind)
        page.click('[data-order=%s]' % order)
        page.keys(*keys)
        table, order = table_of(name), page.saved('order')
        data = bytes([p]) + quota.to_bytes(3, 'little') + len(order_bytes(order)).to_bytes(2, 'little') + order_bytes(order) + table
        listing = program('turnlist' if kind == 'asyncdf' else 'dequelist', data)
        expect('%s, %s: listing' % (name, kind), page.saved('listing'), listing)
        path = page.folder.parent / 'order'
        path.write_bytes(order)
        command = ['list' if kind == 'asyncdf' else 'deques', '-p', str(p), '-K', str(quota), '--order', '@%s' % path, 'examples/%s.text' % name]
        expect('%s: the order for the command' % name, subprocess.run([sys.executable, 'tools/wivakkol', *command], stdout=subprocess.PIPE).stdout, listing)
        expect('%s: ended' % name, listing.splitlines()[-1].startswith(b'done'), True)
        expect('%s: table' % name, page.saved('table'), table)
        if kind == 'asyncdf':
            expect('%s: wall chart' % name, page.saved('chart'), program('wallchart', data))
        options = ['--deques'] * (kind == 'dfdeques')
        drawn = subprocess.run([sys.executable, 'tools/picture.py', '-p', str(p), '--trace', *options], input=listing, stdout=subprocess.PIPE, check=True).stdout
        expect('%s: trace' % name, page.saved('trace'), drawn)
    page.click('#asyncdf')


STACKED = """(() => {
    const w = wivakkol, d = w.drawings, {run} = w, {layer} = d, copy = document.createElement('canvas'), {theme} = d, kept = d.kept;
    Object.assign(copy, {width: layer.width, height: layer.height});
    const context = copy.getContext('2d', {willReadFrequently: true});
    context.drawImage(layer, 0, 0);
    const pixels = new Uint32Array(context.getImageData(0, 0, copy.width, copy.height).data.buffer), scale = copy.width / (d.view.to - d.view.from);
    let bands = 0;
    const wrong = [];
    for (let c = 0; c < kept.turns.length; c++) {
        const turn = kept.turns[c], record = run.lookAt(run.log, turn), x = Math.floor(((kept.starts[c] + kept.starts[c + 1]) / 2 - d.view.from) * scale);
        const seen = [];
        if (x < 0 || x >= copy.width) continue;
        for (let y = copy.height - 1; y >= 0; y--) {
            const colour = pixels[y * copy.width + x];
            if (colour !== theme.panelPixel && colour !== 0 && seen.at(-1) !== colour) seen.push(colour);
        }
        const wanted = [];
        for (let t = 0; t < run.threads; t++) {
            const colour = kept.coloured[t] ? theme.pixels[t % theme.pixels.length] : theme.greyPixel;
            if (record.amount(t) && wanted.at(-1) !== colour) wanted.push(colour);
        }
        bands += wanted.length;
        if (JSON.stringify(seen) !== JSON.stringify(wanted)) wrong.push(turn);
    }
    return {turns: kept.turns.length, bands, wrong};
})()"""


def drawn(page):
    """In each column of the drawing the bands are those of the threads that hold memory then, from below; after turns, after other tables, zoomed."""
    page.open()
    for name, p, quota, turns in ('repeats', 4, 40, 126), ('stages', 4, 8, 30), ('tree', 4, 8, 60), ('tree', 16, 8, 900):
        page.example(name, p, quota)
        page.browser.run('wivakkol.advance(1)')
        page.settled()
        page.browser.run('wivakkol.advance(%d)' % (turns - 1))
        page.settled()
        seen = page.browser.run(STACKED)
        expect('%s: columns' % name, (seen['wrong'], seen['turns'] == turns if turns < 400 else seen['turns'] > 300, seen['bands'] > seen['turns']), ([], True, True))
        page.keys('+', '+')
        expect('%s: columns, nearer' % name, page.browser.run(STACKED)['wrong'], [])
        page.keys('z')


def forward_and_back(page):
    """Steps back and on, marks, two tries, and the run as a link and as a file."""
    page.example('repeats', 4, 40)
    page.click('[data-order=rounds]')
    page.keys(*[' '] * 12, 'm', '1', 'r')
    first = page.saved('listing')
    page.keys('g', '1')
    expect('back at the mark', page.word('#turn'), 'turn 12')
    page.click('[data-order=worst]')
    page.keys('r', 'ArrowLeft', 'ArrowLeft', 'ArrowRight', 'm', '2')
    second, turn = page.saved('listing'), page.word('#turn')
    page.keys('x')
    expect('the other try', page.saved('listing'), first)
    page.keys('x')
    expect('this try', page.saved('listing'), second)
    expect('where they part', page.word('#tries th').startswith('same up to turn '), True)
    saved = page.saved('run')
    page.keys('l')
    page.browser.until('document.getElementById("run-told").textContent.startsWith("The link is")')
    link, told = page.browser.run('location.hash.slice(1)'), page.word('#run-told')
    expect('link', ('link is' in told, 80 < len(link) < 2000), (True, True))
    page.open(link)
    seen = lambda: (page.word('#turn'), page.word('#marks'), page.word('#tries'), page.saved('listing'))
    from_link = seen()
    expect('from the link', (from_link[0], from_link[3]), (turn, second))
    path = page.folder.parent / 'kept.run.json'
    path.write_bytes(saved)
    page.open()
    page.browser.choose('#file', path)
    page.browser.until('document.getElementById("turn").textContent === %s' % json.dumps(turn))
    page.settled()
    expect('from the file', seen(), from_link)
    for wrong in link[:-3], link[:40] + 'xx' + link[42:], '9' + link[1:], 'nothing':
        page.browser.run('location.hash = %s' % json.dumps(wrong))
        page.browser.until('document.getElementById("run-told").textContent.startsWith("The link was not loaded: ")')
        expect('the run stays', seen(), from_link)
    page.open(link[:-9])
    expect('a damaged link at the start', page.word('#run-told').startswith('The link was not loaded: '), True)
    page.keys(' ')
    expect('and a run all the same', page.word('#turn'), 'turn 1')


def within_memory(page):
    """A quota for M, what each worker would do against the turn that is then taken, a halt before M is passed, and the paper."""
    page.example('tree', 2, 8)
    for memory in 136, 100:
        page.field('M', memory)
        page.click('#fit')
        words = program('fitquota', bytes([2]) + bytes(4) + memory.to_bytes(8, 'little') + table_of('tree')).decode().split()
        told = (page.word('#run-told') + page.word('#numbers-told')).replace(',', '')
        expect('K for M %d' % memory, all(' %s' % number in told for number in words if number.isdecimal()), True)
    page.example('repeats', 4, 40)
    page.field('M', 150)
    page.click('[data-order=worst]')
    page.click('#stop')
    page.keys('r')
    highest = page.browser.run('wivakkol.run.record.highest')
    expect('a halt', (page.word('#run-told'), 110 < highest <= 150), ('stopped: the next turn would hold more than M 150', True))
    expect('what would pass it', '▲' in page.word('#previews .next'), True)
    would = page.browser.run('document.querySelector("#previews .next").getAttribute("aria-label")')
    page.click('#previews .next')
    held = page.browser.run('wivakkol.run.record.held')
    expect('a click takes that turn', would.endswith('held after it %d, above M' % held), True)
    page.click('#stop')
    page.keys('r')
    page.browser.run('dispatchEvent(new Event("beforeprint"))')
    expect('on paper', page.word('#paper pre').encode() + b'\n', page.saved('chart'))
    expect('its pictures', page.browser.run('[...document.querySelectorAll("#paper img")].map((one) => one.src.length > 5000)'), [True, True])
    page.field('M', '')


def the_deques(page):
    """A click on a deque chooses it: a worker without a thread then robs its bottom."""
    page.example('repeats', 4, 40)
    page.click('#dfdeques')
    page.click('[data-choice=zero]')
    page.keys('0', '0', '1', '1')
    lines = page.browser.run('wivakkol.run.record.deques()')
    page.click('.deque:nth-child(2)')
    expect('chosen', (page.browser.run('document.querySelector(".deque.chosen").value'), page.browser.run('wivakkol.rule.choice')), ('1', 'chosen'))
    page.keys('2')
    log = page.saved('listing').decode().split('\n')
    expect('the bottom of the second deque', (log[5].split()[1:3], len(lines)), (['2', str(lines[1]['threads'][-1])], 2))
    page.click('#asyncdf')


REFUSED = [('p', '17', 20, '#numbers-told'), ('p', '0', 20, '#numbers-told'), ('K', '0', 21, '#numbers-told'), ('K', '16777216', 21, '#numbers-told'), ('b', '0', 41, '#numbers-told')]
WRONG = [('thread 0\n  fork 1\n  end\nthread 1\n  end\n', 9, 3), ('thread 0\n  free 1\n  end\n', 10, 2), ('thread 0\n  weave\n', 63, 2), ('thread 0\n  alloc 0\n  end\n', 6, 2),
         ('thread 0\n  end\nthread 1\n  end\n', 11, 3), ('', 2, 0)]


def refused(page):
    """Each refusal with its number, where it belongs; the run that was there stays, dimmed, and comes back with what it was made of."""
    page.example('e', 2, 6)
    page.keys(' ', ' ', ' ')
    before = page.word('#stand')
    for name, value, number, where in REFUSED:
        kept = page.browser.run('document.getElementById(%s).value' % json.dumps(name))
        page.field(name, value)
        expect('%s %s' % (name, value), (('refused %d:' % number) in page.word(where), page.stale(), page.word('#turn'), page.word('#stand')), (True, True, 'turn 3', before))
        page.field(name, kept)
        expect('%s back' % name, (page.word(where), page.stale()), ('', False))
        page.keys(' ', ' ', ' ')
    for text, number, line in WRONG:
        page.text(text)
        expect(text, (page.word('#table-told').startswith(('line %d: ' % line if line else '') + 'refused %d:' % number), page.stale(), page.word('#turn')), (True, True, 'turn 3'))
    large = '# %s\nthread 0\n  end\n' % ('x' * 262144)
    page.browser.run('(() => {const e = document.getElementById("text"); e.value = %s; e.dispatchEvent(new Event("input"));})()' % json.dumps(large))
    page.browser.until('document.getElementById("table-told").textContent.startsWith("refused 62:")')
    expect('a long text', (page.stale(), page.word('#turn')), (True, 'turn 3'))
    page.text('thread 0\n  alloc 1000\n  free 1000\n  end\n')
    page.field('K', 1)
    expect('44', ('refused 44:' in page.word('#numbers-told'), page.word('#table-told').startswith('line 2: ')), (True, True))
    turns_refused(page)
    files_refused(page)


def names(page):
    """Of the text that a design stands for the page has the names of threads."""
    text = subprocess.run(['tools/wivakkol', 'dis', 'examples/carpet.design'], stdout=subprocess.PIPE, check=True).stdout.decode()
    page.text(text)
    page.field('K', 40)
    page.keys(*' ' * 8)
    expect('names', ('row[0], ' in page.word('#holders'), ' of thread 1 row[0], line ' in page.browser.run('document.getElementById("previews").children[1].title + document.getElementById("previews").children[2].title')), (True, True))
    page.text(text.replace('# row[0]\n', '\n'))
    page.keys(*' ' * 8)
    expect('no name', 'row[0], ' in page.word('#holders'), False)


def turns_refused(page):
    page.example('e', 2, 6)
    for keys, number in [(['f'], 30), (['m', '9'], 45), (['g', '5'], 46), (['r', '0'], 31)]:
        page.keys(*keys)
        expect(str(keys), 'refused %d:' % number in page.word('#run-told'), True)
    page.field('b', 1)
    page.keys('0', '1', '0')
    page.keys('0')
    expect('60', ('refused 60:' in page.word('#run-told'), page.word('#turn')), (True, 'turn 3'))
    page.field('b', '')
    for kind, order, number in [('asyncdf', '0 1 99', 30), ('asyncdf', '0 nobody', 0), ('dfdeques', '0:0 1:7', 49)]:
        page.click('#' + kind)
        page.click('[data-order=list]')
        page.browser.type('#list-text', order)
        page.click('#list-use')
        expect(order, ('refused %d:' % number if number else 'expected') in page.word('#list-told'), True)
        page.click('#list-close')
        expect('the run stays', page.word('#turn'), 'turn 0')
    page.click('#asyncdf')
    page.click('[data-order=list]')
    page.browser.type('#list-text', '0 1 0 1 0')
    page.click('#list-use')
    page.keys('r')
    expect('a list', (page.word('#turn'), page.word('#run-told')), ('turn 5', 'the list is at its end'))
    page.click('[data-order=rounds]')


def files_refused(page):
    """Files that are no table: one sentence under the table, and the run stays; files that are."""
    e = pathlib.Path('examples/e.table').read_bytes()
    page.example('e', 2, 6)
    page.keys(' ', ' ')
    for name, data, words in [('a.png', b'\x89PNG\r\n\x1a\n' + bytes(90), 'a PNG picture'), ('wide.text', 'thread 0\n  end\n'.encode('utf-16'), 'UTF-16'), ('cut.table', e[:-1], 'refused 3:'),
                              ('zeros', bytes(50), 'refused 2:'), ('long.text', b'#' * 300000, 'refused 62:'), ('half.json', b'{"wivakkol": 1, "kind"', 'cut off')]:
        bring(page, name, data)
        page.browser.until('document.getElementById("table-told").textContent.includes(%s)' % json.dumps(words))
        expect(name, (page.stale(), page.word('#turn')), (False, 'turn 2'))
    page.browser.run('(() => {const all = new DataTransfer(); all.items.add(new File([new Uint8Array([0xff, 0xd8, 0xff, 0xe0])], "b.jpg")); dispatchEvent(new DragEvent("drop", {dataTransfer: all}));})()')
    page.browser.until('document.getElementById("table-told").textContent === "b.jpg: This is a JPEG picture, not a table."')
    expect('a picture dropped', (page.stale(), page.word('#turn')), (False, 'turn 2'))
    page.keys('m', '3')
    state, before = json.loads(page.saved('run')), (page.word('#stand'), page.word('#marks'), page.saved('listing'))
    for name, change, words in [('far.json', {'turn': 9}, 'it is at turn 9 of 2'), ('none.json', {'tries': [['h', '0f']]}, 'not understood'), ('worker.json', {'tries': [[['h', '0f']]]}, 'its turn 2 is refused with 30'),
                                ('p.json', {'p': 17}, 'it is refused with 20'), ('text.json', {'text': 'thread 0'}, 'its table is refused with'), ('long.json', {'tries': [[['r', 99]]]}, 'it has 99 turns where the run has 14')]:
        bring(page, name, json.dumps({**state, **change}).encode())
        page.browser.until('document.getElementById("run-told").textContent.includes(%s)' % json.dumps(words))
        page.settled()
        expect('%s: the run stays' % name, (page.word('#turn'), page.word('#stand'), page.word('#marks'), page.saved('listing')), ('turn 2', *before))
    bring(page, 'other.json', b'{"wivakkol": 7}')
    page.browser.until('document.getElementById("run-told").textContent.includes("version 7")')
    bring(page, 'my.table', e)
    page.browser.until('document.getElementById("turn").textContent === "turn 0"')
    expect('bytes', (page.saved('table'), page.word('#table-told')), (e, ''))
    bring(page, 'windows.text', b'thread 0\r\n  end\r\n')
    page.browser.until('document.getElementById("table-told").textContent.includes("a carriage return")')
    expect('carriage returns', page.stale(), True)


def bring(page, name, data):
    path = page.folder.parent / name
    path.write_bytes(data)
    page.browser.choose('#file', path)


def with_a_table(page):
    """The page as `wivakkol screen` writes it: with a table, with one that is refused, with numbers that are."""
    stages = pathlib.Path('examples/stages.text').read_bytes()
    for data, numbers, turn, where, words in [(stages, ['-p', '3', '-K', '8', '-M', '30'], 'turn 0', '#numbers-told', ''), (stages, ['-p', '17', '-K', '8'], 'turn 0', '#numbers-told', 'refused 20:'),
                                              (pathlib.Path('examples/e.table').read_bytes()[:-1], ['-p', '2', '-K', '6'], 'turn 0', '#table-told', 'refused 3:')]:
        path = page.folder.parent / 'with.html'
        subprocess.run([sys.executable, 'tools/wivakkol', 'screen', *numbers, '-', '-o', str(path)], input=data, check=True)
        page.browser.open('about:blank', 'location.href === "about:blank"')
        page.browser.open(path.as_uri(), READY)
        expect('screen %s' % numbers, (page.word('#turn'), words in page.word(where), page.stale()), (turn, True, words == 'refused 20:'))
        if data == stages:
            expect('its text', page.browser.run('document.getElementById("text").value').encode(), stages)
            expect('its numbers', page.browser.run('["p", "K"].map((id) => document.getElementById(id).value)'), [numbers[1], numbers[3]])


def largest():
    """A text of 1,024 threads and 8,192 actions, all of which hold memory."""
    n, lines = 1024, []
    left = 8192 - 2 * (n - 1) - n - 1
    for i in range(n):
        lines += ['thread %d' % i] + ['  work'] * (i == 0) + ['  alloc 7'] * (left // n + (i < left % n)) + (['  fork %d' % (i + 1), '  join %d' % (i + 1)] if i + 1 < n else []) + ['  end']
    return '\n'.join(lines) + '\n'


TIMED = """(() => {
    const w = wivakkol, out = {}, time = (name, act) => {
        out[name] = [];
        for (let i = 0; i < 15; i++) {
            const from = performance.now();
            act(i);
            out[name].push(performance.now() - from);
        }
    };
    w.draw();
    time('one turn back', () => { w.run.jump(w.run.turn - 1); w.draw(); });
    time('a jump', (i) => { w.run.jump(9000 * (i + 3)); w.draw(); });
    time('a zoom', (i) => { w.drawings.view.zoom(i % 2 ? 1.4 : 0.7, 150000, w.run.log.length); w.draw(); });
    time('mark and back', (i) => { w.run.mark(i % 8); w.run.back(i % 8); });
    out.heap = performance.memory.usedJSHeapSize;
    out.wasm = w.calls.bytes.length;
    w.drawings.view.whole = true;
    w.draw();
    return out;
})()"""


def large(page):
    """1,024 threads and 262,144 turns: taken, drawn, stepped back, zoomed."""
    page.browser.run('(() => {wivakkol.text.put(%s); wivakkol.setNumbers({p: 16, K: 7, M: null, b: null}); return wivakkol.begin();})()' % json.dumps(largest()))
    page.click('[data-order=list]')
    page.browser.run('document.getElementById("list-text").value = "0 " + Array.from({length: 157687}, (_, i) => 1 + i % 15).join(" ")')
    page.click('#list-use')
    page.keys('r')
    page.click('[data-order=rounds]')
    page.browser.run('globalThis.began = performance.now()')
    page.browser.key('r')
    page.browser.until('wivakkol.run.ended && !wivakkol.going')
    page.settled()
    expect('turns', page.word('#turn'), 'turn 262,144')
    expect('threads', page.word('#facts dd'), '1,024 · 8,192')
    chart = page.word('#stand pre b')
    page.keys('ArrowLeft', 'ArrowRight')
    expect('there and back', (page.word('#turn'), page.word('#stand pre b')), ('turn 262,144', chart))
    page.keys('Home', 'End')
    expect('to the beginning and the end', page.word('#stand pre b'), chart)
    return page.browser.run(TIMED)


def figures(page, times):
    page.open()
    paint = page.browser.run('performance.getEntriesByName("first-contentful-paint")[0]?.startTime ?? performance.getEntriesByType("paint")[0]?.startTime')
    print('%d bytes; first contentful paint %.0f ms' % (PAGE.stat().st_size, paint or 0))
    print('; '.join('%s %.1f ms' % (name, statistics.median(row)) for name, row in times.items() if isinstance(row, list)))
    print('JavaScript %.0f MB, WebAssembly %.1f MB' % (times['heap'] / 1e6, times['wasm'] / 1e6))
    speed = page.browser.run("""(() => {
        const out = {}, w = wivakkol;
        w.text.put(%s); w.setNumbers({p: 16, K: 7, M: null, b: null});
        for (const order of ['rounds', 'random', 'worst']) {
            w.begin(); w.rule.order = order;
            const from = performance.now();
            w.run.advance(w.rule);
            out[order] = Math.round(w.run.turn / (performance.now() - from) * 1000);
        }
        return out;
    })()""" % json.dumps(largest()))
    print('turns a second: %s' % ', '.join('%s %s' % (name, format(value, ',')) for name, value in speed.items()))


def pictures(page):
    """The two pictures of docs/SCREEN.md."""
    page.open()
    page.browser.run('wivakkol.theme("light")')
    page.example('repeats', 4, 40)
    page.field('M', 200)
    page.keys(*[' '] * 12, 'm', '1', 'r', 'g', '1')
    page.click('[data-order=worst]')
    page.keys('r')
    page.browser.run('wivakkol.jump(60)')
    page.settled()
    page.browser.picture(PICTURES / 'screen.png')
    page.example('tree', 4, 8)
    page.click('#dfdeques')
    page.click('[data-order=random]')
    page.click('[data-choice=random]')
    page.keys(*[' '] * 33)
    page.browser.run('wivakkol.theme("dark")')
    page.settled()
    page.browser.picture(PICTURES / 'screen-deques.png')
    page.browser.run('wivakkol.theme("light")')


def main(given):
    if not devtools.found():
        return print('the screen in a browser was left out: no Chromium')
    browser = devtools.Browser(1400, 900)
    try:
        with tempfile.TemporaryDirectory() as name:
            folder = pathlib.Path(name, 'saved')
            folder.mkdir()
            page = Page(browser, folder)
            if given == ['--pictures']:
                return pictures(page)
            page.open()
            runs(page)
            drawn(page)
            forward_and_back(page)
            within_memory(page)
            the_deques(page)
            refused(page)
            names(page)
            with_a_table(page)
            times = large(page)
            if given == ['--figures']:
                figures(page, times)
            expect('what the console says', browser.faults, [])
        print('the screen in a browser: %d things as they should be' % count)
    finally:
        browser.close()


if __name__ == '__main__':
    main(sys.argv[1:])
