// The page: what is pressed, dropped, typed or opened, and what is then drawn.
import {load, Refusal} from './calls.mjs';
import {BadState, bringTo, checkState, linkOf, NONE, readLink, rules, Run, stateOf, unpacked} from './run.mjs';
import {chart, listing, namesOf, NoTable, order, readFile, short, told, trace} from './files.mjs';
import {Drawings, grouped, Theme} from './drawings.mjs';
import {$, facts, holders, KEYS, linesOf, made, marks, previews, stand, TextPanel, tries} from './panels.mjs';

const data = (name) => JSON.parse($('data-' + name).textContent);
const encoded = (text) => Uint8Array.from(atob(text), (letter) => letter.charCodeAt(0));
const FRAME = 14, SECOND = 6; // milliseconds of turns between two drawings; turns a second when playing

class Screen {
    constructor(calls) {
        Object.assign(this, {calls, run: null, rule: rules(), tab: '', hover: null, going: null, pending: '', name: 'run', lines: [], asked: false, kind: 'asyncdf', frames: 0});
        this.examples = data('examples');
        this.drawings = new Drawings($('timeline'), $('memory'));
        this.text = new TextPanel(() => this.typed());
        $('example').append(made('option', {value: ''}, 'own table'), ...Object.keys(this.examples).map((name) => made('option', {value: name}, `example: ${name}`)));
        $('help-keys').append(...KEYS.flatMap(([keys, what]) => [made('kbd', {}, keys), made('span', {}, what)]));
        this.listen();
    }

    // Tables and numbers

    numberOf(id, most) {
        const word = $(id).value.trim().replace(/,/g, '');
        if (word === '' && (id === 'M' || id === 'b')) return null;
        return /^\d{1,20}$/.test(word) ? Math.min(Number(word), most) : NaN;
    }

    /** The numbers at the top; the first that is none is told of there. */
    numbers() {
        const found = {kind: this.kind, p: this.numberOf('p', 4294967295), K: this.numberOf('K', 4294967295), b: this.numberOf('b', 4294967295), M: this.numberOf('M', Number.MAX_SAFE_INTEGER)};
        const wrong = ['p', 'K', 'b', 'M'].find((id) => Number.isNaN(found[id]));
        if (wrong) this.wrong(wrong, `${wrong}: a whole number is wanted`);
        return wrong ? null : found;
    }

    wrong(id, sentence) {
        for (const one of ['p', 'K', 'b', 'M']) $(one).classList.toggle('wrong', one === id);
        $('numbers-told').textContent = sentence;
    }

    /** Begins a run of the text and the numbers. Where one of them is refused, it says so there, and the run that was there stays, dimmed. */
    begin() {
        this.halt();
        this.wrong('', '');
        this.text.number();
        const text = this.text.area.value, table = this.calls.assemble(new TextEncoder().encode(text));
        if (table instanceof Refusal) return this.refuseTable(told(this.calls, table, text));
        this.tableTold('', 0);
        const given = this.numbers();
        if (!given) return this.stale(true);
        const run = Run.begin(this.calls, {...given, table});
        if (run instanceof Refusal) return this.refuseNumbers(run, text);
        this.take(run, text);
        return true;
    }

    take(run, text) {
        Object.assign(this, {run, hover: null, lines: linesOf(run, text), names: namesOf(text), accepted: text});
        Object.assign(this.rule, {list: null, from: 0, chosen: 0});
        if (this.rule.order === 'list') this.rule.order = 'rounds';
        this.drawings.view.whole = true;
        this.drawings.kept = null;
        this.stale(false);
        this.say('');
        $('b-label').hidden = $('fit').hidden = run.deques;
        $('choices').hidden = !run.deques;
        this.refresh();
    }

    stale(is) {
        document.querySelector('main').classList.toggle('stale', is);
        this.isStale = is;
        return false;
    }

    tableTold(sentence, line) {
        $('table-told').textContent = line ? `line ${line}: ${sentence}` : sentence;
        $('code').classList.toggle('wrong', Boolean(sentence));
        this.text.mark(sentence ? 0 : this.text.next, line || 0);
        if (line) this.text.show(line);
    }

    refuseTable({line, sentence}) {
        this.tableTold(sentence, line);
        return this.stale(true);
    }

    refuseNumbers(refusal, text) {
        const filling = refusal.number === this.calls.constants.REFUSED_FILLING, id = filling ? 'K' : refusal.about.startsWith('-') && refusal.about[1], {line, sentence} = told(this.calls, refusal, text);
        if (!id) return this.refuseTable({line, sentence});
        this.wrong(id, sentence);
        if (line) this.tableTold(`the alloc that K is too small for`, line);
        return this.stale(true);
    }

    typed() {
        $('example').value = '';
        this.name = 'run';
        this.soon(() => this.retry(), 250);
    }

    /** What is typed is taken after a short rest, or at once where the field is left or Enter pressed. */
    soon(act, rest) {
        clearTimeout(this.typing?.timer);
        this.typing = {act, timer: setTimeout(() => this.now(), rest)};
    }

    now() {
        const {typing} = this;
        clearTimeout(typing?.timer);
        this.typing = null;
        typing?.act();
    }

    /** After an edit: the same table as before leaves the run as it is. */
    retry() {
        const text = this.text.area.value, table = this.calls.assemble(new TextEncoder().encode(text)), old = this.run?.given.table;
        const same = old && !(table instanceof Refusal) && table.length === old.length && table.every((byte, i) => byte === old[i]);
        if (!same || this.isStale) return this.begin();
        this.text.number();
        this.lines = linesOf(this.run, text);
        this.names = namesOf(text);
        this.accepted = text;
        this.tableTold('', 0);
        this.refresh();
    }

    example(name, numbers = {}) {
        const usual = {repeats: {p: 4, K: 40}, e: {p: 2, K: 6}, parts: {p: 2, K: 10}, stages: {p: 4, K: 8}, tree: {p: 8, K: 12}}[name] ?? {p: 2, K: 16};
        this.text.put(this.examples[name]);
        $('example').value = name;
        this.name = name;
        this.setNumbers({M: null, b: null, ...usual, ...numbers});
        this.begin();
    }

    setNumbers(numbers) {
        for (const id of ['p', 'K', 'M', 'b']) if (id in numbers) $(id).value = numbers[id] === null ? '' : String(numbers[id]);
    }

    fit() {
        const given = this.numbers();
        if (!given || !this.run) return;
        if (given.M === null) return this.wrong('M', 'M: how much memory has the board?');
        const {constants} = this.calls, row = this.calls.fit(this.run.given.table, given.p, given.b ?? 0, given.M);
        if (row instanceof Refusal) return this.refuseNumbers(row, this.accepted);
        const [quota, memory] = [row[constants.FIT_QUOTA], row[constants.FIT_MEMORY]];
        if (!row[constants.FIT_FITS]) return this.wrong('M', `no K holds within M ${grouped(given.M)}: ${grouped(memory)} is needed at least, with K ${grouped(quota)}`);
        $('K').value = String(quota);
        if (this.begin()) this.say(`K ${grouped(quota)}: at most ${grouped(memory)} held${given.b === null ? ', in every order' : ` with b ${given.b}`}`, true);
    }

    // Files and links

    async file(file) {
        this.bring(new Uint8Array(await file.arrayBuffer()), file.name);
    }

    /** A table or a run from outside. What is none leaves everything as it is, and says why under the table. */
    bring(bytes, name) {
        const found = readFile(this.calls, bytes);
        if (found.state) return this.bringState(found.state, name);
        if (found instanceof NoTable || (found instanceof Refusal && typeof found.text !== 'string')) {
            const sentence = found instanceof Refusal ? told(this.calls, found).sentence : found.message;
            $('table-told').textContent = `${name}: ${sentence}`;
            return false;
        }
        this.text.put(found.text);
        $('example').value = '';
        this.name = name.replace(/\.[^.]*$/, '') || 'run';
        return found instanceof Refusal ? this.refuseTable(told(this.calls, found, found.text)) : this.begin();
    }

    bringState(state, name) {
        try {
            checkState(state);
            const table = this.calls.assemble(new TextEncoder().encode(state.text));
            if (table instanceof Refusal) throw new BadState(`its table is refused with ${table.number}`);
            const given = {kind: state.kind, table, p: state.p, K: state.K, b: state.b, M: state.M}, old = this.run && {given: this.run.given, state: stateOf(this.run, '')};
            const run = Run.begin(this.calls, given);
            if (run instanceof Refusal) throw new BadState(`it is refused with ${run.number}`);
            try {
                bringTo(run, state);
            } catch (fault) {
                if (old) this.goBackTo(old);
                throw fault;
            }
            this.show(run, state);
            return true;
        } catch (fault) {
            if (!(fault instanceof BadState)) throw fault;
            this.say(`${name} was not loaded: ${fault.message}.`);
            return false;
        }
    }

    /** The run that was there, which the memory of the one that failed was taken from. */
    goBackTo({given, state}) {
        this.run = Run.begin(this.calls, given);
        bringTo(this.run, state);
        this.drawings.kept = null;
        this.refresh();
    }

    show(run, state) {
        this.kind = state.kind;
        this.text.put(state.text);
        this.setNumbers(state);
        $('example').value = Object.keys(this.examples).find((name) => this.examples[name] === state.text) ?? '';
        this.tableTold('', 0);
        this.wrong('', '');
        this.take(run, state.text);
    }

    async fromHash() {
        const link = location.hash.slice(1);
        if (!link || link === this.link) return false;
        try {
            return this.bringState(await readLink(link), 'The link');
        } catch (fault) {
            if (!(fault instanceof BadState)) throw fault;
            this.say(`The link was not loaded: ${fault.message}.`);
            return false;
        }
    }

    async copyLink() {
        if (!this.run || this.isStale) return;
        const state = stateOf(this.run, this.accepted), lost = this.run.marks.filter(Boolean).length - state.marks.length;
        this.link = await linkOf(state);
        history.replaceState(null, '', '#' + this.link);
        const where = await navigator.clipboard?.writeText(location.href).then(() => 'copied', () => 'in the address bar') ?? 'in the address bar';
        const long = this.link.length > 8000 ? '; some mail programs cut links of this length: save the run as a file' : '';
        this.say(`The link is ${where}, ${grouped(this.link.length)} characters${long}${lost ? `; ${lost} of the marks are of neither try and not in it` : ''}.`, true);
    }

    saved(what) {
        const {run, name} = this, text = (made) => new TextEncoder().encode(made);
        switch (what) {
        case 'listing': return {name: `${name}.list`, data: text(listing(run))};
        case 'order': return {name: `${name}.order`, data: text(order(run))};
        case 'chart': return {name: `${name}.chart`, data: text(chart(run, 0, run.log.length).map((line) => line + '\n').join(''))};
        case 'trace': return {name: `${name}.trace.json`, data: text(trace(run))};
        case 'run': return {name: `${name}.run.json`, data: text(JSON.stringify(stateOf(run, this.accepted)) + '\n')};
        case 'text': return {name: `${name}.text`, data: text(this.accepted)};
        default: return {name: `${name}.table`, data: run.given.table};
        }
    }

    save(what) {
        $('save-menu').hidden = true;
        if (!this.run || this.isStale) return;
        if (what === 'chart' && this.run.deques) return this.say('There is no wall chart of a run by DFDeques: save its listing.');
        const {name, data: bytes} = this.saved(what), url = URL.createObjectURL(new Blob([bytes], {type: 'application/octet-stream'}));
        made('a', {href: url, download: name}).click();
        setTimeout(() => URL.revokeObjectURL(url), 10000);
        this.say(`${name}: ${grouped(bytes.length)} bytes`, true);
    }

    /** Puts the run on paper: heading, both drawings in light colours, and the wall chart, of DFDeques the listing. */
    paper() {
        const {run} = this, dark = document.documentElement.dataset.theme;
        if (!run) return;
        document.documentElement.dataset.theme = 'light';
        this.drawings.theme = new Theme(document.documentElement);
        this.drawings.draw(run, this.shown());
        const images = [$('timeline'), $('memory')].map((canvas) => made('img', {src: canvas.toDataURL(), alt: ''}));
        document.documentElement.dataset.theme = dark;
        this.drawings.theme = new Theme(document.documentElement);
        this.drawings.draw(run, this.shown());
        const most = 4000, lines = run.deques ? listing(run).split('\n').slice(0, most) : chart(run, 0, Math.min(run.log.length, most));
        const {p, K, M} = run.given, cut = run.log.length > most ? `, the first ${grouped(most)} turns` : '';
        $('paper').replaceChildren(made('h1', {}, `${this.name}: ${run.deques ? 'DFDeques' : 'AsyncDF'}, p ${p}, K ${grouped(K)}${M === null ? '' : `, M ${grouped(M)}`}; ${grouped(run.log.length)} turns, peak ${grouped(run.log.peak)}${cut}`),
            ...images, made('pre', {}, lines.join('\n')));
    }

    // Turns

    say(sentence, plain = false) {
        $('run-told').textContent = sentence;
        $('run-told').classList.toggle('plain', plain);
    }

    get within() {
        return $('stop').checked ? this.run.given.M : null;
    }

    /** Why turns ended, where that is worth a word. */
    why(answer) {
        const {M} = this.run.given;
        if (answer instanceof Refusal) this.say(short(answer));
        else if (answer === 'memory') this.say(`stopped: the next turn would hold more than M ${grouped(M)}`);
        else if (answer === 'list') this.say('the list is at its end');
        else if (answer === 'ended') this.say(`the run is over: ${grouped(this.run.turn)} turns, highest ${grouped(this.run.record.highest)}`, true);
        else this.say('');
    }

    advance(turns) {
        if (this.blocked()) return;
        this.halt();
        this.why(this.run.advance(this.rule, {turns, within: this.within}));
        this.refresh();
    }

    /** One turn on: that of the log where it has one, else the order's. */
    forward(turns) {
        if (this.blocked()) return;
        const {run} = this, known = Math.min(turns, run.log.length - run.turn);
        if (known > 0) this.jump(run.turn + known);
        else this.advance(turns);
    }

    byHand(worker) {
        if (this.blocked()) return;
        this.halt();
        const refused = this.run.take(worker, this.run.choiceOf(this.rule));
        this.say(refused ? `worker ${worker}: ${short(refused)}` : '');
        this.refresh();
    }

    jump(turn) {
        if (this.blocked()) return;
        this.halt();
        this.run.jump(Math.max(0, Math.min(Math.round(turn), this.run.log.length)));
        this.say('');
        this.refresh();
    }

    blocked() {
        return !this.run || this.isStale;
    }

    halt() {
        clearTimeout(this.going?.timer);
        cancelAnimationFrame(this.going?.frame);
        this.going = null;
        $('play').setAttribute('aria-pressed', 'false');
        $('play').querySelector('span').textContent = 'play';
        $('to-end').textContent = 'to the end';
    }

    play() {
        if (this.blocked()) return;
        if (this.going) return this.halt();
        const go = () => {
            const answer = this.run.advance(this.rule, {turns: 1, within: this.within});
            this.why(answer);
            this.refresh();
            if (answer === 'turns') this.going = {timer: setTimeout(go, 1000 / SECOND)};
            else this.halt();
        };
        $('play').setAttribute('aria-pressed', 'true');
        $('play').querySelector('span').textContent = 'halt';
        this.going = {};
        go();
    }

    toTheEnd() {
        if (this.blocked()) return;
        if (this.going) return this.halt();
        $('to-end').textContent = 'halt';
        const go = () => {
            const answer = this.run.advance(this.rule, {within: this.within, until: performance.now() + FRAME});
            this.refresh();
            if (answer === 'time') {
                this.going = {frame: requestAnimationFrame(go)};
                return;
            }
            this.halt();
            this.why(answer);
        };
        this.going = {};
        go();
    }

    useList() {
        const found = this.run.readOrder($('list-text').value);
        if (!(found instanceof Uint8Array)) {
            const why = found.refused ? short(found.refused) : `expected ${found.wanted}`;
            $('list-told').textContent = `turn ${found.turn} of the list, “${found.word.slice(0, 20)}”: ${why}. No turn was taken.`;
            return;
        }
        Object.assign(this.rule, {order: 'list', list: found, from: this.run.turn});
        $('list-dialog').close();
        this.say(`a list of ${grouped(found.length / 2)} turns, from turn ${grouped(this.run.turn + 1)} on`, true);
        this.refresh();
    }

    mark(i) {
        if (this.blocked()) return;
        const refused = this.run.mark(i);
        this.say(refused ? `mark ${i}: ${short(refused)}` : `mark ${i} is set at turn ${grouped(this.run.turn)}`, !refused);
        this.refresh();
    }

    back(i) {
        if (this.blocked()) return;
        this.halt();
        const refused = this.run.back(i);
        this.say(refused ? `mark ${i}: ${short(refused)}` : '');
        this.refresh();
    }

    swap() {
        if (this.blocked()) return;
        this.halt();
        this.run.swap();
        this.refresh();
    }

    choose(by) {
        if (this.blocked() || !this.run.deques) return;
        const count = Math.min(this.run.given.p, Math.max(1, this.run.record.deques().length));
        this.rule.chosen = Math.max(0, Math.min(count - 1, by));
        this.rule.choice = 'chosen';
        this.refresh();
    }

    // Drawing

    shown() {
        const {run, rule} = this, next = run.next(rule), seen = run.previews(rule);
        const with_ = (worker) => ({worker, preview: seen[worker] instanceof Refusal ? null : seen[worker]});
        return {next: next ? with_(next.worker) : null, hover: this.hover === null || this.hover >= run.given.p ? null : with_(this.hover), previews: seen, lines: this.lines, names: this.names, tab: this.tab,
            chosen: rule.choice === 'chosen' ? rule.chosen : -1, row: this.row, limitName: run.deques ? 'limit, every choice' : 'limit, every order'};
    }

    /** Draws once in the next frame, however often it is asked. */
    refresh() {
        if (this.asked || !this.run) return;
        this.asked = true;
        requestAnimationFrame(() => {
            this.asked = false;
            this.draw();
        });
    }

    draw() {
        const {run, drawings} = this, {p} = run.given, length = Math.max(run.log.length, run.other?.length ?? 0);
        this.row = p <= 4 ? 33 : p <= 8 ? 26 : 21;
        document.documentElement.style.setProperty('--row', `${this.row}px`);
        $('timeline-panel').style.height = $('previews').style.height = `${26 + p * this.row + 2}px`;
        drawings.view.fit(length);
        drawings.view.show(run.turn, length);
        drawings.theme ??= new Theme(document.documentElement);
        const shown = this.shown(), {theme} = drawings;
        previews(run, theme, shown);
        facts(run, theme);
        holders(run, theme, shown);
        stand(run, theme, shown);
        marks(run);
        tries(run, theme);
        this.controls();
        const seen = (shown.hover ?? shown.next)?.preview;
        const line = seen && seen.action >= 0 ? this.lines[seen.action] : 0;
        this.text.mark(line, 0);
        if (line && document.activeElement !== this.text.area) this.text.show(line);
        drawings.draw(run, shown);
        this.frames++;
        $('memory').setAttribute('aria-label', `memory held: ${run.record.held} after turn ${run.turn}, highest ${run.record.highest}, stacked by thread`);
    }

    controls() {
        const {run, rule} = this;
        $('turn').textContent = `turn ${grouped(run.turn)}`;
        $('of').textContent = run.turn < run.log.length ? `of ${grouped(run.log.length)}` : run.ended ? 'the end' : '';
        $('first').disabled = $('step-back').disabled = run.turn === 0;
        $('take').disabled = $('round').disabled = run.ended;
        for (const button of document.querySelectorAll('[data-order]')) button.setAttribute('aria-checked', String(button.dataset.order === rule.order));
        for (const button of document.querySelectorAll('[data-choice]')) button.setAttribute('aria-checked', String(button.dataset.choice === rule.choice));
        for (const kind of ['asyncdf', 'dfdeques']) $(kind).setAttribute('aria-checked', String(kind === this.kind));
        if (document.activeElement !== $('seed')) $('seed').value = String(rule.seed);
        if (document.activeElement !== $('choice-seed')) $('choice-seed').value = String(rule.choiceSeed);
        $('stop').disabled = run.given.M === null;
    }

    theme(name) {
        document.documentElement.dataset.theme = name;
        this.drawings.theme = null;
        try {
            localStorage.setItem('wivakkol-theme', name);
        } catch { /* a browser that keeps nothing of a page from the disk */ }
        this.refresh();
    }

    otherTheme() {
        this.theme(document.documentElement.dataset.theme === 'dark' ? 'light' : 'dark');
    }

    zoom(factor, around = this.run.turn) {
        this.drawings.view.zoom(factor, around, Math.max(this.run.log.length, this.run.other?.length ?? 0));
        this.refresh();
    }

    // What is pressed

    listen() {
        const on = (id, act) => $(id).addEventListener('click', act);
        addEventListener('click', (event) => {
            if (event.detail) event.target.closest('button')?.blur(); // after a click keys go to the page again
        });
        on('first', () => this.jump(0));
        on('step-back', () => this.jump(this.run.turn - 1));
        on('take', () => this.advance(1));
        on('round', () => this.advance(this.run.given.p));
        on('play', () => this.play());
        on('to-end', () => this.toTheEnd());
        on('fit', () => this.fit());
        on('open', () => $('file').click());
        on('copy-link', () => this.copyLink());
        on('theme', () => this.otherTheme());
        on('help', () => $('help-dialog').showModal());
        on('print', () => globalThis.print());
        on('swap', () => this.swap());
        on('save', () => this.menu($('save-menu').hidden));
        on('list-use', () => this.useList());
        on('list-close', () => $('list-dialog').close());
        for (const kind of ['asyncdf', 'dfdeques']) on(kind, () => this.scheduler(kind));
        this.listenToRows(on);
        this.listenToNumbers();
        this.listenToDrawings();
        this.listenToFiles();
        addEventListener('keydown', (event) => this.key(event));
        addEventListener('hashchange', () => this.fromHash());
        addEventListener('beforeprint', () => this.paper());
        new ResizeObserver(() => this.refresh()).observe(document.body);
    }

    scheduler(kind) {
        if (this.kind === kind) return;
        this.kind = kind;
        this.begin();
    }

    menu(open) {
        $('save-menu').hidden = !open;
        $('save').setAttribute('aria-expanded', String(open));
        if (open) $('save-menu').querySelector('button').focus();
    }

    listenToRows(on) {
        on('save-menu', (event) => event.target.dataset.save && this.save(event.target.dataset.save));
        on('previews', (event) => {
            const row = event.target.closest('button');
            if (row) this.byHand(Number(row.value));
        });
        on('marks', (event) => {
            const button = event.target.closest('button'), i = Number(button?.value);
            if (button) (this.run.marks[i] && !event.shiftKey ? this.back(i) : this.mark(i));
        });
        on('stand', (event) => {
            const deque = event.target.closest('.deque');
            if (deque) this.choose(Number(deque.value));
        });
        const hover = (event) => {
            const row = event.type === 'pointerleave' ? null : event.target.closest?.('#previews button'), worker = row ? Number(row.value) : null;
            if (worker === this.hover) return;
            this.hover = worker;
            this.refresh();
        };
        for (const name of ['pointermove', 'pointerleave', 'focusin']) $('previews').addEventListener(name, hover);
        $('previews').addEventListener('focusout', () => {
            this.hover = null;
            this.refresh();
        });
        for (const button of document.querySelectorAll('[data-tab]')) {
            button.addEventListener('click', () => {
                this.tab = button.dataset.tab;
                this.refresh();
            });
        }
    }

    listenToNumbers() {
        for (const id of ['p', 'K', 'b']) $(id).addEventListener('input', () => this.soon(() => this.begin(), 300));
        for (const id of ['p', 'K', 'b', 'text']) $(id).addEventListener('change', () => this.now());
        $('M').addEventListener('input', () => {
            const memory = this.numberOf('M', Number.MAX_SAFE_INTEGER);
            this.wrong(Number.isNaN(memory) ? 'M' : '', Number.isNaN(memory) ? 'M: a whole number is wanted' : '');
            if (!Number.isNaN(memory) && this.run) this.run.given.M = memory;
            this.refresh();
        });
        $('example').addEventListener('change', () => $('example').value && this.example($('example').value));
        for (const button of document.querySelectorAll('[data-order]')) button.addEventListener('click', () => this.setOrder(button.dataset.order));
        for (const button of document.querySelectorAll('[data-choice]')) {
            button.addEventListener('click', () => {
                this.rule.choice = button.dataset.choice;
                this.refresh();
            });
        }
        for (const [id, name] of [['seed', 'seed'], ['choice-seed', 'choiceSeed']]) {
            $(id).addEventListener('input', () => {
                const word = $(id).value.trim();
                $(id).classList.toggle('wrong', !/^\d{1,9}$/.test(word));
                if (/^\d{1,9}$/.test(word)) this.rule[name] = Number(word);
                this.refresh();
            });
        }
    }

    setOrder(name) {
        if (name === 'list') {
            if (this.blocked()) return;
            $('list-what').textContent = this.run.deques ? 'Worker and choice of each turn, as 0:0 1:2 0:0, as for wivakkol deques --order.' : 'The workers of the turns, as 0 1 0 1, as for wivakkol list --order.';
            $('list-told').textContent = '';
            $('list-dialog').showModal();
            return;
        }
        this.rule.order = name;
        this.refresh();
    }

    listenToDrawings() {
        for (const canvas of [$('timeline'), $('memory')]) {
            const at = (event) => {
                const box = canvas.getBoundingClientRect();
                return this.drawings.turnAt(event.clientX - box.left, box.width);
            };
            canvas.addEventListener('pointerdown', (event) => {
                canvas.setPointerCapture(event.pointerId);
                if (this.run) this.jump(at(event));
            });
            canvas.addEventListener('pointermove', (event) => {
                if (!this.run) return;
                if (event.buttons & 1) return this.jump(at(event));
                canvas.title = this.turnWords(Math.floor(at(event)));
            });
            canvas.addEventListener('wheel', (event) => {
                event.preventDefault();
                if (this.blocked()) return;
                const {view} = this.drawings, span = view.to - view.from, by = event.deltaX || (event.shiftKey ? event.deltaY : 0);
                if (by) view.move(span * by / 1000, Math.max(this.run.log.length, this.run.other?.length ?? 0));
                else this.zoom(1.0015 ** event.deltaY, at(event));
                this.refresh();
            }, {passive: false});
        }
    }

    /** A turn as the listing has it. */
    turnWords(i) {
        const {log} = this.run;
        if (!(i >= 0 && i < log.length)) return '';
        const what = log.thread[i] === NONE ? 'idle' : `thread ${log.thread[i]}, action ${log.action[i]}`;
        return `turn ${i + 1}: worker ${log.worker[i]}, ${what}, held ${grouped(log.held[i])}`;
    }

    listenToFiles() {
        $('file').addEventListener('change', () => {
            if ($('file').files[0]) this.file($('file').files[0]);
            $('file').value = '';
        });
        addEventListener('dragover', (event) => {
            event.preventDefault();
            document.body.classList.add('dropping');
        });
        addEventListener('dragleave', (event) => event.relatedTarget ?? document.body.classList.remove('dropping'));
        addEventListener('drop', (event) => {
            event.preventDefault();
            document.body.classList.remove('dropping');
            const [file] = event.dataTransfer.files;
            if (file) this.file(file);
            else if (event.dataTransfer.getData('text')) this.bring(new TextEncoder().encode(event.dataTransfer.getData('text')), 'what was dropped');
        });
    }

    key(event) {
        const {target, key} = event;
        if (key === 'Escape') {
            this.menu(false);
            target.blur?.();
            return;
        }
        if (event.ctrlKey || event.metaKey || event.altKey || target.closest('input:not([type=checkbox]), textarea, select, dialog')) return;
        if (target.closest('button, input') && (key === ' ' || key === 'Enter')) return;
        if (!this.run) return;
        const act = this.pending ? this.afterMark(key) : this.actOf(key, event.shiftKey);
        if (!act) return;
        event.preventDefault();
        act();
    }

    afterMark(key) {
        const {pending} = this;
        this.pending = '';
        return /^[0-9]$/.test(key) ? () => (pending === 'm' ? this.mark(Number(key)) : this.back(Number(key))) : this.actOf(key, false);
    }

    actOf(key, shift) {
        const {run} = this, {p} = run.given, wait = (letter) => () => {
            this.pending = letter;
            this.say(letter === 'm' ? 'set a mark: 0 to 7' : 'go back to a mark: 0 to 7', true);
        };
        if (/^[0-9a-f]$/i.test(key) && key.length === 1) return () => this.byHand(parseInt(key, 16));
        return {
            ' ': () => this.advance(1), ArrowRight: () => this.forward(shift ? p : 1), ArrowLeft: () => this.jump(run.turn - (shift ? p : 1)), PageDown: () => this.forward(64),
            PageUp: () => this.jump(run.turn - 64), Home: () => this.jump(0), End: () => this.jump(run.log.length), p: () => this.play(), r: () => this.toTheEnd(), m: wait('m'), g: wait('g'),
            x: () => this.swap(), '[': () => this.choose(this.rule.chosen - 1), ']': () => this.choose(this.rule.chosen + 1), '+': () => this.zoom(0.5), '=': () => this.zoom(0.5), '-': () => this.zoom(2),
            z: () => this.whole(), t: () => this.toggleTable(), '/': () => $('text').focus(), o: () => $('file').click(), l: () => this.copyLink(), n: () => this.otherTheme(), '?': () => $('help-dialog').showModal(),
        }[key];
    }

    whole() {
        this.drawings.view.whole = true;
        this.refresh();
    }

    toggleTable() {
        document.querySelector('main').classList.toggle('no-table');
        this.refresh();
    }
}

/** Starts: with a link, with what the command put here, or with an example. */
async function start() {
    let theme = matchMedia('(prefers-color-scheme: dark)').matches ? 'dark' : 'light';
    try {
        theme = localStorage.getItem('wivakkol-theme') ?? theme;
    } catch { /* as above */ }
    document.documentElement.dataset.theme = theme;
    const wasm = await unpacked(encoded($('packed').textContent), 'gzip');
    const screen = new Screen(await load(wasm, data('facts'))), given = data('start');
    globalThis.wivakkol = screen; // for the console and for tests
    screen.example('repeats', {M: 200});
    if (given) {
        screen.setNumbers({M: null, b: null, ...given});
        screen.bring(encoded(given.table), given.name);
    }
    await screen.fromHash();
}

start().catch((fault) => {
    $('run-told').textContent = `The screen did not start: ${fault.message}`;
    throw fault;
});
