// The panels beside the drawings: each is made from the run as it stands.
import {Refusal} from './calls.mjs';
import {actionLines, chart, givenActions, kindName} from './files.mjs';
import {grouped} from './drawings.mjs';

export const $ = (id) => document.getElementById(id);

/** An element with its properties and what is in it. */
export function made(tag, properties = {}, ...inside) {
    const element = document.createElement(tag);
    for (const [name, value] of Object.entries(properties)) {
        if (name === 'style' || name.includes('-')) element.setAttribute(name, value);
        else element[name] = value;
    }
    element.append(...inside.filter((one) => one !== null));
    return element;
}

const square = (theme, thread) => made('span', {className: 'thread', style: `background:${theme.thread(thread)}`});

/** An action in words: its kind and argument. */
export function actionWords(run, action) {
    const {kind, argument} = run.record.actionOf(action), name = kindName(run.constants, kind);
    return name === 'end' || name === 'work' ? name : `${name} ${argument}`;
}

/** Where the actions of the table that runs stand in the text. */
export function linesOf(run, text) {
    const given = givenActions(run), lines = actionLines(text);
    return Array.from(given, (action) => (action < 0 ? 0 : lines[action] ?? 0));
}

// What each worker would do

function would(run, seen) {
    const {constants} = run;
    if (seen instanceof Refusal) return {text: seen.number === constants.REFUSED_ENDED ? 'the run is over' : `refused ${seen.number}`, bold: ''};
    if (seen.said === constants.SAID_IDLE) return {text: run.deques ? 'idle: nothing there to rob' : 'idle: no thread is ready', bold: ''};
    if (seen.said === constants.SAID_WAIT) return {text: '', bold: `wait for ${seen.value}`};
    const words = actionWords(run, seen.action);
    return seen.said === constants.SAID_QUOTA ? {text: ' put back', bold: words} : {text: '', bold: words};
}

function previewRow(run, theme, shown, worker) {
    const seen = shown.previews[worker], {bold, text} = would(run, seen), thread = run.record.threadOf(worker), real = !(seen instanceof Refusal), {M} = run.given;
    const busy = real && seen.thread >= 0, line = busy ? shown.lines[seen.action] : 0, change = real ? seen.held - run.record.held : 0;
    const above = real && M !== null && seen.held > M, named = busy && shown.names[seen.thread] ? ` ${shown.names[seen.thread]}` : '';
    const holds = made('span', {}, made('kbd', {}, worker.toString(16).toUpperCase()), thread < 0 ? ' –' : square(theme, thread), thread < 0 ? null : String(thread));
    const what = made('span', {className: 'would'}, busy ? square(theme, seen.thread) : null, busy ? `${seen.thread} ` : null, made('b', {}, bold), text,
        busy ? made('small', {}, ` #${seen.action}${line ? ` L${line}` : ''}${named}`) : null, real && seen.refused ? made('small', {className: 'above'}, ` refused ${seen.refused}: b`) : null);
    const after = made('span', {className: above ? 'n above' : 'n'}, change ? made('small', {}, `${change > 0 ? '+' : '−'}${grouped(Math.abs(change))} `) : null, above ? '▲ ' : null, real ? grouped(seen.held) : '');
    const cells = [holds, what, after, made('span', {className: 'n'}, real ? grouped(seen.quota) : ''), made('span', {className: 'n passed'}, real && seen.passed ? String(seen.passed) : '')];
    return {cells, label: `worker ${worker}: ${bold} ${text}${busy ? ` of thread ${seen.thread}${named}` : ''}${line ? `, line ${line}` : ''}${real ? `, held after it ${seen.held}` : ''}${above ? ', above M' : ''}`};
}

export function previews(run, theme, shown) {
    const panel = $('previews'), {p} = run.given;
    panel.classList.toggle('no-passes', run.deques);
    if (panel.children.length !== p + 1) {
        const head = made('div', {className: 'head'}, ...['holds', 'would now', 'held after', 'quota left', 'passes'].map((word, i) => made('span', {className: i > 1 ? (i === 4 ? 'n passed' : 'n') : ''}, word)));
        panel.replaceChildren(head, ...Array.from({length: p}, (_, worker) => made('button', {value: String(worker)})));
    }
    for (let worker = 0; worker < p; worker++) {
        const button = panel.children[worker + 1], {cells, label} = previewRow(run, theme, shown, worker);
        button.replaceChildren(...cells);
        button.className = shown.next?.worker === worker ? 'next' : '';
        button.setAttribute('aria-label', label);
        button.title = label;
    }
}

// Facts and limits

export function facts(run, theme) {
    const rows = [], add = (name, value, dash = null) => rows.push(made('dt', {}, dash ? made('i', {style: `border-color:${dash[0]};border-top-style:${dash[1]}`}) : null, name), made('dd', {}, value));
    const filled = run.threads !== run.givenThreads;
    add('threads, actions', `${grouped(run.threads)} · ${grouped(run.actions)}`);
    add('D · N', `${grouped(run.depth)} · ${grouped(run.nested)}`);
    if (filled) rows.push(made('dt', {className: 'wide'}, `filled out: ${grouped(run.threads - run.givenThreads)} dummy threads, since an alloc is above K`));
    rows.push(made('hr'));
    add('S1, one worker', grouped(run.serial), [theme.serial, 'dashed']);
    add(run.deques ? 'limit, every choice' : 'limit, every order', grouped(run.limits.every), [theme.limit, 'dotted']);
    if (run.limits.near !== undefined) add('limit, choices all 0', grouped(run.limits.near), [theme.limit, 'dashed']);
    if (run.limits.paced !== undefined) add(`limit, b ${run.given.b}`, grouped(run.limits.paced), [theme.limit, 'dashed']);
    add('limit, any p', grouped(run.limits.parallel));
    if (run.given.M !== null) add('board M', grouped(run.given.M), [theme.memory, 'solid']);
    if (!run.deques) {
        add('turns in rounds ≤', grouped(run.most));
        rows.push(made('hr'));
        add('these turns keep b', run.record.kept ? grouped(run.record.kept) : 'any');
    }
    $('facts').replaceChildren(...rows);
}

// Memory by thread

const STATUS = [['UNBORN', 'unborn', '--line'], ['READY', 'ready', '#56b4e9'], ['HELD', 'held', '#e69f00'], ['WAITING', 'waiting', '#cc79a7'], ['ENDED', 'ended', '--grey']];

function statusWords(run, thread, holder) {
    const {constants, record} = run, status = record.status(thread), [, name] = STATUS.find(([key]) => constants['STATUS_' + key] === status);
    if (status === constants.STATUS_ENDED || status === constants.STATUS_UNBORN) return name;
    return `${name === 'held' ? `held by w${holder.get(thread)}` : name}, next ${actionWords(run, record.next(thread))}`;
}

export function holders(run, theme, {names}) {
    const {record, constants, threads} = run, counts = new Map(), all = [], holder = new Map();
    for (let w = 0; w < run.given.p; w++) if (record.threadOf(w) >= 0) holder.set(record.threadOf(w), w);
    for (let t = 0; t < threads; t++) {
        counts.set(record.status(t), (counts.get(record.status(t)) ?? 0) + 1);
        if (record.amount(t)) all.push(t);
    }
    all.sort((a, b) => record.amount(b) - record.amount(a) || a - b);
    const most = all.length ? record.amount(all[0]) : 1, shown = all.slice(0, 14);
    const rows = shown.map((t) => made('div', {className: 'row'}, made('span', {}, square(theme, t), `thread ${t}`),
        made('span', {className: 'meter', style: `width:${Math.max(2, 100 * record.amount(t) / most)}%;background:${theme.thread(t)}`}), made('span', {className: 'n'}, grouped(record.amount(t))),
        made('span', {className: 's'}, names[t] ? `${names[t]}, ` : null, statusWords(run, t, holder))));
    if (all.length > shown.length) {
        const left = all.slice(shown.length).reduce((sum, t) => sum + record.amount(t), 0);
        rows.push(made('div', {className: 'row'}, made('span', {className: 's'}, `${all.length - shown.length} more`), made('span'), made('span', {className: 'n'}, grouped(left))));
    }
    if (!all.length) rows.push(made('span', {className: 's'}, 'no thread holds anything'));
    const parts = STATUS.map(([key, name, colour]) => ({name, count: counts.get(constants['STATUS_' + key]) ?? 0, colour: colour.startsWith('--') ? `var(${colour})` : colour}));
    $('holders').replaceChildren(
        made('div', {className: 'now'}, made('h2', {}, 'held by thread'), made('span', {}, made('b', {id: 'held'}, grouped(record.held)), ' now'), made('span', {}, `highest ${grouped(record.highest)}`)),
        made('div', {className: 'rows'}, ...rows),
        made('div', {className: 'statuses', 'aria-hidden': 'true'}, ...parts.map(({count, colour}) => made('span', {style: `flex:${count};background:${colour}`}))),
        made('div', {className: 'key'}, ...parts.map(({name, count, colour}) => made('span', {}, made('i', {style: `background:${colour}`}), made('b', {}, String(count)), ` ${name}`))));
}

// The run as it stands

function chartPanel(run) {
    const {p} = run.given, from = Math.max(0, run.turn - 6), lines = chart(run, from, run.turn);
    const head = ` turn${Array.from({length: 16}, (_, w) => (w < p ? `w${w}` : '').padStart(4)).join('')}${'held'.padStart(14)}`.padStart(84);
    const pre = made('pre', {}, made('span', {className: 'h'}, head + '\n'));
    lines.forEach((line, i) => pre.append(i === lines.length - 1 ? made('b', {}, line) : line + '\n'));
    return pre;
}

function dequesPanel(run, theme, shown) {
    const found = run.record.deques(), {p} = run.given, box = made('div', {className: 'deques'});
    found.forEach(({owner, held, threads}, i) => {
        const own = made('div', {className: 'own'}, owner < 0 ? 'no owner' : `w${owner} `, held < 0 ? null : square(theme, held), held < 0 ? null : String(held));
        const rows = threads.slice(0, 5).map((t) => made('div', {}, square(theme, t), String(t)));
        if (threads.length > 5) rows.push(made('div', {}, `… ${threads.length - 5} more`));
        box.append(made('button', {className: i === shown.chosen ? 'deque chosen' : 'deque', value: String(i), disabled: i >= p, 'aria-label': `deque ${i} from the left${i === shown.chosen ? ', chosen' : ''}`}, made('b', {}, String(i)), own, ...rows));
    });
    return made('div', {}, made('small', {}, 'From the left, each from the top. A worker without a thread robs the bottom of the deque at its place: click one, or [ and ].'), found.length ? box : made('p', {}, 'no deque'));
}

function listPanel(run, theme, {names}) {
    const {record, constants} = run, box = made('div', {className: 'chips'});
    for (const t of record.threads()) {
        const status = record.status(t), name = status === constants.STATUS_WAITING ? 'waiting' : status === constants.STATUS_HELD ? 'held' : 'ready';
        box.append(made('span', {className: `chip ${name}`, title: `thread ${t}${names[t] ? ` ${names[t]}` : ''}, ${name}, holds ${record.amount(t)}, next ${actionWords(run, record.next(t))}`}, square(theme, t), String(t)));
    }
    const order = run.deques ? 'The lines of the deques from the left; a thread that waits stands in none.' : 'The list, earliest in serial order first. Bold: held by a worker; dashed: waiting.';
    return made('div', {}, made('small', {}, order), box.children.length ? box : made('p', {}, 'no thread'));
}

function recordPanel(run) {
    const {record, constants} = run, box = made('div', {id: 'record'}), add = (name, value) => box.append(made('div', {}, `${name} ${value}`));
    add('p', record.p);
    add('K', record.quota);
    add('turns', record.turns);
    add('held', record.held);
    add('highest', record.highest);
    add('leftmost', record.word(constants.AT_LEFTMOST));
    add('first', record.word(constants.AT_FIRST));
    add('busy', record.word(constants.AT_BUSY));
    for (let w = 0; w < run.given.p; w++) add(`w${w}: thread, quota left`, `${record.threadOf(w) < 0 ? '–' : record.threadOf(w)}, ${record.quotaOf(w)}`);
    for (let t = 0; t < Math.min(run.threads, 256); t++) {
        add(`${t}: status next amount`, `${record.status(t)} ${record.next(t)} ${record.amount(t)}`);
    }
    if (run.threads > 256) add('', `and ${run.threads - 256} threads more`);
    return box;
}

export function stand(run, theme, shown) {
    const tabs = run.deques ? ['deques', 'list', 'record'] : ['chart', 'list', 'record'], tab = tabs.includes(shown.tab) ? shown.tab : tabs[0];
    for (const button of document.querySelectorAll('[data-tab]')) {
        button.hidden = !tabs.includes(button.dataset.tab);
        button.setAttribute('aria-selected', String(button.dataset.tab === tab));
    }
    const panel = tab === 'chart' ? chartPanel(run) : tab === 'deques' ? dequesPanel(run, theme, shown) : tab === 'list' ? listPanel(run, theme, shown) : recordPanel(run);
    $('stand').replaceChildren(panel);
}

// Marks and tries

export function marks(run) {
    const box = $('marks');
    if (box.children.length !== run.marks.length) box.replaceChildren(...run.marks.map((_, i) => made('button', {value: String(i)})));
    run.marks.forEach((mark, i) => {
        const button = box.children[i];
        button.className = mark ? 'set' : '';
        button.replaceChildren(made('b', {}, String(i)), made('small', {}, mark ? grouped(mark.turn) : 'set'));
        button.setAttribute('aria-label', mark ? `mark ${i}, turn ${mark.turn}: go back` : `mark ${i}: set`);
        button.title = mark ? `turn ${mark.turn}: click to go back, shift click to set it anew` : 'click to set';
    });
}

function tryRow(name, rules, log, colour, style) {
    const cells = [log.peak, log.length, log.idle, log.quota, log.wait].map((value) => made('td', {}, grouped(value)));
    return made('tr', {}, made('td', {}, made('i', {style: `border-color:${colour};border-top-style:${style}`}), made('b', {}, name), ` ${rules}`), ...cells, made('td', {}, log.ended ? 'ended' : 'open'));
}

export function tries(run, theme) {
    const {log, other} = run, head = made('tr', {}, ...[other ? `same up to turn ${grouped(run.same())}` : 'tries', 'peak', 'turns', 'idle', 'quota', 'wait', ''].map((word) => made('th', {}, word)));
    const rows = [head, tryRow('this', run.told(log), log, theme.text, 'solid')];
    if (other) {
        rows.push(tryRow('other', run.told(other), other, theme.other, 'dashed'));
        const less = (name) => log[name] - other[name], signed = (value) => (value > 0 ? `+${grouped(value)}` : value < 0 ? `−${grouped(-value)}` : '0');
        rows.push(made('tr', {}, made('td', {}, 'this − other'), ...['peak', 'length', 'idle', 'quota', 'wait'].map((name) => made('td', {}, signed(less(name)))), made('td')));
    } else {
        rows.push(made('tr', {}, made('td', {className: 'hint', colSpan: 7}, 'Step back, or go back to a mark, and take other turns: the old ones stay here as the other try.')));
    }
    $('tries').replaceChildren(...rows);
    $('swap').disabled = !other;
}

// The text

export class TextPanel {
    constructor(changed) {
        this.area = $('text');
        this.count = 0;
        this.area.addEventListener('input', changed);
        this.area.addEventListener('scroll', () => this.place());
        Object.assign(this, {next: 0, refused: 0});
    }

    put(text) {
        this.area.value = text;
        this.number();
        this.area.scrollTop = 0;
    }

    /** Numbers for the lines, anew only where there are more or fewer. */
    number() {
        const count = this.area.value.split('\n').length;
        if (count === this.count) return;
        this.count = count;
        $('gutter').textContent = Array.from({length: count}, (_, i) => i + 1).join('\n');
    }

    mark(next, refused) {
        Object.assign(this, {next, refused});
        this.place();
    }

    place() {
        const top = this.area.scrollTop;
        $('gutter').style.transform = `translateY(${-top}px)`;
        for (const [id, line] of [['line-next', this.next], ['line-refused', this.refused]]) {
            $(id).style.display = line ? 'block' : 'none';
            $(id).style.top = `${4 + (line - 1) * 16 - top}px`;
        }
    }

    /** That a line is in view. */
    show(line) {
        const y = (line - 1) * 16, {scrollTop, clientHeight} = this.area;
        if (y < scrollTop || y > scrollTop + clientHeight - 24) this.area.scrollTop = Math.max(0, y - clientHeight / 3);
    }
}

export const KEYS = [['space', 'take the turn of the order'], ['→ ←', 'one turn on, one back'], ['shift → ←', 'a round on, a round back'], ['PageDown PageUp', '64 turns'], ['Home End', 'the beginning, the last turn taken'],
    ['0–9 a–f', 'a turn of that worker'], ['p', 'play, halt'], ['r', 'to the end, halt'], ['m 0–7', 'set a mark'], ['g 0–7', 'go back to a mark'], ['x', 'swap the tries'], ['[ ]', 'the deque to rob'],
    ['+ − z', 'nearer, farther, all turns'], ['t', 'show or hide the table'], ['/', 'into the text; Esc out'], ['o', 'open a file'], ['l', 'copy the link'], ['n', 'light or dark'], ['?', 'these keys']];
