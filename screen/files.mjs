// What comes in and goes out as a file: tables in any form, the listing, the order, the wall chart, the trace. Nothing of the page is here either.
import {Refusal} from './calls.mjs';
import {NONE} from './run.mjs';

const NAMES = [[[0x89, 0x50, 0x4e, 0x47], 'a PNG picture'], [[0xff, 0xd8, 0xff], 'a JPEG picture'], [[0x47, 0x49, 0x46, 0x38], 'a GIF picture'], [[0x25, 0x50, 0x44, 0x46], 'a PDF'],
    [[0x50, 0x4b, 3, 4], 'a packed file (zip)'], [[0x1f, 0x8b], 'a packed file (gzip)'], [[0x42, 0x4d], 'a BMP picture'], [[0x52, 0x49, 0x46, 0x46], 'a picture or sound (RIFF)']];

/** Something that is no table, with a sentence for who brought it. */
export class NoTable {
    constructor(message) {
        this.message = message;
    }
}

function isWide(data) {
    const marked = (data[0] === 0xff && data[1] === 0xfe) || (data[0] === 0xfe && data[1] === 0xff);
    const pairs = Math.min(8, data.length >> 1);
    const zeros = (odd) => Array.from({length: pairs}, (_, i) => data[2 * i + odd]).every((byte, i) => byte === 0 && data[2 * i + 1 - odd] >= 9 && data[2 * i + 1 - odd] < 127);
    return marked || (pairs >= 4 && data.length % 2 === 0 && (zeros(1) || zeros(0)));
}

const decoded = (data) => new TextDecoder('utf-8', {ignoreBOM: true}).decode(data);

/** Bytes from a file: {text}, {state} of a run that was saved, or what they are where they are neither. */
export function readFile(calls, data) {
    const {constants} = calls;
    for (const [magic, name] of NAMES) if (magic.every((byte, i) => data[i] === byte)) return new NoTable(`This is ${name}, not a table.`);
    if (isWide(data)) return new NoTable('This text is in UTF-16. Save it as UTF-8 (or ASCII) and bring it again.');
    const isText = data.length > 1 && data[1] >= 9; // n is at most 1,024, so that the second byte of a table is below 5
    if (!isText) {
        const text = calls.disassemble(data);
        return text instanceof Refusal ? text : {text: decoded(text)};
    }
    if (data[0] === 0x7b) {
        try {
            return {state: JSON.parse(new TextDecoder().decode(data))};
        } catch {
            return new NoTable('This looks like a run that was saved, but it is cut off or was changed.');
        }
    }
    const table = calls.assemble(data); // before an editor sees it, which may hide a carriage return
    return table instanceof Refusal ? Object.assign(table, {text: data.length > constants.TEXT_LONGEST ? null : decoded(data)}) : {text: decoded(data)};
}

const KINDS = ['end', 'work', 'alloc', 'free', 'fork', 'join'];
const SAID = {SAID_IDLE: 'idle', SAID_QUOTA: 'quota', SAID_WAIT: 'wait'};

/** The name of an action, as a listing has it. */
export function kindName(constants, kind) {
    return KINDS.find((name) => constants['KIND_' + name.toUpperCase()] === kind) ?? 'none';
}

/** What a turn of a log was, in one word. */
export function nameOf(run, log, i) {
    const {constants, record} = run, said = log.said[i];
    for (const [name, word] of Object.entries(SAID)) if (constants[name] === said) return word;
    return kindName(constants, record.kindOf(log.action[i]));
}

/** The listing of a try, as turnlist and dequelist print it. */
export function listing(run, log = run.log) {
    const lines = [`table ${run.threads} ${run.actions} serial ${run.serial} depth ${run.depth}`];
    for (let i = 0; i < log.length; i++) {
        const about = log.thread[i] === NONE ? '- -' : `${log.thread[i]} ${log.action[i]}`;
        lines.push(`${i + 1} ${log.worker[i]} ${about} ${nameOf(run, log, i)} ${log.held[i]}`);
    }
    lines.push(`${log.ended ? 'done' : 'open'} ${log.length} peak ${log.peak}`);
    return lines.join('\n') + '\n';
}

/** The order of a try, for wivakkol list --order @FILE. */
export function order(run, log = run.log) {
    const words = Array.from(log.worker.subarray(0, log.length), (worker, i) => (run.deques ? `${worker}:${log.choice[i]}` : String(worker)));
    const lines = [];
    for (let i = 0; i < words.length; i += 32) lines.push(words.slice(i, i + 32).join(' '));
    return lines.join('\n') + '\n';
}

/** Lines of the wall chart of an AsyncDF run, from one turn to another. */
export function chart(run, from, to, log = run.log) {
    const lines = [], record = run.lookAt(log, from);
    for (let turn = from; turn <= to; turn++) {
        if (turn > from) record.look(log.worker, log.choice, turn - 1, turn);
        lines.push(record.chart());
    }
    return lines;
}

const TICK = 1000; // a turn's length in a trace, in microseconds

/** JSON as Python writes it, which is how tools/picture.py writes a trace. */
function spaced(value) {
    if (typeof value !== 'object') return JSON.stringify(value);
    return `{${Object.entries(value).map(([name, inner]) => `${JSON.stringify(name)}: ${spaced(inner)}`).join(', ')}}`;
}

/** From when to when each worker has each thread, with turns counted from 1; a worker that gives its thread up has it through that turn. */
function stretches(run, log) {
    const open = new Map(), done = [];
    const close = (worker, until) => {
        const {thread, since} = open.get(worker);
        open.delete(worker);
        if (since <= until) done.push({worker, thread, since, until});
    };
    for (let i = 0; i < log.length; i++) {
        const worker = log.worker[i], thread = log.thread[i], keeps = log.keeps[i];
        if (thread === NONE) continue;
        if (!open.has(worker)) open.set(worker, {thread, since: i + 1});
        if (keeps === thread) continue;
        close(worker, i + 1);
        if (keeps !== NONE) open.set(worker, {thread: keeps, since: i + 2});
    }
    for (const worker of [...open.keys()]) close(worker, log.length);
    const seen = new Set(log.thread.subarray(0, log.length)); // a listing does not name a thread that has had no turn
    return done.filter(({thread}) => seen.has(thread));
}

/** The run as trace events in Chrome's format, as tools/picture.py --trace writes them of the listing. */
export function trace(run, log = run.log) {
    const events = [{ph: 'M', pid: 1, name: 'process_name', args: {name: 'run'}}];
    for (let worker = 0; worker < run.given.p; worker++) {
        events.push({ph: 'M', pid: 1, tid: worker, name: 'thread_name', args: {name: `worker ${worker}`}});
        events.push({ph: 'M', pid: 1, tid: worker, name: 'thread_sort_index', args: {sort_index: worker}});
    }
    for (const {worker, thread, since, until} of stretches(run, log)) {
        events.push({ph: 'X', pid: 1, tid: worker, ts: (since - 1) * TICK, dur: (until - since + 1) * TICK, name: `thread ${thread}`, cat: 'thread'});
    }
    for (let i = 0; i < log.length; i++) {
        const told = log.thread[i] === NONE ? {} : {thread: log.thread[i], action: log.action[i]};
        events.push({ph: 'X', pid: 1, tid: log.worker[i], ts: i * TICK, dur: TICK, name: nameOf(run, log, i), cat: 'turn', args: {turn: i + 1, ...told, held: log.held[i]}});
    }
    for (let i = 0; i < log.length; i++) events.push({ph: 'C', pid: 1, ts: i * TICK, name: 'memory held', args: {units: log.held[i]}});
    for (const turn of [0, log.length]) events.push({ph: 'C', pid: 1, ts: turn * TICK, name: 'S1', args: {units: run.serial}});
    events.sort((a, b) => (a.ts ?? -1) - (b.ts ?? -1));
    return `{"displayTimeUnit":"ms","traceEvents":[\n${events.map(spaced).join(',\n')}\n]}\n`;
}

/** Names of threads: what a text says behind `thread N #`, as `wivakkol dis` writes the names of a design. */
export function namesOf(text) {
    const found = [];
    for (const [, thread, name] of text.matchAll(/^[ \t]*thread[ \t]+(\d{1,4})[ \t]*#[ \t]*([^\n]*?)[ \t]*$/gm)) found[Number(thread)] = name.slice(0, 64);
    return found;
}

/** The line of each action of a text, counted from 1: actions have a line each, in the order of their numbers. */
export function actionLines(text) {
    const found = [];
    text.split('\n').forEach((line, i) => {
        const word = line.split('#')[0].trim().split(/[ \t]+/)[0];
        if (word && word !== 'thread') found.push(i + 1);
    });
    return found;
}

/** Of each action of the table that runs the action of the table as given that it is, -1 for what fills it out. */
export function givenActions(run) {
    const {record, constants, actions, givenThreads} = run, found = new Int32Array(actions).fill(-1);
    let given = 0, thread = 0;
    for (let action = 0; action < actions && thread < givenThreads; action++) {
        const {kind, argument} = record.actionOf(action);
        const added = (kind === constants.KIND_FORK || kind === constants.KIND_JOIN) && argument >= givenThreads;
        if (!added) found[action] = given++;
        if (kind === constants.KIND_END) thread++;
    }
    return found;
}

/** A refusal of a turn or a mark in a few words: what to do is plain. */
export function short(refusal) {
    return `refused ${refusal.number}: ${refusal.meaning}`;
}

/** A refusal in one sentence with its place in the text where it has one. */
export function told(calls, refusal, text = null) {
    const {constants} = calls;
    if (refusal.number === constants.REFUSED_LINE) return {line: refusal.line, sentence: expected(constants, refusal.row)};
    const filling = text !== null && refusal.number === constants.REFUSED_FILLING;
    return {line: filling ? actionLines(text)[refusal.place] ?? null : refusal.line, sentence: `refused ${refusal.number}: ${refusal.meaning}; ${refusal.advice}`};
}

/** What the assembler expected in a line, and what an editor may not show. */
function expected(constants, row) {
    const wanted = {
        [constants.EXPECTED_KEYWORD]: 'expected thread, alloc, free, fork, join, work or end',
        [constants.EXPECTED_NUMBER]: 'expected a number up to 16777215',
        [constants.EXPECTED_END]: 'expected the end of the line',
        [constants.EXPECTED_THREAD]: `expected thread ${row[constants.EXPECTED_NEXT]}`,
    }[row[constants.EXPECTED]];
    const unseen = row[constants.UNSEEN];
    if (unseen === constants.UNSEEN_RETURN) return 'refused 63: a carriage return; lines end with a newline alone';
    if (unseen === constants.UNSEEN_MARK) return 'refused 63: a byte order mark; a text begins without one';
    return `refused 63: ${wanted}`;
}
