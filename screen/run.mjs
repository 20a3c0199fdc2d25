// A run: its log, orders, two tries, marks and the link. Every number in it is an answer of a call; nothing of the page is here.
import {AsyncRecord, DequeRecord, Refusal} from './calls.mjs';

export const NONE = 65535;
export const MOST_TURNS = 999999; // what a line of the wall chart has room for
const EVERY = 1024; // turns between two copies of the record
const LINK = 1; // the version of a link
const COLUMNS = {worker: Uint8Array, choice: Uint8Array, said: Uint8Array, thread: Uint16Array, action: Uint16Array, keeps: Uint16Array, held: Float64Array};

/** The turns of a try: what each said, the thread that its worker keeps and memory held after it; and how they were chosen, in segments. */
export class Log {
    constructor(room = EVERY) {
        this.length = 0;
        this.copies = [];
        this.segments = [];
        this.ended = false;
        Object.assign(this, {peak: 0, idle: 0, quota: 0, wait: 0});
        for (const [name, array] of Object.entries(COLUMNS)) this[name] = new array(room);
    }

    grow() {
        for (const [name, array] of Object.entries(COLUMNS)) {
            const old = this[name];
            this[name] = new array(2 * old.length);
            this[name].set(old);
        }
    }

    count(constants, i) {
        const said = this.said[i];
        if (said === constants.SAID_IDLE) this.idle++;
        else if (said === constants.SAID_QUOTA) this.quota++;
        else if (said === constants.SAID_WAIT) this.wait++;
        if (this.held[i] > this.peak) this.peak = this.held[i];
    }

    /** The first turns of a log, as one of its own. */
    front(constants, turns) {
        const front = new Log(Math.max(EVERY, turns));
        for (const name of Object.keys(COLUMNS)) front[name].set(this[name].subarray(0, turns));
        front.copies = this.copies.slice(0, Math.floor(turns / EVERY) + 1);
        front.length = turns;
        front.ended = this.ended && turns === this.length;
        for (let i = 0; i < turns; i++) front.count(constants, i);
        let left = turns;
        for (const [code, count] of this.segments) {
            if (left > 0) front.segments.push([code, Math.min(left, count)]);
            left -= count;
        }
        return front;
    }

    same(other, i) {
        return this.worker[i] === other.worker[i] && this.choice[i] === other.choice[i];
    }
}

/** A number of 32 bits from a seed and a turn, so that a random order needs no state. */
export function mixed(seed, turn) {
    let x = (Math.imul(seed + 1, 0x27d4eb2f) ^ Math.imul(turn + 1, 0x9e3779b9)) >>> 0;
    x = Math.imul(x ^ (x >>> 16), 0x85ebca6b);
    x = Math.imul(x ^ (x >>> 13), 0xc2b2ae35);
    return (x ^ (x >>> 16)) >>> 0;
}

/** How turns are chosen: `order` is rounds, random, worst or list, and of DFDeques `choice` is zero, random or chosen. */
export function rules() {
    return {order: 'rounds', seed: 1, list: null, from: 0, choice: 'zero', choiceSeed: 1, chosen: 0};
}

const HAND = 'h';
const ORDER_CODES = {rounds: 'r', random: 's', worst: 'w', list: HAND};
const CHOICE_CODES = {zero: 'z', random: 's', chosen: 'c'};

function codeOf(rule, deques) {
    if (rule.order === 'list') return HAND;
    const order = ORDER_CODES[rule.order] + (rule.order === 'random' ? rule.seed : '');
    if (!deques) return order;
    return order + '/' + CHOICE_CODES[rule.choice] + (rule.choice === 'random' ? rule.choiceSeed : rule.choice === 'chosen' ? rule.chosen : '');
}

function ruleOf(code, deques) {
    const found = (deques ? /^([rsw])(\d{0,10})\/([zsc])(\d{0,10})$/ : /^([rsw])(\d{0,10})$/).exec(code);
    if (!found) return null;
    const named = (codes, letter) => Object.keys(codes).find((name) => codes[name] === letter);
    const rule = {...rules(), order: named(ORDER_CODES, found[1]), seed: Number(found[2] || 0)};
    if (deques) Object.assign(rule, {choice: named(CHOICE_CODES, found[3]), choiceSeed: Number(found[4] || 0), chosen: Number(found[4] || 0)});
    return rule;
}

export class Run {
    /** Begins a run of `given`: kind (asyncdf or dfdeques), table, p, K, b (or null) and M (or null). A refusal changes nothing. */
    static begin(calls, given) {
        const deques = given.kind === 'dfdeques';
        const running = calls.mayBegin(given.table, given.p, given.K, deques ? null : given.b);
        return running instanceof Refusal ? running : new Run(calls, given, running);
    }

    constructor(calls, given, running) {
        const {constants} = calls;
        Object.assign(this, {calls, constants, given, running, deques: given.kind === 'dfdeques'});
        calls.begin('run', given.table, given.p, given.K);
        this.record = new (this.deques ? DequeRecord : AsyncRecord)(calls, 'run', running);
        this.record.beginBeside(given.b);
        this.replay = this.record.twin('replay');
        [, this.threads, this.actions, this.serial, this.depth, this.nested] = calls.check(running);
        this.givenThreads = calls.check(given.table)[constants.THREADS];
        this.most = calls.most(given.table, given.p, given.K)[constants.LIMIT];
        this.findLimits();
        this.log = new Log();
        this.log.copies.push(this.record.save());
        Object.assign(this, {other: null, turn: 0, marks: new Array(constants.MOST_MARKS).fill(null), parted: null});
    }

    /** The limits on memory that today's calls give: for every order, any p, the b given, of DFDeques for every choice and for choices 0. */
    findLimits() {
        const {calls, constants} = this, {table, p, K, b} = this.given;
        const every = calls.limit(table, p, K, 0);
        this.limits = {parallel: every[constants.LIMIT_PARALLEL]};
        if (this.deques) {
            const row = calls.dequeLimit(table, p, K, p);
            Object.assign(this.limits, {every: row[constants.DEQUE_LIMIT_MEMORY], near: row[constants.DEQUE_LIMIT_NEAR]});
        } else {
            this.limits.every = every[constants.LIMIT_MEMORY];
            if (b !== null) this.limits.paced = calls.limit(table, p, K, b)[constants.LIMIT_MEMORY];
        }
    }

    get ended() {
        return this.record.ended;
    }

    // Turns

    /** The worker, and the choice, whose turn the rule has next; null at the end of the run or of a list. */
    next(rule) {
        if (this.ended) return null;
        const {p} = this.given;
        if (rule.order === 'list') {
            const at = 2 * (this.turn - rule.from);
            return rule.list && at >= 0 && at < rule.list.length ? {worker: rule.list[at], choice: rule.list[at + 1]} : null;
        }
        const choice = this.choiceOf(rule), after = this.turn ? this.log.worker[this.turn - 1] + 1 : 0;
        if (rule.order === 'worst') return {worker: this.worst(choice, after), choice};
        let worker = (rule.order === 'random' ? mixed(rule.seed, this.turn) : after) % p;
        for (let i = 0; i < p && this.record.may(worker); i++) worker = (worker + 1) % p;
        return {worker, choice};
    }

    choiceOf(rule) {
        if (!this.deques || rule.choice === 'zero') return 0;
        return rule.choice === 'random' ? mixed(rule.choiceSeed + 7919, this.turn) % this.given.p : Math.min(rule.chosen, this.given.p - 1);
    }

    /** The worker whose turn leaves most held; of equals one that forks, then one that does not give its thread up, then the next in rounds. None that is idle while another is not. */
    worst(choice, after) {
        const {record, given: {p}} = this;
        let best = after % p, most = -1;
        for (let i = 0; i < p; i++) {
            const worker = (after + i) % p, worth = record.worthOf(worker, choice);
            if (worth > most) [best, most] = [worker, worth];
        }
        return best;
    }

    /** Takes a turn: null, or a refusal. The turn that the log has next is taken again; another begins a new try, and the old one stays as the other. */
    take(worker, choice = 0, code = HAND) {
        const {log, turn, constants} = this;
        if (turn >= MOST_TURNS) return this.calls.refusal(constants.REFUSED_TURNS);
        const known = turn < log.length && log.worker[turn] === worker && (!this.deques || log.choice[turn] === choice);
        const number = this.record.turn(worker, choice);
        if (number) return this.calls.refusal(number);
        if (!known) this.write(worker, choice, code);
        this.turn++;
        return null;
    }

    /** Writes the turn that was just taken into the log. */
    write(worker, choice, code) {
        const {calls, constants, record, turn} = this;
        if (turn < this.log.length) {
            this.other = this.log;
            this.log = this.log.front(constants, turn);
        }
        const {log} = this, said = calls.row(constants.SAID), thread = calls.row(constants.THREAD), idle = said === constants.SAID_IDLE;
        if (log.length === log.worker.length) log.grow();
        log.worker[turn] = worker;
        log.choice[turn] = choice;
        log.said[turn] = said;
        log.thread[turn] = idle ? NONE : thread;
        log.action[turn] = idle ? NONE : said === constants.SAID_DONE ? calls.row(constants.VALUE) : record.next(thread);
        const keeps = record.threadOf(worker);
        log.keeps[turn] = keeps < 0 ? NONE : keeps;
        log.held[turn] = record.held;
        log.count(constants, turn);
        log.length++;
        log.ended = record.ended;
        const last = log.segments.at(-1);
        if (last && last[0] === code) last[1]++;
        else log.segments.push([code, 1]);
        if (log.length % EVERY === 0) log.copies.push(record.save());
    }

    /** Takes turns by a rule: so many, until the run or the list is at its end, before a turn above `within`, or until a time. Answers why it ended. */
    advance(rule, {turns = Infinity, within = null, until = Infinity} = {}) {
        const code = codeOf(rule, this.deques);
        for (let taken = 0; taken < turns; taken++) {
            if (taken % 512 === 511 && performance.now() > until) return 'time';
            const next = this.next(rule);
            if (!next) return this.ended ? 'ended' : 'list';
            if (within !== null) {
                const seen = this.record.preview(next.worker, next.choice);
                if (!(seen instanceof Refusal) && seen.held > within) return 'memory';
            }
            const refused = this.take(next.worker, next.choice, code);
            if (refused) return refused;
        }
        return 'turns';
    }

    /** Goes to a turn of the log, from the nearest copy before it. */
    jump(turn) {
        const {log, record} = this, near = Math.floor(turn / EVERY);
        let from = this.turn;
        if (turn < from || turn - from > turn - near * EVERY) {
            record.restore(log.copies[near]);
            from = near * EVERY;
        }
        record.again(log.worker, log.choice, from, turn);
        this.turn = turn;
    }

    /** What each thread holds after each of some turns of a log, rising: so many numbers for each turn, into `into`. */
    amountsAt(log, turns, into, count) {
        const {replay} = this;
        let at = -1;
        for (let i = 0; i < turns.length; i++) {
            const turn = turns[i], near = Math.floor(turn / EVERY);
            if (at < 0 || near * EVERY > at) {
                replay.restore(log.copies[near]);
                at = near * EVERY;
            }
            replay.look(log.worker, log.choice, at, turn);
            at = turn;
            replay.amounts(into, i * count, count);
        }
    }

    /** The record as it was after a turn of a log, in the second record. */
    lookAt(log, turn) {
        const near = Math.floor(turn / EVERY);
        this.replay.restore(log.copies[near]);
        this.replay.look(log.worker, log.choice, near * EVERY, turn);
        return this.replay;
    }

    previews(rule) {
        const choice = this.choiceOf(rule);
        return Array.from({length: this.given.p}, (_, worker) => this.record.preview(worker, choice));
    }

    /** An order as text, checked: pairs of worker and choice, or what is wrong with it. Workers and choices are refused by the calls, on a beginning of its own. */
    readOrder(text) {
        const words = text.split(/[\s,]+/).filter(Boolean), list = [];
        for (const [i, word] of words.entries()) {
            const found = /^(\d{1,9})(?::(\d{1,9}))?$/.exec(word);
            if (!found || (found[2] !== undefined && !this.deques)) {
                const wanted = this.deques ? 'a worker and a choice, as 0:0' : 'a worker';
                return {turn: i + 1, word, wanted};
            }
            list.push(Number(found[1]), Number(found[2] ?? 0));
        }
        const {replay} = this;
        replay.restore(this.log.copies[0]);
        for (let i = 0; i < list.length; i += 2) {
            const refused = this.refusedAt(replay, list[i], list[i + 1]);
            if (refused) return {turn: i / 2 + 1, word: words[i / 2], refused};
        }
        return Uint8Array.from(list);
    }

    refusedAt(record, worker, choice) {
        const seen = record.preview(worker, choice);
        return seen instanceof Refusal ? seen : null;
    }

    // Marks and tries

    mark(i) {
        const number = this.record.mark(i);
        if (number) return this.calls.refusal(number);
        this.marks[i] = {turn: this.turn, log: this.log};
        return null;
    }

    /** Goes back to a mark. Where this try did not come through it, it stays as the other one. */
    back(i) {
        const number = this.record.back(i);
        if (number) return this.calls.refusal(number);
        const {turn, log} = this.marks[i];
        if (common(this.log, log, turn) < turn) {
            this.other = this.log;
            this.log = log.front(this.constants, turn);
        }
        const near = Math.floor(turn / EVERY);
        this.record.paceAgain(this.log.copies[near], this.log.worker, near * EVERY, turn);
        this.turn = turn;
        return null;
    }

    swap() {
        if (!this.other) return;
        [this.log, this.other] = [this.other, this.log];
        this.record.restore(this.log.copies[0]);
        const {turn} = this;
        this.turn = 0;
        this.jump(Math.min(turn, this.log.length));
    }

    /** How many turns the two tries have in common. */
    same() {
        if (!this.other) return 0;
        if (this.parted?.log !== this.log || this.parted.other !== this.other) this.parted = {log: this.log, other: this.other, same: 0};
        this.parted.same = common(this.log, this.other, Infinity, this.parted.same);
        return this.parted.same;
    }

    /** By which rules a try was taken, in words. */
    told(log) {
        const names = {r: 'rounds', s: 'random', w: 'worst', h: 'by hand'}, found = [];
        for (const [code] of log.segments) if (!found.includes(names[code[0]])) found.push(names[code[0]]);
        return found.join(', ');
    }
}

/** The turns that two logs have in common from the first on, at most so many. */
export function common(a, b, most = Infinity, from = 0) {
    const end = Math.min(a.length, b.length, most);
    let i = from;
    while (i < end && (a === b || a.same(b, i))) i++;
    return i;
}

// The link

const hex = (bytes) => Array.from(bytes, (value) => value.toString(16)).join('');

/** A try as few words: a rule and how many turns, turns by hand one hexadecimal digit each, of DFDeques two. */
function segmentsOf(log, deques) {
    let at = 0;
    return log.segments.map(([code, count]) => {
        const from = at;
        at += count;
        if (code !== HAND) return [code, count];
        const digits = Array.from({length: count}, (_, i) => hex(deques ? [log.worker[from + i], log.choice[from + i]] : [log.worker[from + i]]));
        return [HAND, digits.join('')];
    });
}

/** What a link or a file of a run says. */
export function stateOf(run, text) {
    const {kind, p, K, b, M} = run.given, marks = [];
    run.marks.forEach((mark, i) => {
        if (!mark) return;
        if (common(run.log, mark.log, mark.turn) === mark.turn) marks.push([i, mark.turn, 0]);
        else if (run.other && common(run.other, mark.log, mark.turn) === mark.turn) marks.push([i, mark.turn, 1]);
    });
    const tries = [run.log, ...(run.other ? [run.other] : [])].map((log) => segmentsOf(log, run.deques));
    return {wivakkol: LINK, kind, p, K, b, M, text, tries, marks, turn: run.turn};
}

export class BadState extends Error {}

function need(holds, what) {
    if (!holds) throw new BadState(what);
}

const whole = (value, most) => Number.isInteger(value) && value >= 0 && value <= most;

/** What must be so before a state is looked at further. */
export function checkState(state) {
    need(state && typeof state === 'object' && 'wivakkol' in state, 'it is no run of this screen');
    need(state.wivakkol === LINK, `it is of version ${String(state.wivakkol).slice(0, 12)}, and this screen reads version ${LINK}`);
    need(['asyncdf', 'dfdeques'].includes(state.kind) && typeof state.text === 'string', 'its table is missing');
    need([state.p, state.K].every((value) => whole(value, 4294967295)), 'p or K is no number');
    need(state.b === null || whole(state.b, 4294967295), 'b is no number');
    need(state.M === null || whole(state.M, Number.MAX_SAFE_INTEGER), 'M is no number');
    need(Array.isArray(state.tries) && state.tries.length >= 1 && state.tries.length <= 2 && state.tries.every(Array.isArray), 'its turns are missing');
    need(Array.isArray(state.marks) && whole(state.turn, MOST_TURNS), 'its marks or its turn are missing');
}

/** Takes the turns of a try as a link has them. */
function takeSegments(run, segments) {
    for (const segment of segments) {
        need(Array.isArray(segment) && segment.length === 2, 'a part of its turns is not understood');
        const [code, what] = segment, width = run.deques ? 2 : 1;
        if (code === HAND) {
            need(typeof what === 'string' && /^[0-9a-f]*$/.test(what) && what.length % width === 0, 'its turns by hand are not understood');
            for (let i = 0; i < what.length; i += width) {
                const refused = run.take(parseInt(what[i], 16), run.deques ? parseInt(what[i + 1], 16) : 0);
                need(!refused, `its turn ${run.turn + 1} is refused with ${refused?.number}`);
            }
            continue;
        }
        const rule = typeof code === 'string' ? ruleOf(code, run.deques) : null;
        need(rule && whole(what, MOST_TURNS), 'a part of its turns is not understood');
        const before = run.turn;
        run.advance(rule, {turns: what});
        need(run.turn - before === what, `it has ${what} turns where the run has ${run.turn - before}`);
    }
}

/** Brings a run to the state of a link: both tries, the marks and the turn. */
export function bringTo(run, state) {
    const tries = [...state.tries.keys()].reverse(), fresh = () => {
        run.record.restore(run.log.copies[0]);
        run.turn = 0;
    };
    const first = run.log.copies[0], logs = [];
    for (const which of tries) {
        run.log = new Log();
        run.log.copies.push(first);
        fresh();
        takeSegments(run, state.tries[which]);
        logs[which] = run.log;
        for (const mark of state.marks) {
            need(Array.isArray(mark) && mark.length === 3 && whole(mark[0], run.constants.MOST_MARKS - 1) && whole(mark[1], MOST_TURNS), 'a mark is not understood');
            if (mark[2] !== which) continue;
            need(mark[1] <= run.log.length, `a mark is at turn ${mark[1]} of ${run.log.length}`);
            run.jump(mark[1]);
            run.mark(mark[0]);
        }
    }
    run.other = logs[1] ?? null;
    need(state.turn <= run.log.length, `it is at turn ${state.turn} of ${run.log.length}`);
    fresh();
    run.jump(state.turn);
}

async function through(stream, data) {
    const writer = stream.writable.getWriter();
    const written = writer.write(data).then(() => writer.close());
    const [read] = await Promise.all([new Response(stream.readable).arrayBuffer(), written.catch(() => {})]);
    return new Uint8Array(read);
}

export function unpacked(data, format) {
    return through(new DecompressionStream(format), data);
}

/** Bytes in the letters that an address may have. */
function lettersOf(data) {
    let text = '';
    for (let i = 0; i < data.length; i += 4096) text += String.fromCharCode(...data.subarray(i, i + 4096));
    return btoa(text).replace(/\+/g, '-').replace(/\//g, '_').replace(/=+$/, '');
}

/** A state as the part of an address behind #: the version, how many letters there are, the letters. */
export async function linkOf(state) {
    const letters = lettersOf(await through(new CompressionStream('deflate'), new TextEncoder().encode(JSON.stringify(state))));
    return `${LINK}.${letters.length}.${letters}`;
}

export async function readLink(link) {
    const found = /^(\d+)\.(\d+)\.([A-Za-z0-9_-]+)$/.exec(link);
    need(found, 'it is cut off or was changed on the way');
    need(Number(found[1]) === LINK, `it is of version ${found[1]}, and this screen reads version ${LINK}`);
    const [, , count, letters] = found;
    need(Number(count) === letters.length, 'it is cut off or was changed on the way');
    let state;
    try {
        const data = Uint8Array.from(atob(letters.replace(/-/g, '+').replace(/_/g, '/')), (letter) => letter.charCodeAt(0));
        need(lettersOf(data) === letters, 'letters that no bytes have');
        state = JSON.parse(new TextDecoder('utf-8', {fatal: true}).decode(await unpacked(data, 'deflate')));
    } catch {
        throw new BadState('it is cut off or was changed on the way');
    }
    checkState(state);
    return state;
}
