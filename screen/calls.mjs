// The calls, one function each, over memory that is lent once. What a call takes, the places of a run's memory and the words of a refusal come from the
// headers (`facts`, tools/screen.py). A refusal is an object. Pointers and numbers of 32 bits are numbers, lengths and numbers of 64 bits BigInts.

const HIGH = 4294967296;
const RECORDS = ['run', 'replay', 'spare'];
const ORDER_ROOM = 2048;

/** What a call answers where it refuses: its number, the place, what the place counts, the check's meaning and what to do; of a text the line; `row` has the call's other numbers. */
export class Refusal {
    constructor(facts, number, row) {
        const [about, meaning, advice] = facts.refusals[number] ?? ['', 'no call refuses with this number', ''];
        Object.assign(this, {number, place: row[0] ?? 0, row, about, meaning, advice, line: null});
    }
}

/** A record as it once was: of one kind, of one beginning. */
class Copy {
    constructor(owner, bytes, pace) {
        Object.assign(this, {owner, bytes, pace});
    }
}

/** A call with one number left open. Turns and previews, the calls that are made most, have their parameters handed one by one, which takes half the time. */
function spread(call, args, place) {
    if (args.length === 8 && place === 2) {
        const [a, b, , d, e, f, g, h] = args;
        return (value) => call(a, b, value, d, e, f, g, h) >>> 0;
    }
    return (value) => {
        args[place] = value;
        return call(...args) >>> 0;
    };
}

/** Unpacks and starts the calls. */
export async function load(wasm, facts) {
    const {instance} = await WebAssembly.instantiate(wasm, {});
    return new Calls(instance.exports, facts);
}

export class Calls {
    constructor(exported, facts) {
        this.exported = exported;
        this.facts = facts;
        this.constants = facts.constants;
        this.lend();
    }

    /** Lends all memory that there will be: it never grows again, so that views of it stay. */
    lend() {
        const most = this.constants.TABLE_MOST, sizes = {text: this.constants.TEXT_MOST, table: most, tried: most + 1, filled: most, order: ORDER_ROOM};
        for (const name of Object.keys(this.facts.calls)) {
            for (const [parameter, sort, width, count, part] of this.facts.calls[name]) {
                if (sort === 'p' && part === null && count) sizes[parameter] = Math.max(sizes[parameter] ?? 0, width * count);
            }
        }
        for (const name of RECORDS) sizes[name] = this.facts.run;
        for (const name of RECORDS) sizes['pace of ' + name] = sizes.pace;
        let end = this.exported.__heap_base.value;
        this.at = {};
        for (const [name, size] of Object.entries(sizes)) {
            end = Math.ceil(end / 16) * 16;
            this.at[name] = end;
            end += size;
        }
        const memory = this.exported.memory;
        if (end > memory.buffer.byteLength) memory.grow(Math.ceil((end - memory.buffer.byteLength) / 65536));
        this.bytes = new Uint8Array(memory.buffer);
        this.words = new Uint16Array(memory.buffer);
        this.numbers = new Uint32Array(memory.buffer);
        this.lent = end;
    }

    /** A call made ready: `given` has addresses and numbers by the parameters' names, `free` the names of those that the function answered takes. */
    ready(name, given, free = []) {
        const full = 'wivakkol_' + name, call = this.exported[full], takes = this.facts.calls[full];
        const args = takes.map(([parameter, sort, , , part]) => {
            const value = part !== null ? given.record + part : given[parameter] ?? this.at[parameter] ?? 0;
            return sort === 'N' ? BigInt(value) : value;
        });
        const places = free.map((parameter) => takes.findIndex((row) => row[0] === parameter));
        if (places.length === 1 && takes[places[0]][1] === 'n') {
            return spread(call, args, places[0]);
        }
        return (...values) => {
            for (let i = 0; i < places.length; i++) args[places[i]] = takes[places[i]][1] === 'N' ? BigInt(values[i]) : values[i];
            return call(...args) >>> 0;
        };
    }

    call(name, given) {
        return this.ready(name, given)();
    }

    /** A number of the row; all are below 2^53. */
    row(i) {
        const at = (this.at.row >> 2) + 2 * i;
        return this.numbers[at] + HIGH * this.numbers[at + 1];
    }

    rows(count) {
        return Array.from({length: count}, (_, i) => this.row(i));
    }

    /** What a call with a row answers: the row where the number is 0. */
    answer(number, count) {
        const row = this.rows(count);
        return number ? new Refusal(this.facts, number, row) : row;
    }

    refusal(number) {
        return new Refusal(this.facts, number, [0]);
    }

    put(where, data) {
        this.bytes.set(data, this.at[where]);
        return {[where]: this.at[where], length: data.length};
    }

    /** A table lent for a call: of what is longer than any table so much that it still is. */
    lendTable(table) {
        const data = table.subarray(0, this.constants.TABLE_MOST + 1);
        return {table: this.put('tried', data).tried, length: data.length, room: this.constants.TABLE_MOST};
    }

    // Texts

    assemble(text) {
        const {constants} = this;
        if (text.length > constants.TEXT_LONGEST) return this.refusal(constants.REFUSED_TEXT);
        const given = {...this.put('text', text), out: this.at.tried, room: constants.TABLE_MOST};
        const row = this.answer(this.call('assemble_on', given), constants.ASSEMBLE_ROW);
        if (row instanceof Refusal) return Object.assign(row, {line: row.row[constants.TEXT_LINE] || null});
        return this.bytes.slice(given.out, given.out + row[constants.TEXT_BYTES]);
    }

    disassemble(table) {
        const {constants} = this;
        const given = {...this.lendTable(table), out: this.at.text, room: constants.TEXT_MOST};
        const row = this.answer(this.call('disassemble_on', given), constants.DISASSEMBLE_ROW);
        return row instanceof Refusal ? row : this.bytes.slice(given.out, given.out + row[constants.TEXT_BYTES]);
    }

    // Tables

    check(table) {
        return this.answer(this.call('check_on', this.lendTable(table)), this.constants.CHECK_ROW);
    }

    most(table, p, quota) {
        return this.answer(this.call('most_on', {...this.lendTable(table), p, quota}), this.constants.MOST_ROW);
    }

    /** b 0: of every order. */
    limit(table, p, quota, b) {
        return this.answer(this.call('limit_on', {...this.lendTable(table), p, quota, b}), this.constants.LIMIT_ROW);
    }

    dequeLimit(table, p, quota, c) {
        return this.answer(this.call('deque_limit_on', {...this.lendTable(table), p, quota, c}), this.constants.DEQUE_LIMIT_ROW);
    }

    fit(table, p, b, memory) {
        return this.answer(this.call('fit_on', {...this.lendTable(table), p, b, memory}), this.constants.FIT_ROW);
    }

    // Runs

    /** Begins a run in one of the three records; the answer is the table that runs, filled out where an alloc is above the quota. */
    begin(record, table, p, quota) {
        const {constants} = this;
        const given = {...this.lendTable(table), record: this.at[record], p, quota};
        const row = this.answer(this.call('begin_on', given), constants.BEGIN_ROW);
        if (row instanceof Refusal) return row;
        return row[constants.FILLED] ? this.bytes.slice(this.at.filled, this.at.filled + row[constants.FILLED]) : table.slice();
    }

    /** Would it begin? On a record that nothing else stands in. */
    mayBegin(table, p, quota, b) {
        const begun = this.begin('spare', table, p, quota);
        if (begun instanceof Refusal || b === null) return begun;
        const number = this.call('pace_begin_on', {p, b, pace: this.at['pace of spare']});
        return number ? this.refusal(number) : begun;
    }
}

/** What both kinds of run have: the memory of a record, read by its places. Which calls there are is for the kind to say. */
class Record {
    #copied = Symbol('copies of this run');

    constructor(calls, where, table) {
        this.calls = calls;
        this.constants = calls.constants;
        this.where = where;
        this.base = calls.at[where];
        this.table = table;
        calls.bytes.set(table, calls.at.table);
        this.given = {table: calls.at.table, length: table.length, record: this.base, pace: calls.at['pace of ' + where]};
        const at = (block) => (this.base + calls.facts.blocks[block][0]) / calls.facts.blocks[block][1];
        this.at = {sums: at('sums') * 2, numbers: at('numbers'), words: at('words'), bytes: at('bytes')};
        this.kindOf = calls.ready('kind', this.given, ['a']);
        this.argumentOf = calls.ready('argument', this.given, ['a']);
    }

    sum(place) {
        const at = this.at.sums + 2 * place;
        return this.calls.numbers[at] + HIGH * this.calls.numbers[at + 1];
    }

    word(place) {
        return this.calls.words[this.at.words + place];
    }

    get p() {
        return this.calls.numbers[this.at.numbers + this.constants.AT_P];
    }

    get quota() {
        return this.calls.numbers[this.at.numbers + this.constants.AT_K];
    }

    get held() {
        return this.sum(this.constants.AT_HELD);
    }

    get highest() {
        return this.sum(this.constants.AT_HIGHEST);
    }

    get turns() {
        return this.sum(this.constants.AT_TURNS);
    }

    get ended() {
        return this.status(0) === this.constants.STATUS_ENDED;
    }

    amount(thread) {
        return this.sum(this.constants.AT_AMOUNTS + thread);
    }

    /** The amounts of all threads, into `into` from `from` on. */
    amounts(into, from, count) {
        const {numbers} = this.calls;
        for (let t = 0, at = this.at.sums + 2 * this.constants.AT_AMOUNTS; t < count; t++, at += 2) into[from + t] = numbers[at] + HIGH * numbers[at + 1];
    }

    status(thread) {
        return this.calls.bytes[this.at.bytes + this.constants.AT_STATUS + thread];
    }

    next(thread) {
        return this.word(this.constants.AT_NEXT + thread);
    }

    /** The thread that a worker holds, -1 where it holds none. */
    threadOf(worker) {
        return this.calls.bytes[this.at.bytes + this.constants.AT_HOLDS + worker] ? this.word(this.constants.AT_WORKER_THREADS + worker) : -1;
    }

    quotaOf(worker) {
        return this.calls.numbers[this.at.numbers + this.constants.AT_QUOTAS + worker];
    }

    /** The threads of the list, from the left. */
    threads() {
        const found = [];
        for (let t = this.word(this.constants.AT_LEFTMOST); t < this.constants.MOST_THREADS && found.length < this.constants.MOST_THREADS; t = this.word(this.constants.AT_RIGHT + t)) found.push(t);
        return found;
    }

    /** The same of the second list. */
    second() {
        const found = [];
        for (let t = this.word(this.constants.AT_FIRST); t < this.constants.MOST_THREADS && found.length < this.constants.MOST_THREADS; t = this.word(this.constants.AT_OVER + t)) found.push(t);
        return found;
    }

    save() {
        const {calls} = this, {pace} = this.given;
        return new Copy(this.#copied, calls.bytes.slice(this.base, this.base + calls.facts.run), calls.bytes.slice(pace, pace + 4 * this.constants.PACE_NUMBERS));
    }

    restore(copy) {
        if (copy.owner !== this.#copied) throw new TypeError('a copy of another run');
        this.calls.bytes.set(copy.bytes, this.base);
        this.calls.bytes.set(copy.pace, this.given.pace);
    }

    /** A second record of the same run, which takes its copies: for looking at other turns. */
    twin(where) {
        const twin = new this.constructor(this.calls, where, this.table);
        twin.#copied = this.#copied;
        return twin;
    }

    /** A turn that was taken: what it said, thread, action and what it wanted, from the row and the record after it. */
    said(row) {
        const {constants} = this, said = row[constants.SAID], thread = row[constants.THREAD];
        const action = said === constants.SAID_IDLE ? -1 : said === constants.SAID_DONE ? row[constants.VALUE] : this.next(thread);
        return {said, thread: said === constants.SAID_IDLE ? -1 : thread, action, value: row[constants.VALUE], passed: row[constants.PASSED] ?? 0};
    }

    /** What is in an action, for who writes it: its kind and its argument. */
    actionOf(action) {
        return {kind: this.kindOf(action), argument: this.argumentOf(action)};
    }

    /** How much a turn that was looked at is worth to who looks for the worst: -1 refused, 0 idle; else by memory held after it, and of equals a fork before another action before quota and wait. */
    worth(number, held) {
        const {calls, constants} = this;
        if (number) return -1;
        const said = calls.row(constants.SAID);
        if (said === constants.SAID_IDLE) return 0;
        const forks = said === constants.SAID_DONE && this.kindOf(calls.row(constants.VALUE)) === constants.KIND_FORK;
        return 4 * held() + (forks ? 3 : said === constants.SAID_DONE ? 2 : 1);
    }

    /** Lends an order to a list: bytes of it, from `from` on. */
    lendOrder(order, from, to) {
        this.calls.bytes.set(order.subarray(from, to), this.calls.at.order);
    }
}

/** A run by AsyncDF, with its pace. */
export class AsyncRecord extends Record {
    constructor(calls, where, table) {
        super(calls, where, table);
        this.turnOf = calls.ready('turn_on', this.given, ['w']);
        this.previewOf = calls.ready('preview_on', this.given, ['w']);
        this.listOf = calls.ready('list_on', this.given, ['turns']);
        this.chartOf = calls.ready('chart_on', this.given);
        this.markOf = calls.ready('mark_on', this.given, ['i']);
        this.backOf = calls.ready('back_on', this.given, ['i']);
        this.mayOf = calls.ready('may_on', this.given, ['w']);
        this.tookOf = calls.ready('took_on', this.given, ['w']);
        this.heldAfter = () => calls.row(this.constants.AFTER_HELD);
    }

    /** Clears the marks and begins the pace: with b where turns that break its rule are to be refused, else with the largest, to count. */
    beginBeside(b) {
        this.paced = b !== null;
        this.calls.call('unmark_on', this.given);
        this.calls.call('pace_begin_on', {...this.given, p: this.p, b: b ?? 65535});
    }

    /** Takes a turn: 0, or the number of the refusal. */
    turn(worker) {
        const number = this.paced ? this.mayOf(worker) : 0;
        const refused = number === this.constants.REFUSED_PACE && !this.ended ? number : this.turnOf(worker);
        if (!refused) this.tookOf(worker);
        return refused;
    }

    /** The least b that the turns so far keep. */
    get kept() {
        return this.calls.call('kept_on', this.given);
    }

    may(worker) {
        return this.paced ? this.mayOf(worker) : 0;
    }

    preview(worker) {
        const {calls, constants} = this;
        const row = calls.answer(this.previewOf(worker), constants.PREVIEW_ROW);
        if (row instanceof Refusal) return row;
        return {...this.said(row), held: row[constants.AFTER_HELD], highest: row[constants.AFTER_HIGHEST], quota: row[constants.AFTER_QUOTA], refused: this.may(worker)};
    }

    worthOf(worker) {
        return this.worth(this.may(worker) || this.previewOf(worker), this.heldAfter);
    }

    /** Takes the turns of an order again, whose workers are at `from` to `to`. */
    again(workers, choices, from, to) {
        for (let i = from; i < to; i += ORDER_ROOM) {
            const end = Math.min(to, i + ORDER_ROOM);
            this.lendOrder(workers, i, end);
            const number = this.listOf(end - i);
            if (number) throw new Error('turns that were taken are refused with ' + number);
            for (let k = i; k < end; k++) this.tookOf(workers[k]);
        }
    }

    /** The pace alone, as it was after `to` turns of the workers. */
    paceAgain(copy, workers, from, to) {
        this.calls.bytes.set(copy.pace, this.given.pace);
        for (let k = from; k < to; k++) this.tookOf(workers[k]);
    }

    /** Turns taken again without the pace, for who looks only. */
    look(workers, choices, from, to) {
        for (let i = from; i < to; i += ORDER_ROOM) {
            const end = Math.min(to, i + ORDER_ROOM);
            this.lendOrder(workers, i, end);
            this.listOf(end - i);
        }
    }

    /** The line of the wall chart, without its newline. */
    chart() {
        const number = this.chartOf();
        if (number) return this.calls.refusal(number);
        const at = this.calls.at.line;
        return String.fromCharCode(...this.calls.bytes.subarray(at, at + this.constants.LINE - 1));
    }

    mark(i) {
        return this.markOf(i);
    }

    back(i) {
        return this.backOf(i);
    }
}

/** A run by DFDeques. It has no preview, chart, marks or opening of AsyncDF's: a preview is the turn on a copy, a mark is a copy. */
export class DequeRecord extends Record {
    #marks = [];

    constructor(calls, where, table) {
        super(calls, where, table);
        this.turnOf = calls.ready('deque_turn_on', this.given, ['w', 'c']);
        this.listOf = calls.ready('deque_list_on', this.given, ['order_length']);
        this.spareTurnOf = calls.ready('deque_turn_on', {...this.given, record: calls.at.spare}, ['w', 'c']);
        this.pairs = new Uint8Array(ORDER_ROOM);
    }

    beginBeside() {
        this.#marks = [];
    }

    turn(worker, choice) {
        return this.turnOf(worker, choice);
    }

    may() {
        return 0;
    }

    preview(worker, choice) {
        const {calls, constants} = this;
        calls.bytes.copyWithin(calls.at.spare, this.base, this.base + calls.facts.run);
        const row = calls.answer(this.spareTurnOf(worker, choice), constants.DEQUE_TURN_ROW);
        if (row instanceof Refusal) return row;
        const after = this.after();
        return {...this.said(row), held: after.held, highest: after.highest, quota: after.quotaOf(worker), refused: 0};
    }

    /** The copy on which turns are looked at. */
    after() {
        this.spare ??= this.twin('spare');
        return this.spare;
    }

    worthOf(worker, choice) {
        const {calls} = this;
        calls.bytes.copyWithin(calls.at.spare, this.base, this.base + calls.facts.run);
        return this.worth(this.spareTurnOf(worker, choice), () => this.after().held);
    }

    again(workers, choices, from, to) {
        for (let i = from; i < to; i += ORDER_ROOM / 2) {
            const end = Math.min(to, i + ORDER_ROOM / 2);
            for (let k = i; k < end; k++) {
                this.pairs[2 * (k - i)] = workers[k];
                this.pairs[2 * (k - i) + 1] = choices[k];
            }
            this.lendOrder(this.pairs, 0, 2 * (end - i));
            const number = this.listOf(2 * (end - i));
            if (number) throw new Error('turns that were taken are refused with ' + number);
        }
    }

    look(workers, choices, from, to) {
        this.again(workers, choices, from, to);
    }

    paceAgain() {}

    /** The deques from the left: the worker that owns it or -1, its thread, and the deque's threads from the top to the bottom. */
    deques() {
        const bottoms = new Set(this.second()), found = [], holders = new Map();
        for (let w = 0; w < this.p; w++) if (this.threadOf(w) >= 0) holders.set(this.threadOf(w), w);
        let line = [];
        for (const thread of this.threads()) {
            line.push(thread);
            if (!bottoms.has(thread)) continue;
            const owner = holders.get(line[0]) ?? -1;
            found.push({owner, held: owner < 0 ? -1 : line[0], threads: owner < 0 ? line : line.slice(1)});
            line = [];
        }
        return found;
    }

    mark(i) {
        if (i >= this.constants.MOST_MARKS) return this.constants.REFUSED_MARK;
        this.#marks[i] = this.save();
        return 0;
    }

    back(i) {
        if (i >= this.constants.MOST_MARKS) return this.constants.REFUSED_MARK;
        if (!this.#marks[i]) return this.constants.REFUSED_UNSET;
        this.restore(this.#marks[i]);
        return 0;
    }
}
