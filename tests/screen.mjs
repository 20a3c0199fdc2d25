// The screen's calls and runs under node, for tests/screen.py: reads cases as JSON from standard input and writes what came out as JSON.
// usage: node tests/screen.mjs FACTS.json WASM < CASES
import {readFileSync} from 'node:fs';
import {load, Refusal} from '../screen/calls.mjs';
import {bringTo, BadState, linkOf, readLink, rules, Run, stateOf} from '../screen/run.mjs';
import {actionLines, chart, givenActions, listing, order, readFile, told, trace} from '../screen/files.mjs';

const [factsFile, wasmFile] = process.argv.slice(2);
const calls = await load(readFileSync(wasmFile), JSON.parse(readFileSync(factsFile)));
const bytes = (text) => new Uint8Array(Buffer.from(text, 'base64'));
const recordOf = (run) => Buffer.from(run.record.save().bytes).toString('base64');

function fail(what) {
    throw new Error(what);
}

/** That each preview is the turn that comes after it. */
function stepsAsPreviewed(run, rule, turns) {
    for (let i = 0; i < turns; i++) {
        const next = run.next(rule);
        if (!next) return;
        const seen = run.record.preview(next.worker, next.choice), at = run.turn;
        if (seen instanceof Refusal || seen.refused) fail('the next turn is refused');
        run.take(next.worker, next.choice);
        const {log} = run, none = seen.thread < 0;
        if (log.said[at] !== seen.said || log.held[at] !== seen.held || run.record.highest !== seen.highest) fail('preview and turn differ');
        if (!none && (log.thread[at] !== seen.thread || log.action[at] !== seen.action)) fail('preview and turn differ in the thread');
        if (run.record.quotaOf(next.worker) !== seen.quota) fail('preview and turn differ in the quota left');
    }
}

/** That the record after a jump is that of a run from the beginning. */
function sameAsFromTheBeginning(run, spec) {
    const [log, turn, found] = [run.log, run.turn, recordOf(run)], workers = log.worker.slice(0, turn), choices = log.choice.slice(0, turn);
    const record = run.replay;
    record.restore(log.copies[0]);
    record.look(workers, choices, 0, turn);
    const wanted = Buffer.from(record.save().bytes).toString('base64');
    if (found !== wanted) fail(`${spec.name}: the record after turn ${turn} is not that of a run from the beginning`);
    const sum = Array.from({length: run.threads}, (_, t) => record.amount(t)).reduce((a, b) => a + b, 0);
    if (sum !== record.held) fail('amounts do not add up to memory held');
}

const steps = {
    advance: (run, rule, turns) => run.advance(rule, {turns}),
    previewed: stepsAsPreviewed,
    jump: (run, rule, share) => run.jump(Math.floor(share * run.log.length)),
    mark: (run, rule, i) => run.mark(i),
    back: (run, rule, i) => run.back(i),
    swap: (run) => run.swap(),
};

function refused(refusal, text) {
    return {refused: refusal.number, place: refusal.place, ...told(calls, refusal, text)};
}

async function ran(spec) {
    const run = Run.begin(calls, {kind: spec.kind, table: bytes(spec.table), p: spec.p, K: spec.K, b: spec.b ?? null, M: null});
    if (run instanceof Refusal) return refused(run);
    for (const [name, rule, what] of spec.steps) {
        const answer = steps[name](run, {...rules(), ...rule}, what);
        if (answer instanceof Refusal && answer.number !== 46) fail(`${spec.name}: ${name} is refused with ${answer.number}`);
        if (name !== 'advance') sameAsFromTheBeginning(run, spec);
    }
    const state = stateOf(run, '');
    const again = await backFromLink(run, spec, state);
    const logs = [run.log, ...(run.other ? [run.other] : [])], common = run.same();
    const out = {
        tries: logs.map((log) => ({order: order(run, log), listing: listing(run, log), chart: run.deques ? null : chart(run, 0, log.length, log)})),
        trace: run.log.length <= 600 ? trace(run) : null, same: common, limits: run.limits, most: run.most, kept: run.deques ? null : run.record.kept,
        turn: run.turn, facts: [run.threads, run.actions, run.serial, run.depth, run.nested], marks: run.marks.map((mark) => mark && mark.turn), again,
        given: Array.from(givenActions(run)), fits: calls.fit(bytes(spec.table), spec.p, spec.b ?? 0, 100).slice(1),
    };
    return out;
}

/** The run once more, from its link: both tries, marks and the turn are those of the link. Then the first run is begun again as it was. */
async function backFromLink(run, spec, state) {
    const link = await linkOf(state), before = [listing(run), run.other && listing(run, run.other), recordOf(run)];
    const other = Run.begin(calls, run.given), read = await readLink(link);
    bringTo(other, read);
    const after = [listing(other), other.other && listing(other, other.other), recordOf(other)];
    if (JSON.stringify(before) !== JSON.stringify(after)) fail(`${spec.name}: from the link comes another run`);
    if (JSON.stringify(stateOf(other, '')) !== JSON.stringify(state)) fail(`${spec.name}: from the link comes another state`);
    return link.length;
}

/** A link with each of its characters changed in turn, cut off, or of another version; the last one is whole. */
async function links(table) {
    const run = Run.begin(calls, {kind: 'asyncdf', table: bytes(table), p: 2, K: 6, b: null, M: 12});
    run.advance({...rules(), order: 'random'}, {turns: 5});
    run.take(1);
    const good = await linkOf(stateOf(run, new TextDecoder().decode(calls.disassemble(bytes(table)))));
    const changed = Array.from(good, (letter, i) => good.slice(0, i) + (letter === 'A' ? 'B' : 'A') + good.slice(i + 1));
    return [...changed, ...[0, 1, 2, 3, good.length >> 1, good.length - 1].map((n) => good.slice(0, n)), '2' + good.slice(1), '1.', 'x', '1.%00', good + 'AAAA', good];
}

/** Links that are damaged: none is taken, and each says why. */
async function damaged(links) {
    const found = [];
    for (const link of links) {
        try {
            const state = await readLink(link);
            const run = Run.begin(calls, {kind: state.kind, table: calls.assemble(new TextEncoder().encode(state.text)), p: state.p, K: state.K, b: state.b, M: state.M});
            if (!(run instanceof Refusal)) bringTo(run, state);
            found.push('taken');
        } catch (fault) {
            found.push(fault instanceof BadState ? fault.message : `${fault.name}: ${fault.message}`);
        }
    }
    return found;
}

function file(data) {
    const found = readFile(calls, bytes(data));
    if (found instanceof Refusal) return refused(found);
    return found.message ? {message: found.message} : found.state ? {state: true} : {text: found.text, lines: actionLines(found.text)};
}

/** On a record of DFDeques there is no call of AsyncDF's kind, and no copy goes from one run to another. */
function kinds(table) {
    const given = {table: bytes(table), p: 2, K: 6, b: null, M: null};
    const first = Run.begin(calls, {...given, kind: 'asyncdf'}), copy = first.record.save();
    const second = Run.begin(calls, {...given, kind: 'dfdeques'}), has = ['chart', 'chartOf', 'open', 'backOf', 'markOf', 'previewOf'].filter((name) => name in second.record);
    let thrown = '';
    try {
        second.record.restore(copy);
    } catch (fault) {
        thrown = fault.name;
    }
    return {has, thrown};
}

const asked = JSON.parse(readFileSync(0));
const out = {runs: [], files: asked.files.map(file), damaged: await damaged(await links(asked.kinds)), kinds: kinds(asked.kinds), orders: []};
for (const spec of asked.runs) out.runs.push(await ran(spec));
for (const [spec, text] of asked.orders) {
    const run = Run.begin(calls, {kind: spec.kind, table: bytes(spec.table), p: spec.p, K: spec.K, b: null, M: null}), found = run.readOrder(text);
    out.orders.push(found instanceof Uint8Array ? Array.from(found) : {turn: found.turn, word: found.word, number: found.refused?.number ?? 0});
}
if (asked.speed) {
    const run = Run.begin(calls, {kind: 'asyncdf', table: bytes(asked.speed), p: 16, K: 16777215, b: null, M: null}), started = performance.now();
    run.advance({...rules(), order: 'random'});
    out.speed = Math.round(run.log.length / (performance.now() - started) * 1000);
}
process.stdout.write(JSON.stringify(out));
