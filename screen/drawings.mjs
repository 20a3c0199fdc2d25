// The two drawings on one axis of turns: what each worker did, and memory held, stacked by thread. All of it comes from the log and from records.
import {NONE} from './run.mjs';

const FONT = '11px system-ui, sans-serif';
const LEFT = 50, RIGHT = 10, TICKS = 24, ZONE = 17;
const LIGHT = ['#332288', '#e69f00', '#117733', '#cc79a7', '#882255', '#56b4e9', '#d55e00', '#cc6677', '#2a8f82', '#7f6a00', '#8a4f7d', '#1f5a8a', '#5d2e0c'];
const DARK = ['#8076e0', '#e6a817', '#2f9e57', '#d992bb', '#b8457f', '#6fc3ef', '#ee7a2a', '#e08790', '#5cc4b3', '#b29a1e', '#b07aa4', '#4f8fc6', '#a8683a'];
const FEW = 26, SOME = 8; // up to so many threads in view each has its colour; of more so many

const channels = (colour) => [1, 3, 5].map((i) => parseInt(colour.slice(i, i + 2), 16));
const pixel = ([r, g, b]) => (0xff000000 | (b << 16) | (g << 8) | r) >>> 0;

/** A round step so that at most `most` of them are in a range. */
export function step(range, most) {
    const raw = Math.max(range / most, 1e-9), power = 10 ** Math.floor(Math.log10(raw));
    return Math.max(1, [1, 2, 5, 10].find((n) => n * power >= raw) * power);
}

export const grouped = (value) => String(value).replace(/\B(?=(\d{3})+$)/g, ',');

/** Colours of a theme, read once. */
export class Theme {
    constructor(element) {
        const style = getComputedStyle(element), read = (name) => style.getPropertyValue(name).trim();
        this.dark = read('--dark') === '1';
        for (const name of ['panel', 'strip', 'text', 'faint', 'line', 'serial', 'limit', 'memory', 'other', 'next', 'grey']) this[name] = read('--' + name);
        this.threads = this.dark ? DARK : LIGHT;
        this.pixels = this.threads.map((colour) => pixel(channels(colour)));
        this.greyPixel = pixel(channels(this.grey));
        this.panelPixel = pixel(channels(this.panel));
        this.on = this.threads.map((colour) => {
            const [r, g, b] = channels(colour);
            return 0.3 * r + 0.59 * g + 0.11 * b > 128 ? '#000' : '#fff';
        });
    }

    thread(t) {
        return this.threads[t % this.threads.length];
    }
}

/** A canvas of the size that it has on the page, in its pixels. */
function sized(canvas) {
    const ratio = globalThis.devicePixelRatio || 1, box = canvas.getBoundingClientRect();
    const width = Math.max(1, Math.round(box.width * ratio)), height = Math.max(1, Math.round(box.height * ratio));
    if (canvas.width !== width || canvas.height !== height) Object.assign(canvas, {width, height});
    const context = canvas.getContext('2d');
    context.setTransform(ratio, 0, 0, ratio, 0, 0);
    context.clearRect(0, 0, box.width, box.height);
    context.font = FONT;
    context.textAlign = 'left';
    return {context, width: box.width, height: box.height, ratio};
}

/** A part of a drawing that is painted anew only where what it is made of has changed. */
class Layer {
    constructor() {
        this.canvas = document.createElement('canvas');
        this.key = [];
    }

    over(context, {width, height}, ratio, key, paint) {
        const {canvas} = this;
        if (canvas.width !== width || canvas.height !== height || key.length !== this.key.length || key.some((value, i) => value !== this.key[i])) {
            Object.assign(canvas, {width, height});
            const own = canvas.getContext('2d');
            own.setTransform(ratio, 0, 0, ratio, 0, 0);
            own.font = FONT;
            paint(own);
            this.key = key;
        }
        context.drawImage(canvas, 0, 0, width / ratio, height / ratio);
    }
}

/** The turns in view; `whole` follows the run. */
export class View {
    constructor() {
        Object.assign(this, {from: 0, to: 40, whole: true});
    }

    fit(length) {
        if (!this.whole) return;
        this.from = 0;
        const least = Math.max(20, length * 1.03), by = step(least, 12);
        this.to = Math.ceil(least / by) * by;
    }

    zoom(factor, around, length) {
        const span = Math.min(Math.max((this.to - this.from) * factor, 8), Math.max(40, length * 1.1));
        const share = (around - this.from) / (this.to - this.from);
        this.from = around - share * span;
        this.to = this.from + span;
        this.whole = false;
        this.clamp(length);
    }

    move(by, length) {
        this.from += by;
        this.to += by;
        this.whole = false;
        this.clamp(length);
    }

    /** That a turn is in view. */
    show(turn, length) {
        const span = this.to - this.from;
        if (!this.whole && (turn < this.from || turn > this.to - span * 0.04)) this.move(turn - this.from - span * 0.5, length);
    }

    clamp(length) {
        const span = this.to - this.from, end = Math.max(40, length * 1.1);
        this.from = Math.max(0, Math.min(this.from, end - span));
        this.to = this.from + span;
    }
}

export class Drawings {
    constructor(timeline, memory) {
        Object.assign(this, {timeline, memory, layer: document.createElement('canvas'), layers: [new Layer(), new Layer()], view: new View(), amounts: new Float32Array(0), kept: null, theme: null});
    }

    x(turn, width) {
        return LEFT + (turn - this.view.from) / (this.view.to - this.view.from) * (width - LEFT - RIGHT);
    }

    /** The turn at a place of either drawing. */
    turnAt(x, width) {
        return this.view.from + (x - LEFT) / (width - LEFT - RIGHT) * (this.view.to - this.view.from);
    }

    draw(run, shown) {
        if (this.timeline.clientWidth < 2 * (LEFT + RIGHT)) return; // no room, as on paper, where a picture of it stands
        this.theme ??= new Theme(document.documentElement);
        this.drawTimeline(run, shown);
        this.drawMemory(run, shown);
    }

    ticks(context, width, y) {
        const {from, to} = this.view, by = step(to - from, 9), {theme} = this;
        context.fillStyle = theme.faint;
        context.textAlign = 'center';
        for (let turn = Math.ceil(from / by) * by; turn <= to; turn += by) {
            const text = grouped(turn), x = Math.min(this.x(turn, width), width - RIGHT - context.measureText(text).width / 2);
            context.fillText(text, x, y);
        }
    }

    // The workers

    drawTimeline(run, {row, next, hover}) {
        const {theme, view} = this, {context, width, height, ratio} = sized(this.timeline), each = (width - LEFT - RIGHT) / (view.to - view.from);
        this.layers[0].over(context, this.timeline, ratio, [run.log, run.log.length, view.from, view.to, row, theme, run.given.p], (own) => this.drawTurns(run, own, width, row, ratio, each));
        const x = this.x(run.turn, width), seen = hover ?? next;
        this.pale(context, x, TICKS, width, height);
        this.cursor(context, x, height);
        if (seen && seen.preview && each >= 2) this.dashed(context, x, TICKS + seen.worker * row + 2, Math.max(each, 4), row - 4);
    }

    drawTurns(run, context, width, row, ratio, each) {
        const {theme} = this, {p} = run.given;
        this.ticks(context, width, 15);
        context.textAlign = 'left';
        context.fillText('turn', 8, 15);
        for (let w = 0; w < p; w++) {
            const y = TICKS + w * row;
            context.fillStyle = theme.strip;
            context.fillRect(LEFT, y + 2, width - LEFT - RIGHT, row - 4);
            context.fillStyle = theme.text;
            context.fillText('w ' + w, 12, y + row / 2 + 4);
        }
        if (each >= 2) this.cells(run, context, width, row, each);
        else this.shares(run, context, width, row, ratio);
    }

    /** What is after the turn where the run stands is pale. */
    pale(context, x, top, width, height) {
        if (x >= width - RIGHT) return;
        context.globalAlpha = 0.55;
        context.fillStyle = this.theme.panel;
        context.fillRect(Math.max(LEFT, x), top, width - RIGHT - Math.max(LEFT, x), height - top);
        context.globalAlpha = 1;
    }

    cursor(context, x, height) {
        context.fillStyle = this.theme.text;
        if (x >= LEFT - 1) context.fillRect(Math.round(x) - 0.5, 18, 1.2, height);
        context.beginPath();
        context.moveTo(x - 5, 17);
        context.lineTo(x + 5, 17);
        context.lineTo(x, 23);
        if (x >= LEFT - 1) context.fill();
    }

    dashed(context, x, y, width, height) {
        context.strokeStyle = this.theme.next;
        context.lineWidth = 2;
        context.setLineDash([3, 2]);
        context.strokeRect(x + 1, y + 1, width - 2, height - 2);
        context.setLineDash([]);
    }

    /** A cell a turn: filled done, hatched quota, hollow wait, a dash idle; a pale bar while a thread is kept. */
    cells(run, context, width, row, each) {
        const {log, constants} = run, {theme, view} = this, from = Math.min(log.length, Math.max(0, Math.floor(view.from))), to = Math.min(log.length, Math.ceil(view.to));
        const record = run.lookAt(log, from), since = [], p = run.given.p, leftOf = (turn) => Math.max(LEFT, this.x(turn, width));
        for (let w = 0; w < p; w++) since.push({turn: from, thread: record.threadOf(w)});
        const bar = (w, until) => {
            const {turn, thread} = since[w];
            if (thread < 0 || thread === NONE || until <= turn) return;
            context.globalAlpha = 0.35;
            context.fillStyle = theme.thread(thread);
            context.fillRect(leftOf(turn), TICKS + w * row + row * 0.3, leftOf(until) - leftOf(turn), row * 0.4);
            context.globalAlpha = 1;
        };
        const wide = Math.max(1, each - (each > 5 ? 1 : 0));
        context.textAlign = 'center';
        for (let i = from; i < to; i++) {
            const w = log.worker[i], y = TICKS + w * row + 2, h = row - 4, x = this.x(i, width), thread = log.thread[i];
            bar(w, i);
            since[w] = {turn: i + 1, thread: log.keeps[i]};
            if (x + wide < LEFT) continue;
            this.cell(context, log.said[i], constants, x, y, wide, h, thread);
            const label = String(thread);
            if (thread !== NONE && log.said[i] === constants.SAID_DONE && wide > 6 * label.length + 3) {
                context.fillStyle = theme.on[thread % theme.on.length];
                context.fillText(label, x + wide / 2, y + h / 2 + 4);
            }
        }
        for (let w = 0; w < p; w++) bar(w, to);
    }

    cell(context, said, constants, x, y, wide, h, thread) {
        const {theme} = this;
        if (said === constants.SAID_IDLE) {
            context.fillStyle = theme.faint;
            context.fillRect(x + wide * 0.2, y + h / 2 - 0.5, Math.max(1, wide * 0.6), 1.2);
            return;
        }
        const colour = theme.thread(thread);
        context.fillStyle = colour;
        if (said === constants.SAID_DONE) return context.fillRect(x, y, wide, h);
        context.lineWidth = 1.5;
        context.strokeStyle = colour;
        if (said === constants.SAID_WAIT || wide < 5) {
            context.strokeRect(x + 0.75, y + 0.75, Math.max(1, wide - 1.5), said === constants.SAID_WAIT ? h - 1.5 : h / 2);
            return;
        }
        context.save();
        context.beginPath();
        context.rect(x, y, wide, h);
        context.clip();
        context.beginPath();
        for (let d = -h; d < wide; d += 4) {
            context.moveTo(x + d, y + h);
            context.lineTo(x + d + h, y);
        }
        context.rect(x + 0.5, y + 0.5, wide - 1, h - 1);
        context.stroke();
        context.restore();
    }

    /** Where a turn has less than two pixels: a column's height is the share of turns that were not idle, dark at its foot quota and wait, and it has a thread's colour where that stays. */
    shares(run, context, width, row, ratio) {
        const {log, constants} = run, {theme, view} = this, columns = Math.floor((width - LEFT - RIGHT) * ratio), p = run.given.p, size = columns * p;
        const [turns, busy, bad, first, last] = [0, 1, 2, 3, 4].map((i) => new (i < 3 ? Uint32Array : Uint16Array)(size));
        first.fill(NONE);
        const from = Math.max(0, Math.floor(view.from)), to = Math.min(log.length, Math.ceil(view.to)), scale = columns / (view.to - view.from);
        for (let i = from; i < to; i++) {
            const column = Math.floor((i - view.from) * scale);
            if (column < 0 || column >= columns) continue;
            const at = log.worker[i] * columns + column, said = log.said[i];
            turns[at]++;
            if (said === constants.SAID_IDLE) continue;
            busy[at]++;
            if (said !== constants.SAID_DONE) bad[at]++;
            if (first[at] === NONE) first[at] = log.thread[i];
            last[at] = log.thread[i];
        }
        const h = Math.floor((row - 4) * ratio), image = context.createImageData(columns, h), pixels = new Uint32Array(image.data.buffer);
        const dark = pixel(channels(theme.text)), strip = pixel(channels(theme.strip));
        for (let w = 0; w < p; w++) {
            pixels.fill(strip);
            for (let c = 0; c < columns; c++) {
                const at = w * columns + c;
                if (!busy[at]) continue;
                const stays = first[at] === last[at] && c > 0 && first[at - 1] === first[at];
                const colour = stays ? theme.pixels[first[at] % theme.pixels.length] : theme.greyPixel;
                const top = h - Math.max(1, Math.round(h * busy[at] / turns[at])), foot = h - Math.round(h * bad[at] / turns[at]);
                for (let y = top; y < h; y++) pixels[y * columns + c] = y >= foot ? dark : colour;
            }
            context.putImageData(image, Math.round(LEFT * ratio), Math.round((TICKS + w * row + 2) * ratio));
        }
    }

    // Memory

    /** The columns of the drawing: the turns in view, or of the many in a pixel the one that leaves most. Amounts by thread are found once for a view. */
    columnsOf(run, width, ratio) {
        const {log} = run, {view} = this, key = [log, log.length, view.from, view.to, width, ratio];
        if (this.kept && key.every((value, i) => value === this.kept.key[i])) return this.kept;
        const from = Math.max(0, Math.floor(view.from)), to = Math.min(log.length, Math.ceil(view.to)), room = Math.max(1, Math.floor((width - LEFT - RIGHT) * ratio));
        const turns = [], starts = [];
        if (to - from <= room) {
            for (let i = from; i < to; i++) {
                turns.push(i + 1);
                starts.push(i);
            }
        } else {
            const each = (view.to - view.from) / room;
            for (let c = 0, i = from; c < room && i < to; c++) {
                const end = Math.min(to, Math.max(i + 1, Math.round(view.from + (c + 1) * each)));
                let best = i;
                for (let k = i + 1; k < end; k++) if (log.held[k] > log.held[best]) best = k;
                turns.push(best + 1);
                starts.push(i);
                i = end;
            }
        }
        starts.push(to);
        const count = run.threads;
        if (this.amounts.length < turns.length * count) this.amounts = new Float32Array(turns.length * count);
        run.amountsAt(log, turns, this.amounts, count);
        this.kept = {key, turns, starts, count, coloured: this.coloured(turns.length, count)};
        return this.kept;
    }

    /** Which threads have their colour: all where they are few, else those with most area. */
    coloured(columns, count) {
        const area = new Float64Array(count);
        for (let c = 0, at = 0; c < columns; c++) for (let t = 0; t < count; t++, at++) area[t] += this.amounts[at];
        const seen = Array.from(area.keys()).filter((t) => area[t] > 0);
        const chosen = seen.length <= FEW ? seen : seen.sort((a, b) => area[b] - area[a]).slice(0, SOME);
        const flags = new Uint8Array(count);
        for (const t of chosen) flags[t] = 1;
        return flags;
    }

    /** The lines besides the curve, and the scale: what is far above the curve stands over a break. */
    scaleOf(run, shown) {
        const peak = Math.max(run.log.peak, run.other?.peak ?? 0, 1), {theme} = this, {M} = run.given;
        const lines = [{name: 'S1', value: run.serial, colour: theme.serial, dash: [6, 3]}, {name: shown.limitName, value: run.limits.every, colour: theme.limit, dash: [2, 3]}];
        if (run.limits.paced !== undefined) lines.push({name: `limit, b ${run.given.b}`, value: run.limits.paced, colour: theme.limit, dash: [8, 3, 2, 3]});
        if (run.limits.near !== undefined) lines.push({name: 'limit, choices 0', value: run.limits.near, colour: theme.limit, dash: [8, 3, 2, 3]});
        if (M !== null) lines.push({name: 'M', value: M, colour: theme.memory, dash: []});
        const most = 1.7 * Math.max(peak, run.serial), near = lines.filter((line) => line.value <= most), far = lines.filter((line) => line.value > most).sort((a, b) => b.value - a.value);
        return {near, far, top: Math.max(peak, ...near.map((line) => line.value)) * 1.06};
    }

    drawMemory(run, shown) {
        const {theme} = this, {context, width, height, ratio} = sized(this.memory), scale = this.scaleOf(run, shown);
        const above = scale.far.length * ZONE + (scale.far.length ? 10 : 0), base = height - 12, room = base - 16 - above, y = (amount) => base - amount / scale.top * room;
        this.layers[1].over(context, this.memory, ratio, [run.log, run.log.length, this.view.from, this.view.to, theme, scale.top, above], (own) => {
            this.amountTicks(own, width, scale.top, room, y);
            if (run.log.length) this.stack(run, own, width, ratio, y, base);
            this.curve(run.log, own, width, y, theme.text, []);
            this.bands = run.log.length ? this.bandsWithRoom(width, y) : [];
        });
        this.pale(context, this.x(run.turn, width), 0, width, height);
        if (run.other) {
            this.curve(run.other, context, width, y, theme.panel, [], 4);
            this.curve(run.other, context, width, y, theme.other, [5, 3], 1.8);
        }
        this.numbers(run, context, width);
        this.lines(context, width, scale, y, above);
        this.atCursor(run, shown, context, width, height, y);
        this.flags(run, context, width, base);
    }

    amountTicks(context, width, top, room, y) {
        const {theme} = this, by = step(top, Math.max(2, Math.floor(room / 34)));
        context.fillStyle = theme.faint;
        context.fillText('held', 8, 14);
        context.textAlign = 'right';
        for (let amount = 0; amount <= top; amount += by) {
            context.fillStyle = theme.faint;
            context.fillText(grouped(amount), LEFT - 7, y(amount) + 4);
            context.fillStyle = theme.line;
            context.fillRect(LEFT, Math.round(y(amount)), width - LEFT - RIGHT, 1);
        }
    }

    /** What each thread holds, from thread 0 upwards, painted pixel by pixel. */
    stack(run, context, width, ratio, y, base) {
        const {starts, count, turns, coloured} = this.columnsOf(run, width, ratio), {theme, view, amounts} = this;
        const columns = Math.floor((width - LEFT - RIGHT) * ratio), rows = Math.ceil(base * ratio), {layer} = this;
        const image = context.createImageData(columns, rows), pixels = new Uint32Array(image.data.buffer), gap = theme.panelPixel;
        const scale = columns / (view.to - view.from);
        for (let c = 0; c < turns.length; c++) {
            const x0 = Math.max(0, Math.round((starts[c] - view.from) * scale)), x1 = Math.min(columns, Math.max(x0 + 1, Math.round((starts[c + 1] - view.from) * scale)));
            if (x0 >= columns || x1 <= 0) continue;
            let sum = 0, bottom = Math.round(y(0) * ratio);
            for (let t = 0, at = c * count; t < count; t++, at++) {
                if (!amounts[at]) continue;
                sum += amounts[at];
                const top = Math.round(y(sum) * ratio), colour = coloured[t] ? theme.pixels[t % theme.pixels.length] : theme.greyPixel, edge = bottom - top > 3 * ratio ? top : -1;
                for (let row = Math.max(0, top); row < bottom; row++) {
                    const here = row === edge ? gap : colour;
                    for (let x = x0; x < x1; x++) pixels[row * columns + x] = here;
                }
                bottom = Math.min(bottom, top);
            }
        }
        Object.assign(layer, {width: columns, height: rows});
        layer.getContext('2d').putImageData(image, 0, 0);
        context.drawImage(layer, Math.round(LEFT * ratio) / ratio, 0, columns / ratio, rows / ratio);
    }

    /** The bands of the threads with a colour that have room for a number: thread and middle. */
    bandsWithRoom(width, y) {
        const {amounts} = this, {starts, count, turns, coloured} = this.kept, floors = new Float64Array(turns.length), found = [];
        for (let t = 0; t < count && found.length < 150; t++) {
            for (let c = 0; coloured[t] && c < turns.length;) {
                const amount = amounts[c * count + t], floor = floors[c];
                let end = c + 1;
                while (end < turns.length && amounts[end * count + t] === amount && floors[end] === floor) end++;
                if (amount > 0) {
                    const x0 = Math.max(LEFT, this.x(starts[c], width)), x1 = this.x(starts[end], width), h = y(floor) - y(floor + amount), label = String(t);
                    if (x1 - x0 > 7 * label.length + 6 && h > 11) {
                        found.push({thread: t, x: (x0 + Math.min(x1, width - RIGHT)) / 2, y: (y(floor) + y(floor + amount)) / 2 + 4});
                    }
                }
                c = end;
            }
            for (let c = 0; c < turns.length; c++) floors[c] += amounts[c * count + t];
        }
        return found;
    }

    numbers(run, context, width) {
        const {theme} = this, cursor = this.x(run.turn, width);
        context.textAlign = 'center';
        for (const {thread, x, y} of this.bands) {
            context.fillStyle = x > cursor ? theme.text : theme.on[thread % theme.on.length];
            context.fillText(String(thread), x, y);
        }
    }

    /** Memory held as a step line; of many turns in a pixel the most. */
    curve(log, context, width, y, colour, dash, wide = 1.4) {
        const {view} = this, from = Math.max(0, Math.floor(view.from)), to = Math.min(log.length, Math.ceil(view.to));
        if (to <= from) return;
        context.strokeStyle = colour;
        context.lineWidth = wide;
        context.setLineDash(dash);
        context.beginPath();
        let held = from ? log.held[from - 1] : 0, pixelAt = -1, most = -1;
        context.moveTo(Math.max(LEFT, this.x(from, width)), y(held));
        const dense = (view.to - view.from) > 2 * (width - LEFT - RIGHT);
        for (let i = from; i < to; i++) {
            if (dense) {
                const at = Math.floor(this.x(i, width));
                most = at === pixelAt ? Math.max(most, log.held[i]) : log.held[i];
                pixelAt = at;
                if (i + 1 < to && Math.floor(this.x(i + 1, width)) === at) continue;
                context.lineTo(Math.max(LEFT, at), y(most));
            } else if (log.held[i] !== held) {
                const x = Math.max(LEFT, this.x(i, width));
                context.lineTo(x, y(held));
                context.lineTo(x, y(log.held[i]));
            }
            held = log.held[i];
        }
        context.lineTo(Math.max(LEFT, Math.min(this.x(to, width), width - RIGHT)), y(held));
        context.stroke();
        context.setLineDash([]);
    }

    lines(context, width, {near, far}, y, above) {
        const {theme} = this, labels = [];
        const line = ({colour, dash}, at) => {
            context.strokeStyle = colour;
            context.lineWidth = 1.6;
            context.setLineDash(dash);
            context.beginPath();
            context.moveTo(LEFT, at);
            context.lineTo(width - RIGHT, at);
            context.stroke();
            context.setLineDash([]);
        };
        far.forEach((one, i) => {
            const at = 10 + i * ZONE;
            line(one, at);
            labels.push({...one, at, text: `${one.name} ${grouped(one.value)} (above the scale)`});
        });
        if (far.length) {
            context.strokeStyle = theme.faint;
            context.lineWidth = 1;
            context.beginPath();
            for (let x = LEFT; x < width - RIGHT; x += 8) {
                context.moveTo(x, above + 4);
                context.lineTo(x + 5, above - 1);
            }
            context.stroke();
        }
        for (const one of near) {
            line(one, y(one.value));
            labels.push({...one, at: y(one.value) - 8, text: `${one.name} ${grouped(one.value)}`});
        }
        this.labels(context, width, labels);
    }

    /** The words on the lines, at the right, moved down so far that none covers another. */
    labels(context, width, labels) {
        let free = -99;
        context.textAlign = 'right';
        context.font = '600 ' + FONT;
        for (const {at, text, colour} of labels.sort((a, b) => a.at - b.at)) {
            const y = Math.max(at, free + 14), wide = context.measureText(text).width + 8;
            free = y;
            context.globalAlpha = 0.85;
            context.fillStyle = this.theme.panel;
            context.fillRect(width - RIGHT - wide, y - 7, wide, 14);
            context.globalAlpha = 1;
            context.fillStyle = colour;
            context.fillText(text, width - RIGHT - 4, y + 4);
        }
        context.font = FONT;
    }

    atCursor(run, {next, hover}, context, width, height, y) {
        const x = this.x(run.turn, width), seen = hover ?? next, {theme} = this;
        if (x >= LEFT - 1) {
            context.fillStyle = theme.text;
            context.fillRect(Math.round(x) - 0.5, 0, 1.2, height - 12);
        }
        if (!seen?.preview) return;
        const end = Math.max(this.x(run.turn + 1, width), x + 14), before = run.record.held;
        context.strokeStyle = theme.next;
        context.lineWidth = 2;
        context.setLineDash([3, 2]);
        context.beginPath();
        context.moveTo(x, y(before));
        context.lineTo(x, y(seen.preview.held));
        context.lineTo(end, y(seen.preview.held));
        context.stroke();
        context.setLineDash([]);
    }

    flags(run, context, width, base) {
        context.textAlign = 'center';
        run.marks.forEach((mark, i) => {
            if (!mark) return;
            const x = this.x(mark.turn, width);
            if (x < LEFT - 1 || x > width - RIGHT + 1) return;
            context.fillStyle = this.theme.next;
            context.fillRect(x - 6, base - 12, 12, 12);
            context.beginPath();
            context.moveTo(x - 5, base + 8);
            context.lineTo(x + 5, base + 8);
            context.lineTo(x, base + 2);
            context.fill();
            context.fillStyle = this.theme.panel;
            context.fillText(String(i), x, base - 2);
        });
    }
}
