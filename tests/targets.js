// The driver of tests/targets.py for wasm32: what tests/targets.c does, on the calls that a module exports. Pointers are numbers, lengths and numbers of 64 bits are BigInts.
// usage: node tests/targets.js MODULE SIGNATURES < SCRIPT > ANSWERS
// SIGNATURES: of each call its name and a letter for each argument: p, a pointer; w, 32 bits; l, 64 bits.
'use strict';
const fs = require('fs');

const MEMORY = 4 << 20;
const module_ = new WebAssembly.Module(fs.readFileSync(process.argv[2]));
const imports = WebAssembly.Module.imports(module_);
if (imports.length > 0) throw new Error('the module imports ' + imports[0].name);
const calls = new WebAssembly.Instance(module_).exports;
const signatures = JSON.parse(fs.readFileSync(process.argv[3]));
const base = (calls.__heap_base.value + 63) & ~63;
calls.memory.grow(Math.ceil((base + MEMORY - calls.memory.buffer.byteLength) / 65536));
const bytes = new Uint8Array(calls.memory.buffer);
const words = new Uint32Array(calls.memory.buffer);
const script = fs.readFileSync(0);
const answers = [];
let at = 0;

const short = () => { at += 4; return script.readUInt32LE(at - 4); };

function call() {
    const [name, letters] = signatures[script[at]];
    const count = script[at + 1], stretches = script[at + 2];
    at += 3;
    if (count !== letters.length) throw new Error(name + ': another count of arguments');
    const values = [];
    for (const letter of letters) {
        values.push(letter === 'l' ? script.readBigUInt64LE(at) : letter === 'p' ? base + script.readUInt32LE(at) : script.readUInt32LE(at) | 0);
        at += 8;
    }
    const result = calls[name](...values);
    let first = 2166136261 | 0, second = 1;
    for (let i = 0; i < stretches; i++) {
        const place = (base + short()) >> 2, end = place + (short() >> 2);
        for (let k = place; k < end; k++) {
            first = Math.imul(first ^ words[k], 16777619);
            second = Math.imul((second << 5 | second >>> 27) + words[k] | 0, 2654435769);
        }
    }
    answers.push(result === undefined ? 0 : result, first, second);
}

for (;;) {
    const what = script[at++];
    if (what === 0) break;
    if (what === 1) call();
    else if (what === 2) {
        const place = base + short(), count = short();
        bytes.set(script.subarray(at, at + count), place);
        at += count;
    } else throw new Error('a script that is cut off');
}
fs.writeSync(1, Buffer.alloc(0));
const out = Buffer.from(Int32Array.from(answers).buffer);
for (let done = 0; done < out.length;) done += fs.writeSync(1, out, done);
