/* Makes calls of goqlanis.wasm for a script in another language: raw.mjs MODULE reads lines of JSON,
   [call, arguments], and writes for each [result, what buffers then hold]. An argument is a number,
   digits for one of 64 bits, or a buffer: [hex, [[offset, hex], ..]], with pointers at offsets. */

import { readFileSync } from "node:fs";
import { createInterface } from "node:readline";

const module = new WebAssembly.Module(readFileSync(process.argv[2]));
const { exports: raw } = new WebAssembly.Instance(module);
let places = [];

/** Returns the address of a new buffer with these bytes. */
function put(hex) {
    const bytes = Buffer.from(hex, "hex"), place = raw.host_alloc(BigInt(bytes.length));
    new Uint8Array(raw.memory.buffer, Number(place), bytes.length).set(bytes);
    places.push(place);
    return place;
}

/** Returns an argument as the module takes it. */
function word(it) {
    if (!Array.isArray(it))
        return typeof it === "string" ? BigInt(it) : it;
    const place = put(it[0]);
    for (const [offset, hex] of it[1]) {
        const inner = put(hex);
        new DataView(raw.memory.buffer).setBigUint64(Number(place) + offset, inner, true);
    }
    return place;
}

for await (const line of createInterface({ input: process.stdin })) {
    const [call, given] = JSON.parse(line), words = given.map(word);
    const result = Number(raw[call](...words));
    const held = given.map((it, at) => (Array.isArray(it) ? Buffer.from(raw.memory.buffer,
        Number(words[at]), it[0].length / 2).toString("hex") : null));
    places.forEach((it) => raw.host_free(it));
    places = [];
    process.stdout.write(`${JSON.stringify([result, held])}\n`);
}
