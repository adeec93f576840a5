/* Tries wrong arguments, memory over COUNT calls, and answers when memory runs out or a call traps.
   trials.mjs FOLDER [COUNT]; the last line is 'N passed, M failed'. */

import { readFileSync } from "node:fs";
import { resolve } from "node:path";
import { pathToFileURL } from "node:url";

const folder = pathToFileURL(`${resolve(process.argv[2])}/`);
const count = Number(process.argv[3] ?? 100_000);
const bytes = readFileSync(new URL("goqlanis.wasm", folder));
const goqlanis = await import(new URL("index.mjs", folder));
const { number } = await import(new URL("memory.mjs", folder));
const { CALLS } = await import(new URL("numbers.mjs", folder));
const counts = [0, 0];

function note(name, holds, said = "") {
    counts[holds ? 0 : 1]++;
    console.log(`${holds ? "passed" : "FAILED"}: ${name}${holds ? "" : `: ${said}`}`);
}

function leb(value) {
    return value < 128 ? [value] : [(value & 127) | 128, ...leb(value >> 7)];
}

function unleb(at) {
    for (let value = 0, shift = 0; ; shift += 7) {
        value |= (bytes[at] & 127) << shift;
        if (bytes[at++] < 128)
            return [value, at];
    }
}

/** Returns the module with a memory of at most so many pages. */
function limited(pages) {
    for (let at = 8; ;) {
        const [length, start] = unleb(at + 1);
        if (bytes[at] === 5) {
            const least = unleb(start + 2)[0];
            const section = [1, 1, ...leb(least), ...leb(Math.max(pages, least))];
            return Uint8Array.from([...bytes.subarray(0, at), 5, section.length, ...section,
                ...bytes.subarray(start + length)]);
        }
        at = start + length;
    }
}

/* Calls of each kind. */
const text = "The quick brown fox jumps over the lazy dog. ".repeat(30);
const TRIALS = {
    encode: (it) => it.encode(text).modules,
    charset: (it) => it.encode("Привет, мир", { charset: "shortest" }).modules,
    several: (it) => it.encodeSequence(text, { count: 4 }).map((code) => code.modules).flat(),
    segments: (it) => it.encodeSegments([["eci", 26], ["byte", text]]).modules,
    gs1: (it) => it.encodeGs1([["01", "09501101530003"], ["10", "ABC"]]).modules,
    svg: (it) => it.encode(text).svg(),
    png: (it) => it.encode("01234567").png({ scale: 20 }),
    payload: (it) => it.wifi({ ssid: "Guests", password: "pass;word" }),
    read: (it) => it.read(it.encode("01234567").png())[0].data,
    check: (it) => `${it.check(it.encode("01234567").png())[0]}`,
    join: (it) => it.join(it.encodeSequence("01234567", { count: 2 })),
    reserve: (it) => it.encode("01234567", { level: "H" }).withArea().modules,
    refused: (it) => {
        try {
            return it.encode(text.repeat(3));
        } catch (error) {
            if (error.name === "NoRoom")
                return error.message;
            throw error;
        }
    },
};

await goqlanis.load();
const wanted = Object.fromEntries(Object.entries(TRIALS)
    .map(([name, call]) => [name, `${call(goqlanis)}`]));

/* The rows of calls.txt: what is made of a call, or how it is refused. */
const heard = [], known = { ...goqlanis, one: goqlanis.encode("1"), outside, heard };
console.warn = (it) => heard.push(it);

/** Returns a view of bytes that its buffer no longer has. */
function outside() {
    const buffer = new ArrayBuffer(16, { maxByteLength: 16 }), view = new Uint8Array(buffer, 8, 8);
    buffer.resize(8);
    return view;
}

for (const row of `${readFileSync(new URL("calls.txt", import.meta.url))}`.split("\n")) {
    const [call, name, part] = row.split(" | ");
    if (name === undefined || call.startsWith("#"))
        continue;
    let said = "";
    try {
        said = `${new Function(...Object.keys(known), `return ${call}`)(...Object.values(known))}`;
    } catch (error) {
        said = `${error.name}: ${error.message}$`;
    }
    const holds = part === undefined ? said === name
        : said.startsWith(`${name}: `) && said.includes(part) && said.length <= 250;
    note(call, holds, said);
}

/* With too little memory a call says so, or makes what it always makes. */
const found = { right: 0, OutOfMemory: 0 };
const wrong = [];
for (let pages = 17; pages < 140; pages += pages < 40 ? 1 : 7) {
    await goqlanis.load(limited(pages));
    for (const [name, call] of Object.entries(TRIALS))
        try {
            const made = `${call(goqlanis)}`;
            if (made === wanted[name])
                found.right++;
            else
                wrong.push(`${name} at ${pages}`);
        } catch (error) {
            if (error.name === "OutOfMemory")
                found.OutOfMemory++;
            else
                wrong.push(`${name} at ${pages}: ${error}`);
        }
}
note(`out of memory is an answer: ${found.OutOfMemory} times, and ${found.right} right ones`,
    wrong.length === 0 && found.right > 100 && found.OutOfMemory > 20,
    wrong.slice(0, 3).join(", "));

/* Nothing is exported but the calls, memory and its two calls. */
const built = new WebAssembly.Module(bytes);
const exported = WebAssembly.Module.exports(built).map((it) => it.name);
const wished = [...Object.keys(CALLS), "memory", "__heap_base", "host_alloc", "host_free"];
note("the module exports the calls alone, and imports nothing",
    exported.sort().join() === wished.sort().join()
    && WebAssembly.Module.imports(built).length === 0, exported);

/* After a trap no export runs, and the package begins with a new memory. */
const { exports: raw } = new WebAssembly.Instance(built);
const traps = (call) => {
    try {
        call();
        return "";
    } catch (error) {
        return error.constructor === WebAssembly.RuntimeError ? error.message : `${error}`;
    }
};
const bounds = traps(() => raw.goq_mask(0xfffffff0n, 441n, 16n));
const after = [() => raw.goq_version(), () => raw.host_alloc(16n), () => raw.host_free(0n)]
    .map(traps);
note("a wrong address traps, and then each call", bounds !== "" && after.every((it) => it !== ""),
    JSON.stringify([bounds, after]));
await goqlanis.load(bytes);
const thrown = traps(() => number("goq_mask", 0xfffffff0, 441, 16));
note("the package goes on after a trap",
    thrown !== "" && `${goqlanis.encode(text).modules}` === wanted.encode, thrown);

/* Many calls, and the memory as it was; each tenth call is refused. */
const code = goqlanis.encode("seat 12");
const calls = [() => goqlanis.encode("seat 12"), () => code.svg(), () => code.mask,
    () => goqlanis.wifi({ ssid: "Guests", password: "pass;word" }), () => goqlanis.readSquare(code),
    () => goqlanis.encode("12345", { micro: true }),
    () => code.reserve({ left: 9, top: 9, width: 1, height: 1 }),
    () => goqlanis.checkSquare(code), () => goqlanis.gs1([["10", "ABC"]]),
    () => goqlanis.payment({ name: "A", iban: "BE72000000001617", amount: 1 })];
const memory = () => goqlanis.memoryBytes();
const turn = (times) => {
    for (let at = 0; at < times; at++)
        try {
            calls[at % calls.length]();
        } catch (error) {
            if (error.name !== "WrongCheckDigits")
                throw error;
        }
};
turn(1000);
globalThis.gc?.();
const [before, resident] = [memory(), process.memoryUsage().rss];
const began = performance.now();
turn(count);
const more = process.memoryUsage().rss - resident;
note(`${count} calls in ${Math.round((performance.now() - began) / 1000)} s: the module has `
    + `${before / 65536} pages as before, the process ${Math.round(more / 2 ** 20)} MiB more`,
    memory() === before && more < 200 * 2 ** 20, `${memory()} bytes, ${more} more`);
console.log(`${counts[0]} passed, ${counts[1]} failed`);
process.exitCode = Number(counts[1] > 0);
