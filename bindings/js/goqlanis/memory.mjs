/* The WebAssembly module: its memory, its structs and its calls. Addresses and lengths have 64 bits
   there, as in the C library that it is made of. */

import { ANSWERS, CALLS, DEFAULTS, STRUCTS, VERSION } from "./numbers.mjs";
import { refusal } from "./errors.mjs";

const NAMES = ANSWERS.split(" ");
const SIZES = { "": 4, size: 8, data: 8 };

let compiled = null; /* the WebAssembly.Module */
let live = null; /* the exports of its instance */

export async function load(source) {
    if (live === null || source !== undefined)
        begin(await moduleOf(await source ?? new URL("goqlanis.wasm", import.meta.url)));
}

async function moduleOf(source) {
    if (source instanceof WebAssembly.Module)
        return source;
    if (source instanceof ArrayBuffer || ArrayBuffer.isView(source))
        return WebAssembly.compile(source);
    if (typeof Response !== "undefined" && source instanceof Response)
        return WebAssembly.compile(await source.arrayBuffer());
    const place = new URL(source, import.meta.url);
    if (place.protocol === "file:" && typeof process !== "undefined") {
        const files = await import(/* webpackIgnore: true */ /* @vite-ignore */ "node:fs/promises");
        return WebAssembly.compile(await files.readFile(place));
    }
    const response = await fetch(place);
    if (!response.ok)
        throw new Error(`${place}: HTTP status ${response.status}`);
    return moduleOf(response);
}

function begin(module) {
    const made = new WebAssembly.Instance(module).exports;
    const version = made.goq_version?.() ?? 0;
    if (version !== VERSION)
        throw new Error(`goqlanis.wasm is of version ${version}, and this package of ${VERSION}: `
            + "take both of the same release");
    [compiled, live] = [module, made];
}

export function memoryBytes() {
    return live?.memory.buffer.byteLength ?? 0;
}

function loaded() {
    if (live === null)
        throw new Error("call `await load()` first: it loads goqlanis.wasm");
    return live;
}

/** Calls a function of the C library that returns a number: addresses and lengths become BigInt. */
export function number(name, ...values) {
    const wide = CALLS[name], exported = loaded();
    try {
        return exported[name](...values.map((it, at) => (wide[at] === "w" ? BigInt(it) : it)));
    } catch (error) {
        if (error instanceof WebAssembly.RuntimeError)
            begin(compiled); /* after a trap no export runs again: begin with a new memory */
        throw error;
    }
}

/** Calls `work` with buffers of the module's memory, which are given back after it. */
export function within(work) {
    const buffers = new Buffers();
    try {
        return work(buffers);
    } finally {
        buffers.free();
    }
}

class Buffers {
    #places = [];
    #of = loaded(); /* the instance that has the buffers: after a trap there is another */

    /** Returns the address of a buffer of `length` bytes of any content. */
    room(length) {
        const place = Number(this.#of.host_alloc(BigInt(length)));
        if (place === 0)
            throw refusal("OUT_OF_MEMORY");
        this.#places.push(place);
        return place;
    }

    /** Returns the address of a copy of bytes. */
    bytes(bytes) {
        const place = this.room(bytes.length);
        new Uint8Array(this.#of.memory.buffer, place, bytes.length).set(bytes);
        return place;
    }

    /** Returns the address of structs with these fields; others are 0. */
    structs(name, rows) {
        const { size, fields } = laidOut(name);
        const place = this.bytes(new Uint8Array(size * rows.length));
        const view = new DataView(this.#of.memory.buffer, place, size * rows.length);
        rows.forEach((row, at) => fields.forEach(([field, kind, offset]) => {
            if (SIZES[kind] === 8)
                view.setBigUint64(at * size + offset, BigInt(row[field] ?? 0), true);
            else if (kind === "")
                view.setUint32(at * size + offset, row[field] ?? 0, true);
        }));
        return place;
    }

    /** Returns the address of a struct that begins with its size, as GOQ_OPTIONS and the like make
        it, with these fields changed. */
    initial(name, changed = {}) {
        const { size, fields } = laidOut(name);
        const row = { size };
        fields.slice(1).forEach(([field], at) => { row[field] = DEFAULTS[name][at]; });
        return this.structs(name, [{ ...row, ...changed }]);
    }

    /** Returns the struct at an address, the `at`th of several. */
    struct(name, place, at = 0) {
        const { size, fields } = laidOut(name);
        const view = new DataView(this.#of.memory.buffer, place + at * size, size);
        return Object.fromEntries(fields.map(([field, kind, offset]) => [field,
            SIZES[kind] === 8 ? Number(view.getBigUint64(offset, true))
            : kind === "" ? view.getUint32(offset, true)
            : this.struct(kind, place + at * size + offset)]));
    }

    /** Returns the address of `count` structs for output. */
    many(name, count) {
        return this.room(laidOut(name).size * count);
    }

    copy(place, length) {
        return new Uint8Array(this.#of.memory.buffer, place, length).slice();
    }

    /** Returns `count` numbers of 64 bits. */
    sizes(place, count = 1) {
        const view = new DataView(this.#of.memory.buffer, place, 8 * count);
        return Array.from({ length: count }, (_, at) => Number(view.getBigUint64(8 * at, true)));
    }

    /** Gives all buffers back, unless their instance is gone. */
    free() {
        if (this.#of === live)
            this.#places.forEach((it) => live.host_free(BigInt(it)));
    }
}

/** Returns the name of a number that the library answers, as "NO_ROOM". */
export const nameOf = (number) => NAMES[number];

/** Returns the name of the library's answer; throws OutOfMemory. */
export function answer(name, ...values) {
    const said = nameOf(number(name, ...values));
    if (said === "OUT_OF_MEMORY")
        throw refusal(said);
    return said;
}

const known = new Map();

/** Returns the size of a struct and its fields: names, kinds and offsets, as C lays them out. */
function laidOut(name) {
    if (!known.has(name)) {
        let end = 0, most = 4;
        const fields = STRUCTS[name].split(" ").map((it) => {
            const [field, kind = ""] = it.split(":");
            const inner = SIZES[kind] ? { size: SIZES[kind], most: SIZES[kind] } : laidOut(kind);
            const offset = Math.ceil(end / inner.most) * inner.most;
            end = offset + inner.size;
            most = Math.max(most, inner.most);
            return [field, kind, offset];
        });
        known.set(name, { size: Math.ceil(end / most) * most, most, fields });
    }
    return known.get(name);
}
