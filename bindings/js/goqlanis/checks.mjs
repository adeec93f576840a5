/* Checks of arguments, before the library sees them. */

import { QrError } from "./errors.mjs";
import { CHARSETS } from "./numbers.mjs";

export const LEVELS = ["L", "M", "Q", "H"];
/* The names of options in other packages, and what to use here. */
const OTHERS = { errorCorrectionLevel: "level: 'H'", error: "level: 'H'", ecLevel: "level: 'H'",
    maskPattern: "mask: 3", margin: "quietZone: 4", border: "quietZone: 4", width: "size: 300",
    color: "dark: 'navy', light: 'white'", cellSize: "scale: 8", moduleSize: "scale: 8",
    typeNumber: "version: 7", fill: "dark: 'navy'", background: "light: 'white'",
    charset: "charset of encode", type: ".svg(), .png() or .draw('pdf')" };
const encoder = new TextEncoder();

/** Returns a value for a message, cut to 40 characters. */
export function shown(value) {
    const said = typeof value === "string" ? `'${value}'` : typeof value === "bigint" ? `${value}n`
        : Array.isArray(value) ? "an array" : value instanceof Object ? "an object" : `${value}`;
    return said.length <= 40 ? said : `${said.slice(0, 38)}..`;
}

/** Returns a number for a message, as 1,234. */
export function grouped(value) {
    return `${value}`.replace(/\B(?=(\d{3})+$)/g, ",");
}

/** Returns the options of a call, which must be known, over their defaults. */
export function options(call, given, defaults) {
    if (given === null || typeof given !== "object")
        throw new TypeError(
            `${call}: the options are an object, as {level: 'H'}, not ${shown(given)}`);
    for (const name of Object.keys(given))
        if (!Object.keys(defaults).includes(name))
            throw new TypeError(`${call} has no option '${name}': `
                + (Object.keys(OTHERS).includes(name) ? `take ${OTHERS[name]}`
                    : `it takes ${Object.keys(defaults).join(", ")}`));
    const defined = Object.entries(given).filter(([, value]) => value !== undefined);
    return { ...defaults, ...Object.fromEntries(defined) };
}

/** Returns a whole number in a range; beyond it, throws an error of this cause. */
export function whole(name, value, least, most, cause = "") {
    const range = `${name} is a whole number from ${grouped(least)} to ${grouped(most)}`;
    if (!Number.isInteger(value)) {
        const isNear = typeof value === "number" || typeof value === "bigint"
            || (typeof value === "string" && value.trim() !== "");
        const near = isNear ? Math.round(Number(value)) : NaN;
        const helps = near >= least && near <= most ? `: take ${near}` : "";
        throw new TypeError(`${range}, not ${shown(value)}${helps}`);
    }
    if (value >= least && value <= most)
        return value;
    const said = `${range}, not ${grouped(value)}`;
    throw cause ? new QrError(cause, said) : new RangeError(said);
}

export function flag(name, value) {
    if (typeof value !== "boolean")
        throw new TypeError(`${name} is true or false, not ${shown(value)}`);
    return value;
}

export function utf8(name, value) {
    if (typeof value !== "string")
        throw new TypeError(`${name} is a string, not ${shown(value)}`);
    if (/\p{Surrogate}/u.test(value))
        throw new TypeError(`${name} has half of a surrogate pair: take all of the character`);
    return encoder.encode(value);
}

/** Returns bytes, or null if the value has none. */
export function bytesOf(value) {
    if (!(value instanceof ArrayBuffer) && !ArrayBuffer.isView(value))
        return null;
    try {
        value.keys?.(); /* a view that lies outside its buffer has none */
        return value instanceof ArrayBuffer ? new Uint8Array(value)
            : new Uint8Array(value.buffer, value.byteOffset, value.byteLength);
    } catch {
        throw new TypeError("these bytes are gone: their buffer was resized or transferred");
    }
}

/** Returns data as bytes, and whether it is text. */
export function data(value) {
    if (typeof value === "string")
        return [utf8("data", value), true];
    const bytes = bytesOf(value);
    if (bytes === null)
        throw new TypeError(`data is a string, a Uint8Array or an ArrayBuffer, not ${shown(value)}`
            + (typeof value === "number" ? `: take '${value}'`
                : Array.isArray(value) ? ": take Uint8Array.from(..), or encodeSegments" : ""));
    return [bytes, false];
}

export function level(value) {
    if (typeof value !== "string")
        throw new TypeError(`level is one of 'L', 'M', 'Q' and 'H', not ${shown(value)}`);
    const at = LEVELS.indexOf(value.toUpperCase());
    if (at < 0)
        throw new QrError("NoSuchLevel", `no level ${shown(value)}: take L, M, Q or H`);
    return at;
}

/** Returns the library's number of a character set, or nothing for the shortest. */
export function charset(value) {
    if (typeof value !== "string")
        throw new TypeError(`charset is a string, as 'shortest', not ${shown(value)}`);
    const name = value.toLowerCase().replace(/_/g, "-").replace("iso8859", "iso-8859")
        .replace("utf8", "utf-8");
    if (name === "shortest")
        return [];
    if (!Object.keys(CHARSETS).includes(name))
        throw new QrError("NoSuchSet", `no charset ${shown(value)}: take 'shortest', 'utf-8', 'shift-jis', `
            + "'iso-8859-1' to 'iso-8859-16', without 12, "
            + "or 'windows-1250', -1251, -1252 or -1256");
    return [CHARSETS[name]];
}

/** Returns the name of a character set by the library's number; 0 is UTF-8 too. */
export function charsetName(number) {
    return Object.keys(CHARSETS).find((name) => CHARSETS[name] === number) ?? "utf-8";
}

/** Returns the library's number of a version: 1 to 40, or 41 to 44 for M1 to M4. */
export function version(value) {
    if (typeof value !== "string" && !Number.isInteger(value))
        throw new TypeError(`a version is 1 to 40 or 'M1' to 'M4', not ${shown(value)}`);
    const found = /^(?:([1-9]|[123][0-9]|40)|[Mm]([1-4]))$/.exec(`${value}`);
    if (found === null)
        throw new QrError("NoSuchVersion", `no version ${shown(value)}: take 1 to 40 or M1 to M4`);
    return found[1] ? Number(found[1]) : 40 + Number(found[2]);
}

/** Returns the name of a version, as "7" or "M3", by the library's number. */
export function versionName(number) {
    return number > 40 ? `M${number - 40}` : `${number}`;
}

/** Returns the items of an iterable that is no text. */
export function listed(name, value, of) {
    if (typeof value === "string" || typeof value?.[Symbol.iterator] !== "function")
        throw new TypeError(`${name}: an array of ${of}, not ${shown(value)}`);
    return [...value];
}

/** Returns UTF-8 as text, or null if the bytes are not UTF-8. */
export function textOf(bytes) {
    try {
        return new TextDecoder("utf-8", { fatal: true, ignoreBOM: true }).decode(bytes);
    } catch {
        return null;
    }
}
