/* Payloads of QR codes: Wi-Fi networks, contacts, payments and so on, and GS1 elements. */

import * as checks from "./checks.mjs";
import { QrError, refusal, refuse } from "./errors.mjs";
import { answer, within } from "./memory.mjs";
import { BYTES_MAX, CAUSES, HINTS, PAYLOADS, RANGES } from "./numbers.mjs";
import { grouped, shown } from "./checks.mjs";

export function payload(kind, fields) {
    if (!Object.keys(PAYLOADS).includes(kind))
        throw new RangeError(
            `no kind ${shown(kind)}: take one of ${Object.keys(PAYLOADS).join(", ")}`);
    const names = Object.keys(PAYLOADS[kind].fields);
    const given = checks.options(kind, fields, Object.fromEntries(names.map((it) => [it, ""])));
    const texts = names.map((name) => checks.utf8(name, textOf(name, given[name])));
    const { said, data, at } = written("goq_content", (buffers) => {
        const rows = texts.map((it) => ({ bytes: buffers.bytes(it), length: it.length }));
        return [PAYLOADS[kind].number, buffers.structs("goq_field", rows), rows.length];
    });
    if (CAUSES[said]?.[2])
        throw wrongField(said, names[at] ?? "text", kind);
    refuse(said);
    const text = checks.textOf(data);
    if (text.startsWith("WIFI:T:WPA;") && /^.{1,7}$/su.test(given.password))
        console.warn("password: it has fewer than 8 characters, which WPA needs");
    return text;
}

/** Returns the answer of a call, and what it writes or the place of what is wrong; `given` puts its
    inputs into buffers. */
function written(call, given) {
    return within((buffers) => {
        const out = buffers.room(BYTES_MAX), count = buffers.room(8), place = buffers.room(8);
        const said = answer(call, ...given(buffers), out, BYTES_MAX, count, place);
        if (said === "SMALL_BUFFER")
            throw refusal("NO_ROOM",
                `no code holds a text of more than ${grouped(BYTES_MAX)} bytes`);
        return said === "OK" ? { said, data: buffers.copy(out, buffers.sizes(count)[0]) }
            : { said, at: buffers.sizes(place)[0] };
    });
}

export const [wifi, mecard, vcard, payment, bill, mail, geo, tel, sms, otp, event, upi, pix,
    promptpay] = Object.keys(PAYLOADS).map((kind) => (fields) => payload(kind, fields));

/** Returns the text of a field: of a string, a number, true or false, a date, or null. */
function textOf(name, value) {
    if (value === null || value === false)
        return "";
    if (value === true)
        return "true";
    if (value instanceof Date && !Number.isNaN(value.getTime())) {
        const zone = value % 864e5 && 6e4 * value.getTimezoneOffset(); /* 0: it is a day of UTC */
        if (name === "birthday")
            return new Date(value - zone).toISOString().slice(0, 10);
        const [whole, rest] = value.toISOString().split(".");
        if (rest !== "000Z")
            console.warn(`${name}: calendars have whole seconds: .${rest.slice(0, 3)} is left out`);
        return `${whole}Z`;
    }
    if (typeof value === "bigint" || (typeof value === "number" && Number.isFinite(value)))
        return /e[+]/.test(`${value}`) ? `${BigInt(value)}`
            : /e-/.test(`${value}`) ? value.toFixed(20) : `${value}`;
    if (typeof value !== "string")
        throw new TypeError(
            `${name} is a string, a number, a Date, true or false, not ${shown(value)}`);
    return value;
}

/** Returns the error for a field: what is wrong, and what would help. */
function wrongField(said, field, kind) {
    const [name, why] = CAUSES[said];
    const key = kind === "bill" ? field.replace(/^debtor|number$/gi, "").toLowerCase() : field;
    const [helps, mark] = said === "FIELD_RANGE" ? [RANGES[field], ":"]
        : ["FIELD_TOO_LONG", "FIELD_TOO_SHORT", "FIELD_CHARACTER"].includes(said)
            ? [HINTS[key], ";"] : [];
    return new QrError(name, `${field}: ${why}${helps ? `${mark} ${helps}` : ""}`, field);
}

export function gs1(elements) {
    const pairs = checks.listed("elements", elements, "pairs, as ['01', '09501101530003']");
    if (pairs.length === 0)
        throw wrongField("FIELD_EMPTY", "elements");
    const { said, data, at } = stringOf(pairs);
    if (CAUSES[said]?.[2])
        throw new QrError(CAUSES[said][0], `element ${at + 1}${wrongElement(said, pairs[at])}`,
            `elements[${at}]`);
    refuse(said);
    return data;
}

const stringOf = (pairs) => written("goq_gs1", (buffers) => elementsOf(buffers, pairs));

/** Returns the address and the number of elements for the library. */
export function elementsOf(buffers, pairs) {
    const rows = pairs.map((pair, at) => {
        if (!Array.isArray(pair) || pair.length !== 2)
            throw new TypeError(`element ${at + 1} is a pair, as ['01', '09501101530003'], `
                + `not ${shown(pair)}`);
        const [identifier, value] = pair.map((it) =>
            checks.utf8(`each part of element ${at + 1}`, it));
        return { identifier: buffers.bytes(identifier), identifier_length: identifier.length,
            value: buffers.bytes(value), value_length: value.length };
    });
    return [buffers.structs("goq_element", rows), rows.length];
}

function wrongElement(said, [identifier, value]) {
    if (said === "NO_SUCH_IDENTIFIER" && identifier.startsWith("("))
        return `: write ${identifier.replace(/[()]/g, "").slice(0, 38)} without brackets`;
    const why = said === "NO_SUCH_IDENTIFIER"
        ? "no such identifier is known; they have two to four digits, as 01, 414 and 3103"
        : said === "ELEMENT_LENGTH"
            ? `its value has ${grouped(value.length)} characters; it needs ${lengths(identifier)}`
            : CAUSES[said][1];
    return `, (${identifier.slice(0, 38)}): ${why}`;
}

/** Says how many characters a value may have: one number, or from one to another. */
function lengths(identifier) {
    const taken = Array.from({ length: 91 }, (_, count) => count).filter((count) =>
        stringOf([[identifier, "0".repeat(count)]]).said !== "ELEMENT_LENGTH");
    return [...new Set([taken[0], taken[taken.length - 1]])].join(" to ");
}
