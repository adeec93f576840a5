/* Encodes data, text, segments and GS1 elements. */

import * as checks from "./checks.mjs";
import { QrCode } from "./code.mjs";
import { elementsOf, gs1 } from "./contents.mjs";
import { refusal } from "./errors.mjs";
import { answer, number, within } from "./memory.mjs";
import { ALPHANUMERIC, AS_BYTES, AS_MARKED_TEXT, AS_TEXT, BYTES, CHARSETS, ECI, FNC1_FIRST,
    FNC1_SECOND, KANJI, MODULES_MAX, NUMERIC, SEVERAL_MAX } from "./numbers.mjs";
import { LEVELS, charsetName, grouped, shown, versionName } from "./checks.mjs";

const MICRO_1 = 41, MOST_SET = 999999, MOST_DATA = 1048576;
export const KINDS = { numeric: NUMERIC, alphanumeric: ALPHANUMERIC, byte: BYTES, kanji: KANJI,
    eci: ECI, fnc1First: FNC1_FIRST, fnc1Second: FNC1_SECOND };
const IN_MODES = ["numeric holds only digits",
    "alphanumeric holds only digits, capitals, spaces and $%*+-./:", "",
    "kanji holds only Shift JIS, 8140 to 9ffc and e040 to ebbf"];

/** Returns the library's answer to a request by a call, the codes that it made, and the place of
    what is wrong. */
function ask(call, request, most = 1) {
    return within((buffers) => {
        const modules = buffers.room(most * MODULES_MAX), symbol = buffers.many("goq_symbol", 1);
        const count = buffers.room(8), chosen = buffers.structs("goq_symbol", [{}]);
        const said = call(buffers, request, [modules, most * MODULES_MAX, symbol], count, chosen);
        if (said !== "OK")
            return [said, [], buffers.sizes(count)[0]];
        const charset = request.sets === undefined ? null
            : charsetName(buffers.struct("goq_symbol", chosen).version); /* its first field */
        const { version, level, width } = buffers.struct("goq_symbol", symbol);
        const codes = Array.from({ length: most > 1 ? buffers.sizes(count)[0] : 1 }, (_, at) =>
            new QrCode(buffers.copy(modules + at * width * width, width * width),
                versionName(version), LEVELS[level], null, charset));
        return ["OK", codes];
    });
}

/* The calls of each kind of request, which has the fields of the library's options and what is
   encoded; its `version` is 0 for any. */

const dataOf = (buffers, { data }) => [buffers.bytes(data), data.length];

const askData = (buffers, it, out) =>
    answer("goq_encode_with", ...dataOf(buffers, it), buffers.initial("goq_options", it), ...out);

const askText = (buffers, it, out, place, chosen) => {
    const numbers = buffers.bytes(new Uint8Array(Uint32Array.from(it.sets).buffer));
    return answer("goq_encode_charset", ...dataOf(buffers, it), numbers, it.sets.length,
        buffers.initial("goq_options", it), ...out, chosen, place);
};

const askParts = (buffers, it, out, count) => answer("goq_encode_several", ...dataOf(buffers, it),
    buffers.initial("goq_several", it), ...out, count);

const askSegments = (buffers, it, out) => {
    const rows = it.rows.map(({ kind, number, data }) =>
        ({ kind, number, bytes: buffers.bytes(data), length: data.length }));
    const given = [buffers.structs("goq_segment", rows), rows.length];
    const least = buffers.structs("goq_symbol", [{ version: it.version }]);
    const said = it.version ? "OK"
        : answer("goq_smallest_version_of_segments", ...given, it.level, least);
    return said !== "OK" ? said : answer("goq_encode_segments", ...given,
        buffers.struct("goq_symbol", least).version, it.level, ...out);
};

const askElements = (buffers, it, out, place) => answer("goq_encode_gs1",
    ...elementsOf(buffers, it.elements), buffers.initial("goq_options", it), ...out, place);

/** Makes the code of a request; an error calls its data `said`. */
function one(call, request, said) {
    const [found, codes] = ask(call, request);
    if (found !== "OK")
        throw refused(call, request, found, said);
    return codes[0];
}

export function encode(value, given = {}) {
    const it = checks.options("encode", given, { level: "M", version: null, minVersion: null,
        micro: false, boost: false, mask: null, marked: false, eci: null, charset: null });
    const [data, isText] = checks.data(value);
    const request = { data, level: checks.level(it.level), manner: mannerOf(isText, it),
        ...versionsOf(it), boost: Number(checks.flag("boost", it.boost)), mask: maskOf(it.mask) };
    if (it.boost && it.version !== null)
        throw new RangeError("version and boost: use minVersion in place of version");
    if (it.charset !== null)
        return one(askText, { ...request, sets: setsOf(isText, it) }, "the characters");
    if (it.eci === null || isText)
        return one(askData, request, `${grouped(data.length)} bytes`);
    if (it.minVersion !== null || it.micro || it.boost || it.mask !== null)
        throw new RangeError("bytes with eci: only level and version may be given too");
    return encodeSegments([["eci", it.eci], ["byte", data]],
        { level: it.level, version: it.version ?? undefined });
}

function mannerOf(isText, { marked, eci }) {
    if (checks.flag("marked", marked) && !isText)
        throw new TypeError(
            "marked is only for a string; for bytes, eci: 26 says that they are UTF-8");
    if (eci !== null)
        checks.whole("eci", eci, 0, MOST_SET, "NoSuchNumber");
    if (isText && eci !== null && eci !== CHARSETS["utf-8"])
        throw new RangeError(`eci: ${eci} is for bytes: give those of that character set`);
    return !isText ? AS_BYTES : marked || eci !== null ? AS_MARKED_TEXT : AS_TEXT;
}

/** Returns the library's numbers of the character sets that may be used. */
function setsOf(isText, { marked, eci, charset }) {
    if (!isText)
        throw new TypeError(
            "charset is only for a string; for bytes, eci: 7 says that they are ISO 8859-5");
    if (marked || eci !== null)
        throw new RangeError("charset, marked and eci: give one of them; 'utf-8' marks UTF-8");
    return checks.charset(charset);
}

function versionsOf({ version, minVersion, micro = false }) {
    const asked = version === null ? 0 : checks.version(version);
    const first = minVersion === null ? 1 : checks.version(minVersion);
    if (checks.flag("micro", micro) && Math.max(asked, first) >= MICRO_1)
        throw new RangeError(`leave out micro: ${asked ? "version" : "minVersion"} is Micro QR`);
    if ((version !== null) + (minVersion !== null) + micro > 1)
        throw new RangeError("version, minVersion and micro: give one of them");
    return { version: asked, min_version: micro ? MICRO_1 : first };
}

const maskOf = (mask) => (mask === null ? 0 : 1 + checks.whole("mask", mask, 0, 7, "NoSuchMask"));

export function encodeSequence(value, given = {}) {
    const it = checks.options("encodeSequence", given,
        { level: "M", version: null, count: null, minVersion: null, maxVersion: null });
    const [data, isText] = checks.data(value);
    if (it.version !== null && (it.minVersion ?? it.maxVersion) !== null)
        throw new RangeError("version with minVersion or maxVersion: give one of them");
    const [min_version, max_version] = [it.minVersion ?? 1, it.maxVersion ?? 40]
        .map((each) => checks.version(it.version ?? each));
    const request = { data, level: checks.level(it.level), manner: isText ? AS_TEXT : AS_BYTES,
        min_version, max_version,
        count: it.count === null ? 0 : checks.whole("count", it.count, 1, SEVERAL_MAX) };
    const [found, codes] = ask(askParts, request, SEVERAL_MAX);
    if (found !== "OK")
        throw refusedParts(request, found);
    return codes;
}

export function encodeSegments(segments, given = {}) {
    const it = checks.options("encodeSegments", given, { level: "M", version: null });
    const rows = checks.listed("segments", segments, "pairs, as ['byte', bytes]")
        .map((each, at) => segmentOf(`segment ${at + 1}`, each));
    const version = it.version === null ? 0 : checks.version(it.version);
    return one(askSegments, { rows, level: checks.level(it.level), version }, "the segments");
}

function segmentOf(name, given) {
    if (!Array.isArray(given) || given.length < 1 || given.length > 2)
        throw new TypeError(
            `${name} is a pair, as ['byte', bytes] or ['eci', 26], not ${shown(given)}`);
    const [word, value] = given;
    if (!Object.keys(KINDS).includes(word))
        throw new RangeError(
            `${name}: no kind ${shown(word)}: take one of ${Object.keys(KINDS).join(", ")}`);
    const kind = KINDS[word], none = new Uint8Array(0);
    if (kind === ECI || kind === FNC1_SECOND)
        return { kind, data: none, number: checks.whole(`${name}: the number of ${word}`, value, 0,
            kind === ECI ? MOST_SET : 255, "NoSuchNumber") };
    if (kind === FNC1_FIRST)
        return { kind, data: none, number: 0 };
    const data = checks.bytesOf(value)
        ?? (kind === KANJI ? null : checks.utf8(`${name}: the data of '${word}'`, value));
    if (data === null)
        throw new TypeError(
            `${name}: the data of 'kanji' is bytes of Shift JIS, not ${shown(value)}`);
    return { kind, data, number: 0 };
}

export function encodeGs1(elements, given = {}) {
    const it = checks.options("encodeGs1", given,
        { level: "M", version: null, minVersion: null, mask: null });
    const pairs = checks.listed("elements", elements, "pairs, as ['01', '09501101530003']");
    gs1(pairs); /* throws the error of a wrong element */
    return one(askElements, { elements: pairs, level: checks.level(it.level), ...versionsOf(it),
        mask: maskOf(it.mask) }, "the elements");
}

/** Returns the error for a code that cannot be made: what is wrong, and what would help. */
function refused(call, it, found, said) {
    const isData = call === askData || call === askText;
    if (["LEVEL_NOT_IN_VERSION", "NO_MODE", "NO_ROOM"].includes(found) && isData && it.version
            && it.data.length > MOST_DATA)
        return refusal("TOO_LONG");
    const texts = {
        LEVEL_NOT_IN_VERSION: () => `version ${versionName(it.version)} has no level `
            + `${LEVELS[it.level]}; it has ${{ 41: "only L", 44: "L, M and Q" }[it.version] ?? "L and M"}`,
        NO_MODE: () => noMode(call, it),
        NOT_IN_MODE: () => notInMode(it),
        NO_SUCH_MASK: () => `version ${ask(call, { ...it, mask: 0 })[1][0]?.version
            ?? versionName(it.version)} has no mask ${it.mask - 1}: take one of 0 to 3`,
        NO_ROOM: () => noRoom(call, it, said),
        NOT_IN_SET: () => notInSet(it),
    };
    return refusal(found, texts[found]?.());
}

function noMode(call, it) {
    const name = versionName(it.version);
    if (call === askSegments)
        return it.rows.some((row) => row.kind > KANJI)
            ? `version ${name} has no headers, like all of Micro QR; take 1 to 40`
            : `version ${name} lacks a mode of the segments; M3, M4 and 1 to 40 have all`;
    if (call === askText || it.manner === AS_MARKED_TEXT)
        return `version ${name} cannot say which character set it holds; leave out `
            + `${call === askText ? "charset" : "marked and eci"}, or take 1 to 40`;
    const modes = name === "M1" ? "digits" : "digits, capitals, spaces and $%*+-./:";
    return `version ${name} holds only ${modes}; M3, M4 and 1 to 40 hold any bytes`;
}

/** Names the first segment that is rejected on its own. */
function notInMode(it) {
    const at = it.rows.findIndex((row) =>
        ask(askSegments, { ...it, rows: [row], version: 0 })[0] === "NOT_IN_MODE");
    return at < 0 ? "" : `segment ${at + 1}: ${IN_MODES[it.rows[at].kind]}`;
}

/** Names the first character that the set lacks. */
function notInSet(it) {
    const place = ask(askText, it)[2], character = [...checks.textOf(it.data)][place];
    const code = character.codePointAt(0).toString(16).toUpperCase().padStart(4, "0");
    return `character ${grouped(place + 1)}, '${character}' (U+${code}), is not in `
        + `${charsetName(it.sets[0])}; charset: 'shortest' finds a set that has all`;
}

function noRoom(call, it, said) {
    const isData = call === askData, level = LEVELS[it.level], name = versionName(it.version);
    let text = it.version ? `version ${name} at level ${level} does not hold ${said}`
        : `no version holds ${said} at level ${level}`;
    if (isData) {
        const most = mostBytes(it);
        text = `${said} at ${it.version ? `version ${name} and ` : ""}level ${level}: `
            + (most ? `at most ${grouped(most)} fit, more of digits or capitals` : "too many");
    }
    const helps = helpsOf(call, it);
    if (helps.length > 0)
        return `${text}; ${helps.join(" or ")} holds them`;
    return `${text}; no level holds them` + (isData && it.manner !== AS_MARKED_TEXT && areHeld(it)
        ? ": encodeSequence splits them over several codes" : "");
}

/** Returns whether several codes together hold the data. */
const areHeld = (it) => ask(askParts, { ...it, level: 0, min_version: 1, max_version: 40,
    count: 0 }, SEVERAL_MAX)[0] === "OK";

/** Names the smallest version, and the highest level, that would hold the data. */
function helpsOf(call, it) {
    const holds = (request) => ask(call, request)[1][0];
    const any = it.version && holds({ ...it, version: 0, boost: 0, mask: 0,
        min_version: call !== askElements && it.version >= MICRO_1 ? MICRO_1 : 1 });
    const below = [2, 1, 0].find((level) => level < it.level && holds({ ...it, level }));
    return [...(any ? [`version ${any.version}`] : []),
        ...(below === undefined ? [] : [`level ${LEVELS[below]}`])];
}

/** Returns the most bytes, of any kind, that the version holds, or without one version 40. */
function mostBytes(it) {
    const at = { ...it, version: it.version || 40, boost: 0, mask: 0 };
    let [most, beyond] = [0, 2954];
    while (beyond - most > 1) {
        const middle = (most + beyond) >> 1;
        const isHeld = ask(askData, { ...at, data: new Uint8Array(middle) })[0] === "OK";
        [most, beyond] = isHeld ? [middle, beyond] : [most, middle];
    }
    return most;
}

function refusedParts(it, found) {
    const last = versionName(it.max_version);
    const helps = [it.max_version < 40 && "a larger version", it.level > 0 && "a lower level",
        it.count % 16 > 0 && "more codes"].filter(Boolean).join(", or ");
    if (found === "NO_ROOM")
        return refusal(found, `${grouped(it.data.length)} bytes: ${areHeld(it)
            ? `${it.count || 16} codes up to version ${last} at level ${LEVELS[it.level]} do not hold them; take ${helps}`
            : "16 codes of version 40 at level L hold at most 47,216, more of digits or capitals"}`);
    return refusal(found, found !== "NO_SUCH_VERSION" ? "" : `versions ${versionName(it.min_version)} `
        + `to ${last}: several codes have versions 1 to 40, the smallest first`);
}

export function isFunctional(version, x, y) {
    const known = checks.version(version);
    const isPlace = [["x", x], ["y", y]].map(([name, it]) =>
        checks.whole(name, it, Number.MIN_SAFE_INTEGER, Number.MAX_SAFE_INTEGER))
        .every((it) => it >= 0 && it < number("goq_width", known));
    return isPlace && number("goq_is_functional", known, x, y) !== 0;
}
