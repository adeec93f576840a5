/* Reads and checks codes in pictures, and squares of modules. */

import * as checks from "./checks.mjs";
import { QrCode } from "./code.mjs";
import { KINDS } from "./encoding.mjs";
import { QrError, refusal, refuse } from "./errors.mjs";
import { answer, nameOf, number, within } from "./memory.mjs";
import { BLOCKS_MAX, BYTES_MAX, CAUSES, ECI, FNC1_FIRST, FNC1_SECOND, ONE_OF_SEVERAL, PARTS_MAX,
    POSITIONS, SEVERAL_MAX } from "./numbers.mjs";
import { LEVELS, shown, versionName } from "./checks.mjs";

const PARTS = [...Object.keys(KINDS), "oneOfSeveral"];
const HEADED = "the data begins with a header, of structured append, GS1 or a character set other "
    + "than UTF-8: join reads the first; read(code.png()) reads the others";

export function read(picture) {
    return withCodes(picture, (buffers, file, most) => {
        const codes = buffers.many("goq_code", most);
        const parts = buffers.many("goq_part", most * PARTS_MAX);
        const bytes = buffers.room(most * BYTES_MAX), scan = buffers.initial("goq_scan");
        const said = answer("goq_read_picture", ...file, codes, most, parts, most * PARTS_MAX,
            bytes, most * BYTES_MAX, scan);
        let part = 0, at = bytes;
        const count = () => ({ length: buffers.struct("goq_scan", scan).codes });
        return [said, () => Array.from(count(), (_, code) => {
            const found = buffers.struct("goq_code", codes, code);
            const own = Array.from({ length: found.parts }, () =>
                partOf(buffers.struct("goq_part", parts, part++)));
            const made = { ...readingOf(buffers, at, found.reading), ...positionOf(found.position),
                parts: own };
            at += found.reading.length;
            return { ...made, text: textOf(own, made.data) };
        })];
    });
}

export function missed(picture) {
    return withCodes(picture, (buffers, file, most) => {
        const squares = buffers.many("goq_missed_code", most), count = buffers.room(8);
        const said = answer("goq_missed", ...file, squares, most, count);
        return [said, () => Array.from({ length: buffers.sizes(count)[0] }, (_, at) => {
            const { why, ...place } = buffers.struct("goq_missed_code", squares, at);
            return { ...place, why: refusal(nameOf(why)) };
        })];
    });
}

/** Returns what `ask` finds in all pictures of a file; warns of those not read if others are. */
function withCodes(picture, ask) {
    const pictures = picturesOf(fileOf(picture)), failures = [];
    const of = (at) => (pictures.length < 2 ? "" : `picture ${at + 1}: `);
    const found = pictures.flatMap((it, at) => inPicture(it, of(at), ask, failures));
    if (failures.length === pictures.length)
        throw failures[0];
    failures.forEach((it) => console.warn(it.message));
    return found;
}

/** Returns the pictures in a file of bytes: PBM and PGM files may have several. */
export function picturesOf(file) {
    return within((buffers) => {
        const place = buffers.bytes(file), found = [];
        let at = 0;
        do {
            const own = Number(number("goq_picture_length", place + at, file.length - at));
            found.push(file.subarray(at, at + own));
            at += own;
        } while (file[at] === 0x50 && [0x31, 0x34, 0x35].includes(file[at + 1])); /* P1, P4, P5 */
        if (at < file.length)
            console.warn("the file has data after its picture, which is ignored");
        return found;
    });
}

/** Calls `ask` with more and more room; `of` begins messages, `failures` gets what is not read. */
function inPicture(picture, of, ask, failures) {
    for (let most = 2; ; most *= 8) {
        const found = within((buffers) => {
            const [said, make] = ask(buffers, [buffers.bytes(picture), picture.length], most);
            if (said === "SMALL_BUFFER")
                return null;
            if (said === "OK")
                return make();
            if (said === "OUT_OF_MEMORY")
                throw refusal(said);
            failures.push(refusal(said, said !== "NO_SUCH_SIDE" ? ""
                : "the picture shows no code: what it shows is not the size of a code", of));
            return [];
        });
        if (found !== null)
            return found;
    }
}

/** Returns the text of data, in UTF-8 or in the sets that ECI headers name, or null. */
function textOf(parts, data) {
    return within((buffers) => {
        const rows = parts.map((it) => ({ ...it, kind: PARTS.indexOf(it.kind) }));
        const room = 3 * data.length, out = buffers.room(room), count = buffers.room(8);
        const said = answer("goq_text", buffers.bytes(data), data.length,
            buffers.structs("goq_part", rows), rows.length, out, room, count);
        if (said === "NOT_IN_SET")
            return null;
        refuse(said);
        return checks.textOf(buffers.copy(out, buffers.sizes(count)[0]));
    });
}

function partOf({ kind, number, place, symbols, length }) {
    const name = PARTS[kind];
    if (kind === ONE_OF_SEVERAL)
        return { kind: name, number, place, symbols };
    if (kind === ECI || kind === FNC1_SECOND)
        return { kind: name, number };
    return kind === FNC1_FIRST ? { kind: name } : { kind: name, length };
}

function readingOf(buffers, bytes, { version, level, mask, wrong, length }) {
    return { data: buffers.copy(bytes, length), version: versionName(version), level: LEVELS[level],
        mask, wrong };
}

const positionOf = (number) => ({ position: POSITIONS[number % POSITIONS.length],
    isInverted: number >= POSITIONS.length });

/** Returns the bytes of a picture: a file, text of half blocks, or the pixels of a canvas, which
    become a PGM file on white. */
function fileOf(picture) {
    if (typeof picture === "string")
        return checks.utf8("picture", picture);
    const bytes = checks.bytesOf(picture);
    if (bytes !== null)
        return bytes;
    const { width, height, data } = picture ?? {};
    if (!ArrayBuffer.isView(data) || width * height * 4 !== data.length)
        throw new TypeError(`a picture is bytes of a file, or ImageData, not ${shown(picture)}`);
    const head = checks.utf8("head", `P5 ${width} ${height} 255\n`);
    const file = new Uint8Array(head.length + width * height);
    file.set(head);
    for (let at = 0; at < width * height; at++) {
        const [red, green, blue, opacity] = data.subarray(4 * at, 4 * at + 4);
        const own = (299 * red + 587 * green + 114 * blue) / 1000;
        file[head.length + at] = (own * opacity + 255 * (255 - opacity)) / 255;
    }
    return file;
}

/** Returns the modules of a square: of a code, of an array of rows, or a byte each. */
function modulesOf(square) {
    if (square instanceof QrCode)
        return square.modules;
    const bytes = checks.bytesOf(square);
    if (bytes !== null)
        return bytes;
    const rows = checks.listed("square", square, "rows of modules, or a QrCode")
        .map((row) => checks.listed("each row", row, "true and false"));
    if (rows.some((row) => row.length !== rows.length))
        throw new QrError(
            "NoSuchSide", `${rows.length} rows, and not all of them have ${rows.length} modules`);
    return Uint8Array.from(rows.flat(), Number);
}

/** Reads a square by a call of the library. */
function square(given, call, struct) {
    const modules = modulesOf(given);
    return within((buffers) => {
        const out = buffers.room(BYTES_MAX), found = buffers.many(struct, 1);
        const asked = [buffers.bytes(modules), modules.length, out, BYTES_MAX, found];
        const said = answer(call, ...asked);
        const other = { NOT_SPELLED: "goq_read_text", NOT_SHOWN: "goq_read" }[said];
        if (other && answer(other, ...asked) !== "OK")
            throw refusal(said, HEADED);
        refuse(said);
        const { reading, position, ...own } = buffers.struct(struct, found);
        return { ...readingOf(buffers, out, reading ?? own), ...(reading && positionOf(position)) };
    });
}

export function readSquare(given) {
    return square(given, "goq_read", "goq_reading");
}

export function readAny(given) {
    return square(given, "goq_read_any", "goq_any_reading");
}

export function readText(given) {
    return checks.textOf(square(given, "goq_read_text", "goq_reading").data);
}

export function join(squares) {
    const given = checks.listed("squares", squares, "codes or squares").map(modulesOf);
    return within((buffers) => {
        const rows = given.map((it) => ({ modules: buffers.bytes(it), length: it.length }));
        const out = buffers.room(SEVERAL_MAX * BYTES_MAX), count = buffers.room(8);
        const place = buffers.structs("goq_rank", [{}]);
        const said = answer("goq_join", buffers.structs("goq_square", rows), rows.length, out,
            SEVERAL_MAX * BYTES_MAX, count, place);
        const at = buffers.sizes(place)[0] + 1;
        if (CAUSES[said]?.[0] === "NotJoined")
            throw refusal(said, CAUSES[said][1].replace("#", at));
        refuse(said, `square ${at}: `);
        return buffers.copy(out, buffers.sizes(count)[0]);
    });
}

export function check(picture) {
    return withCodes(picture, (buffers, file, most) => {
        const found = buffers.many("goq_checked", most);
        const wrong = buffers.room(8 * most * BLOCKS_MAX);
        const counts = buffers.initial("goq_checks");
        const said = answer("goq_check", ...file, found, most, wrong, most * BLOCKS_MAX, counts);
        let at = wrong;
        const count = () => ({ length: buffers.struct("goq_checks", counts).codes });
        return [said, () => Array.from(count(), (_, code) => {
            const known = buffers.struct("goq_checked", found, code);
            at += 8 * known.blocks;
            return new Check(known, buffers.sizes(at - 8 * known.blocks, known.blocks));
        })];
    });
}

export function checkSquare(given) {
    const modules = modulesOf(given);
    return within((buffers) => {
        const wrong = buffers.room(8 * BLOCKS_MAX), found = buffers.many("goq_checked", 1);
        refuse(answer("goq_check_square", buffers.bytes(modules), modules.length, wrong, BLOCKS_MAX,
            found));
        const known = buffers.struct("goq_checked", found);
        return new Check(known, buffers.sizes(wrong, known.blocks));
    });
}

export class Check {
    constructor(known, wrong) {
        const { data } = known, rank = ({ lower, equal }) => ({ lower, sameBefore: equal });
        const ofData = (value) => (data.segments ? value : null);
        Object.assign(this, { version: versionName(known.version), level: LEVELS[known.level],
            mask: known.mask, wrongByBlock: wrong, allowedByBlock: known.allowed,
            unusedCorrection: known.unused / 100, grade: String.fromCharCode(known.grade),
            wrongModules: known.wrong, segments: data.segments === 1,
            bits: data.compared ? data.bits : null, fewestBits: data.compared ? data.fewest : null,
            wrongTerminator: ofData(data.terminator), wrongPadding: ofData(data.padding),
            guessedSegments: ofData(data.guessed), guessedUtf8: ofData(data.are_utf8 === 1),
            masks: rank(known.masks), masksHere: rank(known.masks_here),
            isStandard: known.standard === 1 });
    }

    toString() {
        const modules = Object.entries(this.wrongModules);
        const bits = this.bits === null
            ? "with headers such as FNC1, not compared with the fewest bits"
            : `${this.bits} bits, ${this.bits - this.fewestBits} more than needed`;
        const guess = !this.guessedSegments ? "" : this.guessedUtf8 ? ", UTF-8" : ", not all UTF-8";
        const lines = [`version ${this.version}, level ${this.level}, mask ${this.mask}`,
            `wrong codewords in each block: ${this.wrongByBlock.join(", ")}; the standard allows `
                + `${this.allowedByBlock}`,
            `unused error correction: ${Math.round(this.unusedCorrection * 100)} %, `
                + `grade ${this.grade}`,
            `wrong modules outside the data: ${modules.map((it) => it.join(" ")).join(", ")}`,
            ...(this.segments ? [`data: ${bits}`, `wrong bits after the data: terminator `
                + `${this.wrongTerminator}, padding ${this.wrongPadding}`,
            `segments whose character set readers guess: ${this.guessedSegments}${guess}`]
                : ["data: its bits are not segments and a terminator"])];
        if (![...this.wrongByBlock, ...Object.values(this.wrongModules)].some((it) => it > 0)) {
            const [own, lower] = [this.masksHere.lower, this.masks.lower];
            lines.push(`masks with a lower penalty: ${lower}` + (own === lower ? ""
                : `; ${own} if the share of dark modules is not rounded to 5 %`));
        }
        return lines.join("\n");
    }
}
