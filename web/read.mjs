/* Reads and checks the codes of a picture. */

import { check, read } from "./goqlanis/index.mjs";
import { picturesOf } from "./goqlanis/reading.mjs";
import { at, made } from "./forms.mjs";

const LINK = /^(https?|mailto|tel|sms|geo|upi):/i;
const SHARP = ". Codes must be flat and sharp: take the picture anew, or cut it to one code";
const HELP = { NoSquare: SHARP, NoSuchSide: SHARP, NoFormat: SHARP, Damaged: SHARP };
/* The most pixels of a side that a canvas is made for. */
const MOST = 8192;
/* Characters that hide or reorder others, as those that the program escapes. */
const UNSEEN = /(?!\r?\n|\t)[\p{Cc}\p{Cf}\p{Default_Ignorable_Code_Point}\u2028\u2029]/gu;
let newest = 0; /* the number of the last picture that was given */

/** Begins the panel. */
export function start() {
    at("file").addEventListener("change", () => take(at("file").files[0]));
}

/** Reads the codes of a file, and shows them or what is wrong, unless another was given since. */
export async function take(file) {
    if (file === undefined)
        return;
    const own = ++newest, name = plain(file.name || "The picture");
    at("heard").textContent = `${name}: reading ..`;
    at("found").replaceChildren();
    let codes = [], said;
    try {
        const picture = await pictureOf(file);
        if (own === newest)
            ({ codes, said } = readingOf(picture));
    } catch (error) {
        said = error.message;
    }
    if (own === newest) {
        at("found").replaceChildren(...codes);
        at("heard").textContent = `${name}: ${said}`;
    }
}

/** Returns a text with escapes for characters that hide or reorder others. */
const plain = (text) => text.replace(UNSEEN, (it) => `\\u{${it.codePointAt(0).toString(16)}}`);

/** Returns the bytes of a PNG, PBM or PGM file, or else the pixels that the browser decodes. */
async function pictureOf(file) {
    const bytes = new Uint8Array(await file.arrayBuffer());
    const isKnown = [[137, 80, 78, 71], [80, 49], [80, 50], [80, 52], [80, 53]]
        .some((head) => head.every((it, index) => bytes[index] === it));
    if (isKnown)
        try {
            read(bytes);
            return bytes;
        } catch (error) {
            if (error.name !== "BrokenPicture")
                return bytes; /* the library says what is wrong */
        }
    return pixelsOf(file);
}

async function pixelsOf(file) {
    let bitmap;
    try {
        bitmap = await createImageBitmap(file);
    } catch {
        throw new Error("your browser cannot decode it as a picture: save it as PNG or JPEG");
    }
    const shrink = Math.min(1, MOST / Math.max(bitmap.width, bitmap.height));
    const canvas = document.createElement("canvas");
    canvas.width = Math.max(1, Math.round(bitmap.width * shrink));
    canvas.height = Math.max(1, Math.round(bitmap.height * shrink));
    const context = canvas.getContext("2d", { willReadFrequently: true });
    context.drawImage(bitmap, 0, 0, canvas.width, canvas.height);
    return context.getImageData(0, 0, canvas.width, canvas.height);
}

/** Returns what is said about a file, and an item for each code in its pictures. */
function readingOf(file) {
    const pictures = ArrayBuffer.isView(file) ? picturesOf(file) : [file], failures = [];
    const tried = (call) => (picture, at) => {
        try {
            return call(picture);
        } catch ({ name, message }) {
            const of = pictures.length > 1 ? `picture ${at + 1}: ` : "";
            failures.push(`${of}${message}${HELP[name] ?? ""}`);
            return [];
        }
    };
    const [found, checks] = [read, check].map((call) => pictures.map(tried(call)));
    if (checks.flat().length === 0)
        throw new Error(failures[0]);
    const count = found.flat().length, wrong = [...new Set(failures)].join("; ");
    return { said: count === 0 ? `No code was read: ${wrong}. What it shows was checked:`
        : `${count} ${count === 1 ? "code" : "codes"}${wrong && `; ${wrong}`}:`,
    codes: checks.flatMap((own, at) => own.map((it, index) => itemOf(found[at][index], it))) };
}

function itemOf(code, checked) {
    const departs = departuresOf(checked);
    return made("li", {}, ...(code === undefined ? [] : contentOf(code)),
        made("h2", {}, checked.isStandard ? "Check: as the standard says"
            : "Check: it departs from the standard"),
        ...(departs.length > 0 ? [made("ul", {}, ...departs.map((it) => made("li", {}, it)))] : []),
        made("details", {}, made("summary", {}, "All counts"), made("pre", {}, `${checked}`)));
}

/** Returns what shows the data of a code, and what is known of it. */
function contentOf(code) {
    const text = code.text ?? `${code.data.length} bytes: ${[...code.data]
        .map((it) => it.toString(16).padStart(2, "0")).join(" ")}`;
    const isLink = code.text !== null && LINK.test(text) && !/\s/.test(text);
    const how = { href: text, rel: "noopener noreferrer", target: "_blank" };
    return [made("h2", {}, isLink ? "Link" : code.text === null ? "Data" : "Text"),
        isLink ? made("p", {}, made("a", how, plain(text))) : made("pre", {}, plain(text)),
        made("p", {}, factsOf(code))];
}

/** Says what is known of a code, beside what it holds. */
function factsOf({ version, level, mask, position, isInverted, wrong, parts }) {
    const headers = parts.map(headerOf).filter(Boolean);
    return [`Version ${version}, level ${level}, mask ${mask}`,
        ...(position === "upright" ? [] : [position]), ...(isInverted ? ["inverted"] : []),
        ...(wrong > 0 ? [`corrected codewords: ${wrong}`] : []), ...headers].join("; ") + ".";
}

/** Says what departs from the standard. */
function departuresOf(it) {
    const modules = Object.entries(it.wrongModules)
        .map(([name, count]) => [`Wrong modules, ${name}`, count]);
    const damage = [["Wrong codewords in the worst block", Math.max(...it.wrongByBlock)],
        ...modules];
    const isWhole = damage.every(([, count]) => count === 0);
    const counts = [...damage, ["Bits more than needed", it.bits - it.fewestBits],
        ["Wrong bits of the terminator", it.wrongTerminator],
        ["Wrong bits of padding", it.wrongPadding],
        ["Segments whose character set readers guess", it.guessedSegments],
        ["Masks with a lower penalty", isWhole && !it.isStandard ? it.masks.lower : 0]];
    return [...(it.segments ? [] : ["The data is not segments and a terminator"]),
        ...counts.filter(([, count]) => count > 0).map((each) => each.join(": "))];
}

/** Says what a header says, or nothing of a segment. */
function headerOf({ kind, number, place, symbols }) {
    const names = { eci: `character set (ECI) ${number}`, fnc1First: "GS1 (FNC1 in first position)",
        fnc1Second: `FNC1 in second position, application ${number}`,
        oneOfSeveral: `code ${place + 1} of ${symbols}, parity ${number}` };
    return names[kind];
}
