/* Draws codes: the options of each format, and colours. */

import * as checks from "./checks.mjs";
import { QrError, refuse } from "./errors.mjs";
import { answer, within } from "./memory.mjs";
import { COLOURS, FORMATS, GREY, LIGHT_HALF_BLOCKS, SIDES, STRUCTS } from "./numbers.mjs";
import { grouped, shown } from "./checks.mjs";

const KINDS = { ...FORMATS,
    light: { number: LIGHT_HALF_BLOCKS, isText: true, scale: 1, hasColours: false },
    grey: { number: GREY, isText: false, scale: 8, hasColours: false } };
const TRANSPARENT = 0xff000000, BLACK = 0x000000, WHITE = 0xffffff, MOST_SIDE = 65535;
/* No colour of its own; the most pixels a side of PNG with own colours, and points of PDF. */
const SAME = 0xffffffff, MOST_COLOURFUL = 8192, MOST_POINTS = 14400;
/* The options of colours of patterns and data, and their names in the struct; false is SAME. */
const PARTS = new Map(STRUCTS.goq_drawing.split(" ").slice(7)
    .map((it) => [it.replace(/_./, (part) => part[1].toUpperCase()), it]));
/* The smallest difference of brightness, out of 255: two fifths, below which ISO/IEC 15415 grades
   the contrast of a symbol D or F. */
const CONTRAST = 102;
/* Each unit in inches, as a fraction. */
const INCHES = { mm: [10n, 254n], cm: [100n, 254n], in: [1n, 1n], pt: [1n, 72n] };
const NAMES = new Map(COLOURS.split(" ").map((it) => it.split("=")));
const USUAL = { scale: null, size: null, quietZone: null, dark: "black", light: "white",
    dpi: null, ...Object.fromEntries([...PARTS.keys()].map((it) => [it, false])) };

/** Returns the bytes of the picture of a code, in PNG with a logo if there is one. */
export function drawn(code, format, given, logo = null) {
    if (!Object.keys(KINDS).includes(format))
        throw new RangeError(
            `no format ${shown(format)}: take one of ${Object.keys(KINDS).join(", ")}`);
    const kind = KINDS[format], look = checks.options(format, given, USUAL);
    const zone = zoneOf(code, look), across = code.width + 2 * zone;
    const exact = format === "eps" || format === "pdf" ? exactOf(look.size, across) : null;
    const scale = exact?.scale ?? scaleOf(look, format, across);
    const own = ownOf(look, format), { dark, light, dpi } = inkOf(look, format, own);
    const isColourful = logo !== null || format === "png" && Object.keys(own).length > 0;
    const side = across * scale, most = isColourful ? MOST_COLOURFUL : SIDES[kind.number] ?? side;
    if (side > most)
        throw new QrError("NoSuchSize", `a side of ${grouped(side)} pixels: this format has at `
            + `most ${grouped(most)}: take ` + (across > most ? "a smaller quietZone"
                : `scale: ${Math.floor(most / across)} or less`));
    if (format === "pdf" && 72 * side > MOST_POINTS * (exact?.dpi ?? (dpi || 72)))
        console.warn("a page in PDF has at most 14,400 points (5,080 mm) a side, and this one has "
            + "more: take a smaller size or scale");
    return within((buffers) => {
        const drawing = { format: kind.number, zone, scale, dark, light, dpi: exact?.dpi ?? dpi,
            ...Object.fromEntries(Object.entries(own).map(([it, ink]) => [PARTS.get(it), ink])) };
        const asked = [buffers.bytes(code.modules), code.modules.length, code.width,
            buffers.initial("goq_drawing", drawing), ...logo === null ? []
                : [buffers.bytes(logo.file), logo.file.length,
                    buffers.structs("goq_rectangle", [logo.area])]];
        const call = logo === null ? "goq_draw_with" : "goq_draw_logo";
        const count = buffers.room(8);
        /* Always enough for SVG, PIC and EPS, and mostly for others, which are drawn to find how
           long they are. */
        let room = logo ? 8 * side * side + 1000 : code.modules.length * 80 + 400;
        let out = buffers.room(room), said = answer(call, ...asked, out, room, count);
        if (said === "SMALL_BUFFER") {
            refuse(answer("goq_draw_with_length", ...asked, count));
            [room] = buffers.sizes(count);
            out = buffers.room(room);
            said = answer("goq_draw_with", ...asked, out, room, count);
        }
        refuse(said);
        return buffers.copy(out, buffers.sizes(count)[0]);
    });
}

export function zoneOf(code, { quietZone = null }) {
    return quietZone === null ? code.quietZone
        : checks.whole("quietZone", quietZone, 0, 4000, "NoSuchSize");
}

/** Returns SVG with its sides as a length, if the size is one. */
export function withLength(svg, { size = null }) {
    return lengthOf(size) === null ? svg
        : svg.replace(/width="[0-9]+" height="[0-9]+"/, `width="${size}" height="${size}"`);
}

/** Returns the parts of a length: all of it, digits, decimals and unit; null if it is none. */
function lengthOf(size) {
    const found = /^([0-9]{1,9})(?:[.]([0-9]{1,9}))?(mm|cm|in|pt)$/.exec(size);
    return found !== null && parseFloat(size) > 0 ? found : null;
}

/** Returns the whole pixels of a length, with `dots` per inch. */
function pixelsOf([, digits, decimals = "", unit], dots) {
    const [inches, units] = INCHES[unit];
    return Number(BigInt(digits + decimals) * BigInt(dots) * inches
        / (units * 10n ** BigInt(decimals.length)));
}

/** Returns a length as a scale and dots per inch, or null if it is not written so: the scale is the
    side in micrometres, or tens or hundreds of them, and each module has a part of that. */
function exactOf(size, across) {
    const length = lengthOf(size);
    if (length === null)
        return null;
    for (const units of [25400, 2540, 254]) {
        const scale = pixelsOf(length, units);
        if (scale > 0 && scale <= MOST_SIDE)
            return { scale, dpi: units * across };
    }
    throw new QrError("NoSuchSize", `size: '${size}': take 0.001mm to 6553.5mm`);
}

function scaleOf({ scale, size, dpi }, format, across) {
    if (size === null)
        return scale === null ? KINDS[format].scale
            : checks.whole("scale", scale, 1, MOST_SIDE, "NoSuchSize");
    if (scale !== null)
        throw new RangeError("scale and size: give one of them");
    const length = lengthOf(size), close = `${size}`.replace(/\s/g, "");
    if (length === null && lengthOf(close) !== null)
        throw new TypeError(`size: ${shown(size)}: take '${close}'`);
    if (format === "svg" && length !== null)
        return 1;
    if (length !== null && dpi === null)
        throw new RangeError(`size: '${size}': how many pixels are these? Take SVG, EPS or PDF, or `
            + "PNG with dpi: 300");
    const pixels = checks.whole("size in pixels, or as '30mm',", length === null ? size
        : pixelsOf(length, checks.whole("dpi", dpi, 1, MOST_SIDE)), 1, MOST_SIDE, "NoSuchSize");
    if (pixels < across)
        throw new QrError("NoSuchSize", `a side of ${pixels} pixels: the code and its quiet zone `
            + `have ${across} modules a side: take a larger size, or a smaller quietZone`);
    const fitted = Math.floor(pixels / across);
    if (length !== null && (pixels - fitted * across) * 254 >= dpi)
        console.warn(`size: '${size}' comes out at ${(fitted * across / dpi * 25.4).toFixed(1)} `
            + `mm: ${across} modules of ${fitted} whole pixels; SVG, EPS and PDF take any length`);
    return fitted;
}

/** Returns the colours that patterns and data have of their own, by the names of the options. */
function ownOf(look, format) {
    const given = [...PARTS.keys()].filter((it) => look[it] !== false);
    const own = given.map((it) => [it, Math.min(colour(it, look[it]), SAME - 1)]);
    if (own.length > 0 && !["png", "svg", "eps", "pdf"].includes(format))
        throw new QrError("NotInFormat", `${format.toUpperCase()} has no ${own[0][0]}: PNG, SVG, `
            + "EPS and PDF have colours of patterns");
    if (format !== "png" && own.some(([, ink]) => ink > WHITE))
        throw new QrError("NotInFormat", "colours of patterns are drawn over dark and light in "
            + "SVG, EPS and PDF: for transparent ones take PNG");
    return Object.fromEntries(own);
}

/** Returns the colours of dark and light modules, and the dots per inch, 0 for none. */
function inkOf(look, format, own) {
    const dark = colour("dark", look.dark), light = colour("light", look.light);
    const name = format.toUpperCase();
    if (!KINDS[format].hasColours && (dark !== BLACK || light !== WHITE))
        throw new QrError("NotInFormat",
            `${name} is black on white; PNG, SVG, EPS, PDF and PPM have colours`);
    if (format !== "png" && format !== "svg" && Math.max(dark, light) > WHITE)
        throw new QrError("NotInFormat",
            `${name} has only opaque colours; PNG and SVG have transparent ones`);
    if (dark === light)
        throw new RangeError(`dark and light are the same colour, ${shown(look.dark)}: the code `
            + "would be invisible");
    if (look.dpi !== null && format !== "png")
        throw new QrError("NotInFormat", `${name} has no dots per inch: only PNG has dpi`);
    const all = (tone) => [tone.toLowerCase(),
        ...Object.keys(own).filter((it) => it.endsWith(tone))];
    const close = all("Dark")
        .flatMap((one) => all("Light").map((other) => [look[one], look[other]]))
        .find(([one, other]) => areClose(one, other));
    if (close)
        console.warn(`dark modules in ${shown(close[0])}, light ones in ${shown(close[1])}: `
            + "many readers need the dark ones to be much darker");
    return { dark, light,
        dpi: look.dpi === null ? 0 : checks.whole("dpi", look.dpi, 1, MOST_SIDE) };
}

export function areClose(dark, light) {
    return brightness(colour("light", light)) < brightness(colour("dark", dark)) + CONTRAST;
}

/** Returns how bright a colour is on white, 0 to 255, by the weights of ITU-R BT.601. */
function brightness(number) {
    const [clear, red, green, blue] = [24, 16, 8, 0].map((it) => (number >>> it) & 255);
    const own = Math.floor((299 * red + 587 * green + 114 * blue) / 1000);
    return Math.floor((own * (255 - clear) + 255 * clear) / 255);
}

/** Returns the library's number of a colour, which is the option `name`. */
function colour(name, value) {
    const word = typeof value === "string" ? value.trim().toLowerCase() : "";
    if (value === null || word === "transparent")
        return TRANSPARENT;
    if (Array.isArray(value) && (value.length === 3 || value.length === 4)) {
        const parts = value.map((it) => checks.whole(`each part of ${name}`, it, 0, 255));
        return numberOf([...parts, 255]);
    }
    if (typeof value !== "string")
        throw new TypeError(`${name} is a colour, not ${shown(value)}: take a name, '#rgb', `
            + "'#rrggbb', '#rrggbbaa', [red, green, blue], or null for transparent");
    const digits = NAMES.get(word) ?? word.replace(/^#/, "");
    if (!/^([0-9a-f]{3,4}|[0-9a-f]{6}|[0-9a-f]{8})$/.test(digits))
        throw new RangeError(
            `${name}: ${shown(word)} is not a colour: take '#rrggbb', or a CSS name`);
    const all = digits.length > 4 ? digits : digits.replace(/./g, "$&$&");
    return numberOf([...all.match(/../g).map((it) => parseInt(it, 16)), 255]);
}

const numberOf = ([red, green, blue, opacity]) =>
    (((255 - opacity) << 24) | (red << 16) | (green << 8) | blue) >>> 0;
