/* Areas of codes that may show anything, such as logos, and damage. */

import * as checks from "./checks.mjs";
import { QrError, refusal, refuse } from "./errors.mjs";
import { answer, within } from "./memory.mjs";
import { BLOCKS_MAX } from "./numbers.mjs";
import { LEVELS, shown } from "./checks.mjs";

const HALF = 0xffffffff, SIDES = ["left", "top", "width", "height"];

/** Returns how much of a code an area takes, and what is left. */
export function reserve({ version, level }, area) {
    return reserveOf(checks.version(version), checks.level(level), areaOf(area));
}

function reserveOf(version, level, rectangles) {
    return within((buffers) => {
        const touched = buffers.room(8 * BLOCKS_MAX), use = buffers.many("goq_area_use", 1);
        refuse(answer("goq_reserve", version, level, buffers.structs("goq_rectangle", rectangles),
            rectangles.length, touched, BLOCKS_MAX, use));
        const found = buffers.struct("goq_area_use", use);
        return { touched: buffers.sizes(touched, found.blocks), allowed: found.allowed,
            worst: found.worst, formatModules: [found.first, found.last],
            least: found.may_show_anything ? found.least : null };
    });
}

/** Returns the largest rectangle in the middle of a code that may show anything. */
export function largest(code, given) {
    const it = checks.options("largestArea", given,
        { ratio: [1, 1], reserve: null, keepAlignment: false });
    const sides = checks.listed("ratio", it.ratio, "two numbers")
        .map((each) => checks.whole("ratio", each, 1, 10000));
    if (sides.length !== 2)
        throw new RangeError("ratio is a width and a height, as [16, 9]");
    return within((buffers) => {
        const wish = { across: sides[0], down: sides[1],
            reserve: it.reserve === null ? HALF : checks.whole("reserve", it.reserve, 0, 10000),
            keep_alignment: Number(checks.flag("keepAlignment", it.keepAlignment)) };
        const found = buffers.many("goq_rectangle", 1);
        refuse(answer("goq_largest_area", checks.version(code.version), checks.level(code.level),
            buffers.initial("goq_wish", wish), found));
        return buffers.struct("goq_rectangle", found);
    });
}

/** Returns the modules of a code, with those of an area light. */
export function covered(code, area) {
    const rectangles = areaOf(area);
    return within((buffers) => {
        const out = buffers.bytes(code.modules);
        const said = answer("goq_cover", out, code.modules.length,
            buffers.structs("goq_rectangle", rectangles), rectangles.length, buffers.room(8));
        if (said === "AREA_BLOCK")
            throw tooLarge(checks.version(code.version), checks.level(code.level), rectangles);
        refuse(said);
        return buffers.copy(out, code.modules.length);
    });
}

/** Returns the modules of a code with exactly so much damage, and how much is promised. */
export function damaged(code, given) {
    const it = checks.options("damaged", given,
        { codewords: 0, formatBits: 0, versionBits: 0, patternModules: 0, seed: 0 });
    const count = (name) => checks.whole(name, it[name], 0, 10000);
    const wrong = { codewords: count("codewords"), format_bits: count("formatBits"),
        version_bits: count("versionBits"), pattern_modules: count("patternModules"),
        seed: checks.whole("seed", it.seed, 0, Number.MAX_SAFE_INTEGER) };
    return within((buffers) => {
        const out = buffers.bytes(code.modules), found = buffers.many("goq_promised", 1);
        refuse(answer("goq_damage", out, code.modules.length, buffers.initial("goq_wrong", wrong),
            found));
        return { ...buffers.struct("goq_promised", found),
            modules: buffers.copy(out, code.modules.length) };
    });
}

/** Returns the error for an area that takes too much, with a level that allows it. */
function tooLarge(version, level, rectangles) {
    const { touched, worst, allowed } = reserveOf(version, level, rectangles);
    const fits = (each) => {
        try {
            return each > level && reserveOf(version, each, rectangles).least !== null;
        } catch (error) {
            if (error.name === "OutOfMemory")
                throw error;
            return false;
        }
    };
    const higher = [1, 2, 3].find(fits);
    return refusal("AREA_BLOCK", `the area touches ${touched[worst]} codewords of block `
        + `${worst + 1}, of which ${allowed} may be lost: take `
        + (higher === undefined ? "a smaller area" : `level ${LEVELS[higher]}, or a smaller area`));
}

/** Returns the rectangles of an area: one, or several in an array. */
function areaOf(area) {
    return (Array.isArray(area) ? area : [area]).map((it) => {
        if (it === null || typeof it !== "object")
            throw new TypeError(`a rectangle is {left, top, width, height}, not ${shown(it)}`);
        const sides = checks.options("a rectangle", it, { left: 0, top: 0, width: 0, height: 0 });
        SIDES.forEach((name) => checks.whole(name, sides[name], 0, 10000));
        return sides;
    });
}

/** Returns where a logo goes, the bytes or the text of an SVG or PNG file: its area, and the
    picture in that as a data URI. */
export function placed(code, logo, given) {
    const it = checks.options("withLogo", given,
        { area: null, margin: 1, reserve: null, keepAlignment: false });
    const data = typeof logo === "string" ? checks.utf8("logo", logo) : checks.bytesOf(logo);
    if (data === null)
        throw new TypeError(
            `logo is the bytes of an SVG or PNG file, or the text of SVG, not ${shown(logo)}`);
    const isPng = data.length > 24 && [137, 80, 78, 71].every((byte, at) => data[at] === byte);
    const view = new DataView(data.buffer, data.byteOffset, data.byteLength);
    const [across, down] = isPng ? [view.getUint32(16), view.getUint32(20)] : sidesOf(data);
    if (!(across > 0 && down > 0))
        throw new RangeError("the logo has no width or no height");
    const { reserve: left, keepAlignment } = it;
    const area = it.area === null
        ? largest(code, { ratio: ratioOf(across / down), reserve: left, keepAlignment })
        : areaOf([it.area])[0];
    const margin = checks.whole("margin", it.margin, 0, 99);
    const [x, y] = [area.width, area.height].map((side) => Math.min(margin, (side - 1) >> 1));
    return { area, left: area.left + x, top: area.top + y, width: area.width - 2 * x,
        height: area.height - 2 * y,
        data: `data:image/${isPng ? "png" : "svg+xml"};base64,${base64(data)}` };
}

/** Returns the width and height of an SVG file by its first tag. */
function sidesOf(data) {
    const tag = /^\ufeff?\s*(?:<\?[^>]*>|<!--[^]*?-->|<!DOCTYPE[^[>]*>|\s)*<(?:\w+:)?svg\b([^>]*)>/i
        .exec(checks.textOf(data) ?? "");
    if (tag === null)
        throw new RangeError("a logo is an SVG or a PNG file");
    const value = (name) =>
        new RegExp(`\\s${name}\\s*=\\s*["']([^"']*)["']`).exec(tag[1])?.[1] ?? "";
    const box = value("viewBox").replace(/,/g, " ").trim().split(/\s+/).slice(2);
    const sides = (box.length === 2 ? box : [value("width"), value("height")]).map(parseFloat);
    if (!sides.every(Number.isFinite))
        throw new RangeError("the logo is not an SVG file with a viewBox, or a width and a height");
    return sides;
}

/** Returns a ratio as two whole numbers, the smaller at most 100. */
function ratioOf(ratio) {
    const wide = Math.min(Math.max(ratio, 1 / ratio), 10000);
    let best = [1, 1], least = Infinity;
    for (let small = 1; small <= 100 && Math.round(wide * small) <= 10000; small++) {
        const away = Math.abs(Math.round(wide * small) / small - wide);
        if (away < least)
            [best, least] = [[Math.round(wide * small), small], away];
    }
    return ratio >= 1 ? best : best.reverse();
}

/** Returns a logo for PNG: its area, and the bytes of its file. */
export function logoOf({ data, ...area }) {
    const [kind, text] = data.split(",");
    if (!kind.includes("png"))
        throw new QrError("NotInFormat",
            "PNG: the logo is an SVG file: save it as PNG, or draw SVG");
    return { area, file: Uint8Array.from(atob(text), (sign) => sign.charCodeAt(0)) };
}

/** Returns an SVG file with a picture in it. */
export function withPicture(svg, { left, top, width, height, data }, zone) {
    const picture = `<image x="${zone + left}" y="${zone + top}" width="${width}" `
        + `height="${height}" href="${data}"/>`;
    return `${svg.slice(0, svg.lastIndexOf("</svg>"))}${picture}</svg>`;
}

export function base64(bytes) {
    let text = "";
    for (let at = 0; at < bytes.length; at += 4096)
        text += String.fromCharCode(...bytes.subarray(at, at + 4096));
    return btoa(text);
}

