/* A QR or Micro QR code, and its drawings. */

import * as checks from "./checks.mjs";
import * as areas from "./areas.mjs";
import { drawn, withLength, zoneOf } from "./drawing.mjs";
import { QrError, refuse } from "./errors.mjs";
import { answer, number, within } from "./memory.mjs";
import { FORMATS } from "./numbers.mjs";

/* The formats of a code with a logo: SVG shows it, PNG if it is one, half blocks leave its area
   light. */
const WITH_LOGO = ["svg", "png", "txt", "light"];

export class QrCode {
    constructor(modules, version, level, logo = null, charset = null) {
        const found = checks.version(version), width = number("goq_width", found);
        const given = checks.bytesOf(modules);
        if (given?.length !== width * width)
            throw new QrError("NoSuchSide", `modules: version ${checks.versionName(found)} has `
                + `${width} rows of ${width}, a byte for each module`);
        this.modules = given;
        this.version = checks.versionName(found);
        this.level = checks.LEVELS[checks.level(level)];
        this.width = width;
        this.logo = logo;
        this.charset = charset;
        this.isPromised = true;
    }

    get mask() {
        return within((buffers) => {
            const out = buffers.structs("goq_symbol", [{}]); /* its first field is the number */
            refuse(answer("goq_mask", buffers.bytes(this.modules), this.modules.length, out));
            return buffers.struct("goq_symbol", out).version;
        });
    }

    get quietZone() {
        return this.version.startsWith("M") ? 2 : 4;
    }

    isDark(x, y) {
        const inside = (it) => it >= 0 && it < this.width;
        return inside(x) && inside(y) && this.modules[y * this.width + x] !== 0;
    }

    draw(format, options = {}) {
        const logo = format === "png" && this.logo !== null ? areas.logoOf(this.logo) : null;
        const bytes = drawn(this, format, options, logo);
        if (this.logo !== null && !WITH_LOGO.includes(format))
            throw new QrError("NotInFormat", `${format.toUpperCase()}: SVG shows the logo, PNG if `
                + "it is one; withArea leaves its area light in all formats");
        if (!FORMATS[format]?.isText && format !== "light")
            return bytes;
        const text = checks.textOf(bytes);
        if (format !== "svg")
            return text;
        const svg = withLength(text, options);
        return this.logo === null ? svg
            : areas.withPicture(svg, this.logo, zoneOf(this, options));
    }

    svgInline(options) {
        return this.svg(options).replace(/^<\?.*?\?>/, "");
    }

    svgDataUri(options) {
        return `data:image/svg+xml,${encodeURIComponent(this.svgInline(options))
            .replace(/%(2F|3A|3D|2C)/g, decodeURIComponent)
            .replace(/[!'()*]/g, (it) => `%${it.charCodeAt(0).toString(16).toUpperCase()}`)}`;
    }

    pngDataUri(options) {
        return `data:image/png;base64,${areas.base64(this.png(options))}`;
    }

    toString() {
        return this.draw("txt");
    }

    reserve(area) {
        return areas.reserve(this, area);
    }

    largestArea(options = {}) {
        return areas.largest(this, options);
    }

    /** Returns this code with other modules, and what else is changed. */
    #with(modules, more = {}) {
        const made = new QrCode(modules, this.version, this.level, this.logo, this.charset);
        return Object.assign(made, { isPromised: this.isPromised, ...more });
    }

    withArea(area = this.largestArea()) {
        return this.#with(areas.covered(this, area));
    }

    get mostCodewords() {
        return areas.damaged(this, {}).codewords;
    }

    damaged(options = {}) {
        const { modules, is_promised: isPromised } = areas.damaged(this, options);
        return this.#with(modules, { isPromised: this.isPromised && isPromised === 1 });
    }

    withLogo(logo, options = {}) {
        const placed = areas.placed(this, logo, options);
        return this.#with(areas.covered(this, placed.area), { logo: placed });
    }
}

for (const format of [...Object.keys(FORMATS), "grey"])
    if (format !== "txt")
        QrCode.prototype[format] = function (options) {
            return this.draw(format, options);
        };
