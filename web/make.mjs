/* Makes codes: shows the code of what is typed, and saves it. */

import { QrError, areClose } from "./goqlanis/index.mjs";
import { FORMS, at, fieldOf, made, saidOf } from "./forms.mjs";

const TYPES = { svg: "image/svg+xml", png: "image/png", pdf: "application/pdf",
    eps: "application/postscript", zpl: "text/plain" };
/* The controls that say how the code is made; what the code holds is in the fields. */
const OPTIONS = ["level", "version", "mask", "quietZone", "micro", "boost", "marked", "scale",
    "dpi", "dark", "light", "transparent"];
/* The numbers that may be typed, with their words and bounds: larger ones keep the page busy. */
const NUMBERS = { quietZone: ["Quiet zone", 0, 100], scale: ["Pixels per module", 1, 1000],
    dpi: ["Dots per inch", 1, 65535] };
let code = null;
let logo = null; /* its bytes */
let newest = 0; /* the number of the last logo that was given */
const touched = new Set();

/** Begins the panel; `state` is what the address holds, or null. */
export function start(state) {
    for (const [kind, { name }] of Object.entries(FORMS))
        at("kind").add(new Option(name, kind));
    for (let version = 1; version <= 44; version++)
        at("version").add(new Option(version > 40 ? `M${version - 40}` : version));
    for (let mask = 0; mask < 8; mask++)
        at("mask").add(new Option(mask));
    at("kind").addEventListener("input", () => showForm());
    at("form").addEventListener("submit", (event) => event.preventDefault());
    at("form").addEventListener("input", (event) => {
        touched.add(event.target.name);
        draw();
    });
    at("logo").addEventListener("change", () => takeLogo(at("logo").files[0]));
    at("no-logo").addEventListener("click", () => {
        at("logo").value = "";
        takeLogo(undefined);
        at("logo").focus();
    });
    for (const button of at("save").querySelectorAll("[data-format]"))
        button.addEventListener("click", () => save(button.dataset.format));
    at("copy").addEventListener("click", copy);
    at("share").addEventListener("click", share);
    open(state ?? {});
}

/** Shows what an address holds, as if the page were opened with it. */
export function open(state) {
    at("form").reset();
    newest++;
    setLogo(null);
    showForm(state);
}

/** Shows the form of the chosen kind, with these values, and draws. */
function showForm(state = {}) {
    if (Object.keys(FORMS).includes(state.kind))
        at("kind").value = state.kind;
    const form = FORMS[at("kind").value];
    touched.clear();
    at("about").textContent = form.about;
    at("fields").replaceChildren(...Object.entries(form.fields)
        .map(([name, hint]) => fieldOf(name, hint, form.types?.[name])));
    for (const id of [...OPTIONS, ...Object.keys(form.fields).map((it) => `field-${it}`)])
        if (id in state)
            put(at(id), state[id]);
    if (form.level)
        at("level").value = form.level;
    at("level").disabled = form.level !== undefined;
    draw();
}

/** Disables the boxes that the format or the other options leave no choice of. */
function limitBoxes() {
    const { isFixed } = FORMS[at("kind").value], hasVersion = at("version").value !== "";
    const isOff = { marked: isFixed, boost: isFixed || hasVersion,
        micro: isFixed || hasVersion || at("marked").checked };
    for (const [id, isSo] of Object.entries(isOff))
        Object.assign(at(id), { disabled: isSo, checked: at(id).checked && !isSo });
}

const valueOf = (input) => (input.type === "checkbox" ? input.checked : input.value);

function put(input, value) {
    if (input.type === "checkbox")
        input.checked = value === true;
    else
        input.value = value;
}

/** Returns a whole number that is typed, or null. */
function whole(id) {
    const [name, least, most] = NUMBERS[id], text = at(id).value.trim();
    if (text !== "" && !(/^\d+$/.test(text) && text >= least && text <= most))
        throw new QrError("NoSuchSize",
            `${name}: write a whole number from ${least} to ${most.toLocaleString("en")}`);
    return text === "" ? null : Number(text);
}

function drawOptions(format) {
    const look = { scale: whole("scale") ?? 8, quietZone: whole("quietZone"),
        dark: at("dark").value, light: at("transparent").checked ? null : at("light").value };
    return format === "png" ? { ...look, dpi: whole("dpi") } : look;
}

/** Makes the code of what is typed; throws what the library says. */
function make() {
    const form = FORMS[at("kind").value];
    const names = Object.keys(form.fields);
    const values = Object.fromEntries(names.map((it) => [it, valueOf(at(`field-${it}`))]));
    const version = at("version").value || undefined, mask = at("mask").value;
    const options = { level: at("level").value, version, micro: at("micro").checked,
        boost: at("boost").checked, marked: at("marked").checked,
        mask: mask === "" ? null : Number(mask) };
    const made = form.make(values, options);
    if (form.most && !(Number(made.version) <= form.most))
        throw new QrError("NoRoom", `The code has version ${made.version}: such codes have at most `
            + `version ${form.most}.`);
    const inVersion = (each) => form.make(values,
        { ...options, level: made.level, version: each, micro: false, boost: false });
    return logo === null ? made : withLogo(made, inVersion, version ? 0 : form.most || 40);
}

/** Returns a code with the logo: in the first of four versions in which it is large, up to `most`,
    else in the smallest. */
function withLogo(made, inVersion, most) {
    const first = made.withLogo(logo), from = Number(made.version);
    let found = first;
    for (let each = from + 1; !isLarge(found) && each <= Math.min(from + 3, most); each++)
        found = inVersion(each).withLogo(logo);
    return isLarge(found) ? found : first;
}

/** Returns whether the longer side of a logo's area has a fourth of the code's. */
function isLarge({ logo: { area }, width }) {
    return 4 * Math.max(area.width, area.height) >= width;
}

/** Draws the code, or says what is wrong. */
function draw() {
    let failure = null, svg = "";
    code = null;
    limitBoxes();
    try {
        drawOptions("png");
        const made = make();
        svg = made.svg(drawOptions("svg"));
        code = made;
    } catch (error) {
        failure = error;
    }
    showWrong(failure);
    at("picture").hidden = code === null;
    at("picture").src = code === null ? "" : `data:image/svg+xml,${encodeURIComponent(svg)}`;
    at("picture").alt = code === null ? "" : `QR code, ${code.width} modules a side`;
    for (const button of at("save").children)
        button.disabled = code === null || !hasPicture(button.dataset.format ?? "png");
    if (code !== null)
        at("said").textContent = aboutOf(code);
    at("warnings").replaceChildren(...warningsOf(code).map((it) => made("li", {}, it)));
    at("done").textContent = "";
}

/** Shows an error at its field, if the field was typed into, else below the code. */
function showWrong(error) {
    const inputs = [...at("fields").querySelectorAll("input, select, textarea")];
    for (const input of inputs) {
        const isWrong = error?.field?.replace(/\[\d+\]$/, "") === input.name
            && touched.has(input.name);
        input.setAttribute("aria-invalid", isWrong);
        at(`error-${input.name}`).textContent = isWrong ? saidOf(error) : "";
    }
    const isBlank = error?.field !== undefined && inputs.every((it) => !valueOf(it));
    at("said").classList.toggle("wrong",
        error !== null && error.name !== "EmptyField" && !isBlank);
    if (error !== null)
        at("said").textContent = isBlank ? "The code appears here as you type." : saidOf(error);
}

/** Says what the code is, and how large it will be. */
function aboutOf({ version, level, mask, width, quietZone }) {
    const { scale, quietZone: zone } = drawOptions("png");
    const across = width + 2 * (zone ?? quietZone), pixels = across * scale, dots = whole("dpi");
    const wide = (count, perInch) => `${(count * 25.4 / perInch).toFixed(1)} mm`;
    const png = `${pixels} pixels a side${dots ? `, ${wide(pixels, dots)}` : ""}`;
    return `Version ${version}, level ${level}, mask ${mask}: ${width} modules a side, ${across} `
        + `with the quiet zone.\nPNG: ${png}. PDF and EPS: ${wide(pixels, 72)}.`
        + `${logo === null ? "" : `\n${areaOf()}`}`;
}

/** Says which area the logo takes, and what that leaves. */
function areaOf() {
    const { area } = code.logo, { least, allowed } = code.reserve(area);
    return `The logo has ${area.width} by ${area.height} modules. It is proved that the code `
        + `decodes whatever these show; of ${allowed} codewords of a block that may be wrong, `
        + `${least} are left.`;
}

function warningsOf(made) {
    if (made === null)
        return [];
    const { dark, light, quietZone } = drawOptions("svg");
    return [
        ...(areClose(dark, light) ? ["Many readers cannot tell these colours apart: take a much "
            + "darker colour for the dark modules."] : []),
        ...(quietZone !== null && quietZone < made.quietZone ? [`The quiet zone is narrower than `
            + `the ${made.quietZone} modules that the standard wants.`] : []),
        ...(/^.{1,7}$/u.test(at("field-password")?.value ?? "")
            && ["", "WPA"].includes(at("field-security").value)
            ? ["The password has fewer than 8 characters, which WPA needs."] : []),
        ...(logo === null ? [] : [`${hasPicture("png") ? "SVG and PNG have" : "Only SVG has"} `
            + "such logos."]),
        ...(logo === null || isLarge(made) || made.level === "H" ? []
            : ["The logo is small: level H has more room."]),
    ];
}

/** Takes a logo, a file or undefined, unless another comes before this is loaded. */
export async function takeLogo(file) {
    const own = ++newest;
    const bytes = file === undefined ? null : new Uint8Array(await file.arrayBuffer());
    if (own === newest) {
        setLogo(bytes);
        draw();
    }
}

function setLogo(bytes) {
    logo = bytes;
    at("no-logo").hidden = logo === null;
}

function tell(text) {
    at("done").textContent = text;
}

/** Returns whether a format can have the logo, if there is one: SVG, or PNG for a PNG file. */
function hasPicture(format) {
    return logo === null || format === "svg" || format === "png" && logo[0] === 137;
}

function save(format) {
    try {
        const data = code.draw(format, drawOptions(format));
        const href = URL.createObjectURL(new Blob([data], { type: TYPES[format] }));
        made("a", { href, download: `code.${format}` }).click();
        setTimeout(() => URL.revokeObjectURL(href), 60000);
        tell(`Saved as code.${format}.`);
    } catch (error) {
        tell(saidOf(error));
    }
}

async function copy() {
    try {
        const picture = new Blob([code.png(drawOptions("png"))], { type: "image/png" });
        await navigator.clipboard.write([new ClipboardItem({ "image/png": picture })]);
        tell("Copied as an image.");
    } catch (error) {
        tell(`The browser did not copy it: ${error.message}`);
    }
}

/** Puts what is typed into the address. */
function share() {
    const fields = Object.keys(FORMS[at("kind").value].fields).map((it) => `field-${it}`);
    const ids = ["kind", ...OPTIONS, ...fields];
    const state = Object.fromEntries(ids.map((it) => [it, valueOf(at(it))]));
    history.replaceState(null, "", `#${encodeURIComponent(JSON.stringify(state))}`);
    tell(`The address now holds the code${logo === null ? "" : " without its logo"}.`);
}
