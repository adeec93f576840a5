/* The forms of what a code holds, made from the library's table of payloads. */

import { PAYLOADS, QrError, encode, encodeGs1, payload } from "./goqlanis/index.mjs";

const LONG = ["text", "body", "note", "description"];
const SHORT = ["ssid", "iban", "bic", "url", "uid"];
/* Hints in place of those of the library, which speak of its texts. */
const OWN = { bic: "8 or 11 letters and digits; may be empty", birthday: "",
    mobile: "mobile phone number", stamp: "when this was written; may be empty",
    uid: "an identifier that no other event has; may be empty" };
/* Words of the library for programs, and those of the page. */
const SPOKEN = [[/; no level holds them.*$/, ""], [/ marked and eci/, ' "Mark text as UTF-8"'],
    [/take scale: /, "take pixels per module: "], [/quietZone/g, "quiet zone"],
    [/; write it with its zone, .*$/, ""],
    [/^end: it is outside what the .*$/, "end: it is not after the beginning"]];
const MODES = { phone: "tel", number: "tel", mobile: "tel", workPhone: "tel", homePhone: "tel",
    email: "email", address: "email", url: "url", link: "url", amount: "decimal" };

export const at = (id) => document.getElementById(id);

/** Returns a new element with these properties, and others or texts inside. */
export function made(name, more, ...inside) {
    const element = Object.assign(document.createElement(name), more);
    element.append(...inside);
    return element;
}

/* The minutes by which time zones differ from UTC. */
const OFFSETS = [...Array.from({ length: 27 }, (_, at) => 60 * at - 720), -570, -210, 210, 270, 330,
    345, 390, 525, 570, 630, 765].sort((one, other) => one - other);

/* Events at times and on whole days: the library takes the day after the last. */
const EVENTS = {
    event: eventOf("Calendar event", "datetime-local", { begin: "", end: "", zone: "" },
        ({ begin, end, stamp, zone, ...more }) => ({ ...more, begin: timeOf(begin, zone),
            end: timeOf(end, zone), stamp: timeOf(stamp, zone) })),
    days: eventOf("Calendar event, whole days", "date", { begin: "the first day",
        end: "the last day" }, ({ end, stamp, ...more }) => ({ ...more, stamp: timeOf(stamp, ""),
        end: end && new Date(Date.parse(end) + 864e5).toISOString().slice(0, 10) })),
};

/** Each kind: its name, what it is, the fields with their hints, and what makes a code of them; for
    some, the level and the largest version that the format wants, and the types of controls. If
    `isFixed`, the format leaves no choice of Micro QR, of a higher level or of a mark for UTF-8. */
export const FORMS = {
    text: { name: "Text", about: "", fields: { text: "" }, isFixed: false,
        make: ({ text }, options) => encode(filled("text", text), options) },
    link: { name: "Link", about: "", fields: { link: "as https://example.org" }, isFixed: false,
        make: ({ link }, options) => encode(linked(link), options) },
    ...Object.fromEntries(Object.entries(PAYLOADS).flatMap(([kind, row]) =>
        (kind === "event" ? Object.entries(EVENTS) : [[kind, formOf(kind, row)]]))),
    gs1: { name: "GS1 elements", about: "", isFixed: true,
        fields: { elements: "as (01)09521234543213(17)291231(10)ABC123" },
        make: ({ elements }, options) => encodeGs1(pairs(elements), gs1Options(options)) },
};

function formOf(kind, { about, more, fields }) {
    const [name, ...rules] = about.replace(/^an? /, "").split("; ");
    const demand = /^its symbol must have level (.) and at most version (\d+)$/;
    const [, level, most] = rules.map((it) => demand.exec(it)).find(Boolean) ?? [];
    const said = rules.map((it) => it.replace(demand,
        "such codes have level $1 and at most version $2")).join("; ");
    return { name: name[0].toUpperCase() + name.slice(1),
        about: [said && `${said[0].toUpperCase()}${said.slice(1)}.`, more].join(" ").trim(),
        fields, level, most: Number(most), isFixed: level !== undefined,
        make: (values, options) => encode(payload(kind, values), options) };
}

/** Returns the form of an event; `timesOf` makes the library's fields of what is chosen. */
function eventOf(name, type, times, timesOf) {
    const { fields, isFixed } = formOf("event", PAYLOADS.event);
    return { name, about: "", isFixed, fields: { ...times, ...fields, ...times },
        types: { begin: type, end: type, stamp: "datetime-local" },
        make: (values, options) => encode(payload("event", timesOf(values)), options) };
}

/** Returns a time in a zone, an offset from UTC or empty for that of the browser. */
function timeOf(time, zone) {
    return time === "" ? "" : zone === "" ? new Date(time) : time + zone;
}

function offsetOf(minutes) {
    const [hours, rest] = [Math.trunc(Math.abs(minutes) / 60), Math.abs(minutes) % 60]
        .map((it) => `${it}`.padStart(2, "0"));
    return minutes === 0 ? "Z" : `${minutes < 0 ? "-" : "+"}${hours}:${rest}`;
}

function filled(name, text) {
    if (text === "")
        throw new QrError("EmptyField", `${name}: it may not be empty`, name);
    return text;
}

function linked(link) {
    const text = filled("link", link.trim());
    if (!/^[a-z][a-z0-9+.-]*:\S+$/i.test(text))
        throw new QrError("WrongCharacter", "link: write it as https://example.org", "link");
    return text;
}

/** Returns the elements of a text such as (01)09521234543213(10)A\(B), whose last value is A(B). */
function pairs(text) {
    const found = [...text.trim().matchAll(/\((\d+)\)((?:\\\(|[^(])*)/g)];
    if (found.map((it) => it[0]).join("") !== text.trim())
        throw new QrError("WrongCharacter", "elements: write each identifier in brackets, as "
            + "(01)09521234543213, and a bracket in a value as \\(", "elements");
    return found.map((it) => [it[1], it[2].replaceAll("\\(", "(")]);
}

/** Returns the options that encodeGs1 takes; it has no Micro QR, and bits are the fewest. */
function gs1Options({ level, version, mask }) {
    return { level, version, mask };
}

/** Returns the label of a field: "Work phone" for workPhone. */
const words = (name) => (SHORT.includes(name) ? name.toUpperCase()
    : name.replace(/[A-Z]/g, (it) => ` ${it.toLowerCase()}`)
        .replace(/^./, (it) => it.toUpperCase()));

/** Returns what an error says, in the words of the page. */
export function saidOf({ name, field, message }) {
    if (name === "EmptyField")
        return `${words(field)}: fill this in.`;
    const said = SPOKEN.reduce((text, [api, own]) => text.replace(api, own), message);
    return field && said.startsWith(`${field}: `) ? words(field) + said.slice(field.length) : said;
}

/** Returns the element of a field, with its label, hint and place for an error. */
export function fieldOf(name, given, type) {
    const hint = OWN[name] ?? given, input = inputOf(name, hint, type);
    const isBox = input.type === "checkbox";
    Object.assign(input, { id: `field-${name}`, name });
    input.setAttribute("aria-describedby", `hint-${name} error-${name}`);
    const below = isBox ? hint.replace(/^"true" /, "")
        : input.localName === "select" ? hint.replace(/^.*?; empty/, "default")
            : hint === words(name).toLowerCase() ? "" : hint;
    const label = made("label", { htmlFor: input.id, className: isBox ? "box" : "" },
        ...(isBox ? [input] : []), words(name));
    return made("div", { className: isBox ? "" : "field" }, label, ...(isBox ? [] : [input]),
        made("p", { id: `hint-${name}`, className: "hint" }, below),
        made("p", { id: `error-${name}`, className: "error" }));
}

function inputOf(name, hint, type) {
    const zone = new Intl.DateTimeFormat().resolvedOptions().timeZone;
    const choices = name === "zone" ? [["", `${zone}, as here`],
        ...OFFSETS.map(offsetOf).map((it) => [it, it === "Z" ? "UTC" : `UTC ${it}`])]
        : /^("[^"]+"(?:,| or) )+"[^"]+"; empty/.test(hint)
        ? [["", "default"], ...hint.split(";")[0].match(/"[^"]+"/g)
            .map((it) => [it.slice(1, -1), it.slice(1, -1)])] : [];
    if (choices.length > 0)
        return made("select", {}, ...choices.map(([value, text]) => new Option(text, value)));
    const isLong = LONG.includes(name);
    const how = isLong ? { rows: name === "text" ? 5 : 3 }
        : { type: hint.startsWith('"true" if') ? "checkbox"
            : type ?? (name === "birthday" ? "date" : "text") };
    return made(isLong ? "textarea" : "input",
        { ...how, spellcheck: false, ...(MODES[name] && { inputMode: MODES[name] }) });
}
