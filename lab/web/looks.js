/* Looks at the page as an accessibility checker does, and returns what is wrong as texts. */
const wrong = [];
const shown = (it) => it.checkVisibility({ checkVisibilityCSS: true })
    && it.getClientRects().length > 0;
const about = (it) => `${it.localName}${it.id ? `#${it.id}` : ""}`;
const textOf = (ids) => ids.split(/\s+/)
    .map((id) => document.getElementById(id)?.textContent ?? "").join(" ");
const nameOf = (it) => it.getAttribute("aria-label")
    || (it.hasAttribute("aria-labelledby") && textOf(it.getAttribute("aria-labelledby")))
    || [...(it.labels ?? [])].map((label) => label.textContent).join(" ")
    || (["button", "a", "summary"].includes(it.localName) ? it.textContent : "") || it.title;

const CONTROLS = "button, input, select, textarea, summary, a[href], [role=tablist], [role=group]";
const controls = [...document.querySelectorAll(CONTROLS)].filter(shown);
for (const it of controls) {
    if (nameOf(it).trim() === "")
        wrong.push(`${about(it)} has no name`);
    const { width, height } = (it.closest("label") ?? it).getBoundingClientRect();
    if (it.localName !== "a" && (width < 24 || height < 24))
        wrong.push(`${about(it)} is ${width} by ${height} pixels`);
}
const NAMING = ["aria-controls", "aria-labelledby", "aria-describedby"];
for (const it of document.querySelectorAll(NAMING.map((name) => `[${name}]`).join()))
    for (const name of NAMING)
        for (const id of (it.getAttribute(name) ?? "").split(/\s+/).filter((each) => each !== ""))
            if (document.getElementById(id) === null)
                wrong.push(`${about(it)}: ${name} names ${id}, which is not there`);
for (const it of [...document.images].filter(shown))
    if (it.alt === "")
        wrong.push(`${about(it)} has no alternative text`);
const ids = [...document.querySelectorAll("[id]")].map((it) => it.id);
for (const id of new Set(ids.filter((it, at) => ids.indexOf(it) !== at)))
    wrong.push(`two elements have the id ${id}`);
const levels = [...document.querySelectorAll("h1, h2, h3")].filter(shown)
    .map((it) => Number(it.localName[1]));
if (levels[0] !== 1 || levels.some((it, at) => at > 0 && it > levels[at - 1] + 1))
    wrong.push(`headings have the levels ${levels}`);
if (document.documentElement.lang === "" || document.title === "")
    wrong.push("the page has no language or no title");
if (document.scrollingElement.scrollWidth > innerWidth)
    wrong.push(`the page is ${document.scrollingElement.scrollWidth} pixels wide in ${innerWidth}`);

/* Contrast, as WCAG 2 reckons it. */
const channels = (colour) => colour.match(/[\d.]+/g).map(Number);
const linear = (it) => (it <= 0.04045 ? it / 12.92 : ((it + 0.055) / 1.055) ** 2.4);
const bright = (colour) => [0.2126, 0.7152, 0.0722]
    .reduce((sum, part, at) => sum + part * linear(colour[at] / 255), 0);
function behind(it) {
    for (let at = it; at !== null; at = at.parentElement) {
        const colour = channels(getComputedStyle(at).backgroundColor);
        if (colour[3] !== 0)
            return colour;
    }
    return [255, 255, 255];
}
let least = 21;
const texts = [...document.querySelectorAll("body *")].filter((it) => shown(it) && !it.disabled
    && (["input", "select", "textarea"].includes(it.localName)
        || [...it.childNodes].some((each) => each.nodeType === 3 && each.data.trim() !== "")));
for (const it of texts) {
    const [a, b] = [bright(channels(getComputedStyle(it).color)), bright(behind(it))];
    const ratio = (Math.max(a, b) + 0.05) / (Math.min(a, b) + 0.05);
    least = Math.min(least, ratio);
    if (ratio < 4.5)
        wrong.push(`${about(it)}: contrast ${ratio.toFixed(2)}`);
}
return { wrong, controls: controls.length, texts: texts.length, least: least.toFixed(1) };
