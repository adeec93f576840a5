/* Starts the page: loads the library, and switches between making and reading. */

import { load } from "./goqlanis/index.mjs";
import { at } from "./forms.mjs";
import * as make from "./make.mjs";
import * as read from "./read.mjs";

const TABS = ["make", "read"];

/** Shows a panel, and gives its tab the focus if that is asked for. */
function show(chosen, isFocused = false) {
    for (const name of TABS) {
        const tab = at(`tab-${name}`), isChosen = name === chosen;
        tab.setAttribute("aria-selected", isChosen);
        tab.tabIndex = isChosen ? 0 : -1;
        at(name).hidden = !isChosen;
    }
    if (isFocused)
        at(`tab-${chosen}`).focus();
}

for (const name of TABS)
    at(`tab-${name}`).addEventListener("click", () => show(name));
document.querySelector("[role=tablist]").addEventListener("keydown", (event) => {
    const step = { ArrowRight: 1, ArrowLeft: 1, Home: 0, End: 0 }[event.key];
    if (step === undefined)
        return;
    event.preventDefault();
    const now = TABS.findIndex((it) => !at(it).hidden);
    const ends = { Home: TABS[0], End: TABS[TABS.length - 1] };
    show(ends[event.key] ?? TABS[(now + step) % TABS.length], true);
});

/* A dropped picture is a logo where a code is made, and is read elsewhere. */
const places = () => (at("make").hidden ? at("drop") : at("frame"));
addEventListener("dragover", (event) => {
    event.preventDefault();
    places().classList.add("over");
});
addEventListener("dragleave", () => places().classList.remove("over"));
addEventListener("drop", (event) => {
    event.preventDefault();
    places().classList.remove("over");
    const [file] = event.dataTransfer.files;
    if (file !== undefined)
        (at("make").hidden ? read.take : make.takeLogo)(file);
});
addEventListener("paste", (event) => {
    const file = [...event.clipboardData.files].find((it) => it.type.startsWith("image/"));
    if (file !== undefined) {
        event.preventDefault();
        show("read");
        read.take(file);
    }
});

/** Returns what the address holds, or null. */
function stateOf(address) {
    try {
        const state = JSON.parse(decodeURIComponent(address.slice(1)));
        return state !== null && typeof state === "object" ? state : null;
    } catch {
        return null;
    }
}

/* In the single file the module is in the page. */
const inside = at("wasm");
try {
    await load(inside === null ? undefined
        : Uint8Array.from(atob(inside.textContent.trim()), (it) => it.charCodeAt(0)));
    make.start(stateOf(location.hash));
    read.start();
    addEventListener("hashchange", () => {
        const state = stateOf(location.hash);
        if (state !== null) {
            show("make");
            make.open(state);
        }
    });
    at("starting").hidden = true;
    document.querySelector("main").hidden = false;
} catch (error) {
    at("starting").textContent = `The page did not start: ${error.message}`;
}
