/* Compares calls with what the native library answered: peers.mjs FOLDER CASES, a file of lines of
   JSON. A line is [call, arguments, what it makes or is refused by, [more calls of the code that it
   makes, ..]]; bytes given are {"$b": hex}. The last line is 'N passed, M failed'. */

import { createHash } from "node:crypto";
import { readFileSync } from "node:fs";
import { resolve } from "node:path";
import { pathToFileURL } from "node:url";

const goqlanis = await import(new URL("index.mjs", pathToFileURL(`${resolve(process.argv[2])}/`)));
await goqlanis.load();
console.warn = () => {};

/* Calls that are made of several, of a code. */
const OTHERS = {
    checked: (code, picture) => goqlanis.check(picture).map(String),
    places: (code, picture) => goqlanis.missed(picture).map(({ why, ...place }) => place),
    logo: (code, logo) => code.withLogo(logo).svg(),
    logoInPng: (code, logo) => code.withLogo(logo).png(),
    spoilt: (code, options) => code.damaged(options).modules,
};

/** Returns a value of the file as the package takes it. */
function given(it) {
    if (it === null || typeof it !== "object")
        return it;
    if (Array.isArray(it))
        return it.map(given);
    return "$b" in it ? Uint8Array.from(Buffer.from(it.$b, "hex"))
        : Object.fromEntries(Object.entries(it).map(([name, value]) => [name, given(value)]));
}

const checksum = (data) => ({ $h: createHash("sha256").update(data).digest("hex") });

/** Returns what a call makes as the file has it: bytes and long texts by their checksum. */
const told = (made) => JSON.stringify(made instanceof goqlanis.QrCode
    ? [made.version, made.level, made.mask, made.modules] : made, (_, it) =>
    (it instanceof Uint8Array || (typeof it === "string" && [...it].length > 400)
        ? checksum(it) : it));

const counts = [0, 0];

function compare(call, words, wanted, code) {
    let made, said;
    try {
        made = call in OTHERS ? OTHERS[call](code, ...given(words))
            : (code?.[call] ? code : goqlanis)[call](...given(words));
        said = told(made);
    } catch (error) {
        said = told([error.name, error.message]);
    }
    const holds = said === JSON.stringify(wanted);
    counts[holds ? 0 : 1]++;
    if (!holds && counts[1] < 6)
        console.log(`${call} ${JSON.stringify(words)}: ${said}`.slice(0, 300),
            JSON.stringify(wanted).slice(0, 300));
    return made;
}

for (const line of `${readFileSync(process.argv[3])}`.trim().split("\n")) {
    const [call, words, wanted, more] = JSON.parse(line);
    const code = compare(call, words, wanted);
    for (const each of more)
        compare(...each, code);
}
console.log(`${counts[0]} passed, ${counts[1]} failed`);
process.exitCode = Number(counts[1] > 0 || counts[0] === 0);
