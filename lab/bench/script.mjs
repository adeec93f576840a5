/* Times the package for JavaScript and qrcode-generator in one engine: lab/bench/script runs it in Node
   and in browsers. Times are in microseconds, each the fastest of some rounds of 100 to 200 ms. */

const ROUND = 100;
const WORDS = "The quick brown fox jumps over the lazy dog, and then it goes on. ".repeat(40);

/** Returns the fastest time of a call. Rounds of both encoders take as long, so that other work of
    the machine delays both alike, and clocks that browsers make coarse are fine enough. */
function timeOf(call, spent) {
    let times = 1, least = Infinity;
    for (const end = performance.now() + spent; performance.now() < end || least === Infinity;) {
        const begin = performance.now();
        for (let at = 0; at < times; at++)
            call();
        const took = performance.now() - begin;
        if (took < ROUND)
            times *= 2;
        else
            least = Math.min(least, took * 1000 / times);
    }
    return least;
}

/** Returns the times of both encoders, by what they make; `bytes` are those of goqlanis.wasm. */
export async function measure(goqlanis, qrcode, bytes, spent = 2000) {
    const begin = performance.now();
    await goqlanis.load(bytes);
    goqlanis.encode("1");
    const found = { start: [(performance.now() - begin) * 1000] };
    for (const length of [100, 2331]) {
        const text = WORDS.slice(0, length), data = new TextEncoder().encode(text);
        const other = () => {
            const made = qrcode(0, "M");
            made.addData(text, "Byte");
            made.make();
            return made;
        };
        const [code, its] = [goqlanis.encode(data), other()];
        if (code.width !== its.getModuleCount())
            throw new Error(`${code.width} modules, and ${its.getModuleCount()}`);
        found[`symbol ${length}`] = [timeOf(() => goqlanis.encode(data), spent),
            timeOf(other, spent)];
        found[`svg ${length}`] = [timeOf(() => goqlanis.encode(data).svg(), spent),
            timeOf(() => other().createSvgTag({ cellSize: 8 }), spent)];
    }
    return found;
}

if (typeof process !== "undefined" && process.argv[3]) {
    const { createRequire } = await import("node:module");
    const { readFileSync } = await import("node:fs");
    const { resolve } = await import("node:path");
    const { pathToFileURL } = await import("node:url");
    const [folder, generator] = process.argv.slice(2, 4).map((it) => resolve(it));
    const goqlanis = await import(pathToFileURL(`${folder}/index.mjs`));
    const bytes = new Uint8Array(readFileSync(`${folder}/goqlanis.wasm`));
    const qrcode = createRequire(import.meta.url)(generator);
    console.log(JSON.stringify(await measure(goqlanis, qrcode, bytes)));
}
