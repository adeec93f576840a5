/* What the types allow, and what they refuse: bindings/js/test has tsc look at it. */
import { check, encode, encodeSegments, load, memoryBytes, missed, read, wifi } from "goqlanis";
await load();
const code = encode("a", { level: "H", version: "M3", mask: 3 });
const s: string = code.svg({ dark: null, size: "30mm", finderDark: "navy" });
const b: Uint8Array = code.png({ dpi: 300 });
const c: string | null = encode("ж", { charset: "iso-8859-5" }).charset;
encodeSegments([["eci", 26], ["byte", "x"], ["fnc1First"], ["kanji", new Uint8Array(2)]]);
const t: string | null = read(b)[0].text;
wifi({ ssid: "x", hidden: true });
memoryBytes().toFixed();
check(b)[0].wrongModules.finder.toFixed();
code.withLogo(s, { margin: 1 }).logo?.area.left;
code.damaged({ codewords: 1, seed: 7 }).isPromised.valueOf();
missed(b).map(({ left, why }) => left + why.name.length);
// @ts-expect-error
wifi({ ssdi: "x" });
// @ts-expect-error
encode("a", { levl: "H" });
// @ts-expect-error
encode("a", { level: "X" });
// @ts-expect-error
encode("a", { mask: "3" });
// @ts-expect-error
encode("a", { charset: "latin" });
// @ts-expect-error
encodeSegments([["kanji", "x"]]);
