/** QR and Micro QR codes, by a library that is proved correct.

    ```js
    import { encode, load, read } from "goqlanis";
    await load();
    const code = encode("https://example.org", { level: "Q" });
    code.svg();
    read(code.png())[0].text;
    ```

    What cannot be encoded, drawn or read throws a QrError, whose message says what would help; a
    wrong argument throws TypeError or RangeError. */

/** Loads goqlanis.wasm, which must be done before all other calls: the file beside this module, or
    what is given. If it is given, a module that was loaded before is replaced. */
export function load(source?: Source | Promise<Source>): Promise<void>;
export type Source = string | URL | Response | BufferSource | WebAssembly.Module;
/** How many bytes the module's memory has: as many as the largest call so far took. */
export function memoryBytes(): number;

/** Error correction levels, from the lowest to the highest. */
export type Level = "L" | "M" | "Q" | "H";
/** A version: 1 to 40, or "M1" to "M4" for Micro QR. */
export type Version = number | string;
/** A character set of a text. */
export type Charset = "iso-8859-1" | "iso-8859-2" | "iso-8859-3" | "iso-8859-4" | "iso-8859-5" |
    "iso-8859-6" | "iso-8859-7" | "iso-8859-8" | "iso-8859-9" | "iso-8859-10" | "iso-8859-11" |
    "iso-8859-13" | "iso-8859-14" | "iso-8859-15" | "iso-8859-16" | "shift-jis" | "windows-1250" |
    "windows-1251" | "windows-1252" | "windows-1256" | "utf-8";
/** Bytes are any; a string is encoded so that readers show it. */
export type Data = string | ArrayBuffer | ArrayBufferView;

export interface EncodeOptions {
    /** The default is "M". */
    level?: Level;
    /** By default the smallest of Normal QR that holds the data. */
    version?: Version | null;
    /** This version or a larger one. */
    minVersion?: Version | null;
    /** Micro QR if it holds the data. */
    micro?: boolean;
    /** The highest level, from `level` on, that fits in the same version. */
    boost?: boolean;
    /** 0 to 7, for Micro QR 0 to 3; by default the one with the lowest penalty. */
    mask?: number | null;
    /** Marks a string as UTF-8 (ECI 26), for readers that guess. */
    marked?: boolean;
    /** The number of the character set of bytes; then only `level` and `version` go with it. */
    eci?: number | null;
    /** The character set of a string, marked by its ECI; or "shortest" for the one in which it takes
        the fewest bits, which needs no ECI if it is UTF-8. */
    charset?: Charset | "shortest" | null;
}
/** Encodes a string or bytes. Throws NoRoom, TooLong, NoSuchLevel, NoSuchVersion,
    LevelNotInVersion, NoMode, NoSuchMask, NoSuchSet, NotInSet or NoSuchNumber. */
export function encode(data: Data, options?: EncodeOptions): QrCode;
/** Splits data over up to 16 codes (structured append), which `join` joins: as few as possible, or
    `count`. */
export function encodeSequence(data: Data, options?: { level?: Level; version?: Version | null;
    count?: number | null; minVersion?: Version | null; maxVersion?: Version | null }): QrCode[];
/** A mode and its data, or a header. The data of "kanji" is pairs of Shift JIS bytes. */
export type Segment = ["numeric" | "alphanumeric" | "byte", Data] | ["kanji", Exclude<Data, string>]
    | ["eci" | "fnc1Second", number] | ["fnc1First"];
/** Encodes segments, one after another. Throws also NotInMode. */
export function encodeSegments(segments: Iterable<Segment>,
    options?: { level?: Level; version?: Version | null }): QrCode;
/** An application identifier without parentheses, and its value with the check digit. */
export type Element = [identifier: string, value: string];
/** Encodes GS1 elements (FNC1 in the first position), in the fewest bits. */
export function encodeGs1(elements: Iterable<Element>, options?: { level?: Level;
    version?: Version | null; minVersion?: Version | null; mask?: number | null }): QrCode;
/** Whether a module of a version belongs to a pattern or to the format or version information. */
export function isFunctional(version: Version, x: number, y: number): boolean;

/** A CSS name, "#rgb", "#rrggbb", "#rrggbbaa", [red, green, blue] or [red, green, blue, opacity],
    each 0 to 255; null is transparent. */
export type Colour = string | number[] | null;
/** Colours of patterns and data, in PNG, SVG, EPS and PDF; by default those of dark and light. */
export type PartColours = { [part in `${"finder" | "alignment" | "timing" | "format" | "version"
    | "data"}${"Dark" | "Light"}`]?: Colour };
export interface DrawOptions extends PartColours {
    /** Pixels per module; the default is 8, for text and PIC 1. */
    scale?: number | null;
    /** In place of `scale`: the most pixels of a side, or a length, as "30mm" (cm, in, pt): SVG, EPS
        and PDF have it, PNG, with `dpi`, at most. */
    size?: number | string | null;
    /** Light modules on each side, up to 4,000; the default is 4, for Micro QR 2. */
    quietZone?: number | null;
    /** For PNG and SVG; opaque also for EPS, PDF and PPM. */
    dark?: Colour;
    light?: Colour;
    /** Dots per inch that a PNG file states. */
    dpi?: number | null;
}
/** The formats: "txt" and "light" are half blocks, "grey" is a byte per pixel, and "zpl", "tspl"
    and "escpos" are for printers. */
export type Format = "txt" | "png" | "svg" | "eps" | "pic" | "pbm" | "pgm" | "pdf" | "zpl" | "tspl"
    | "escpos" | "xbm" | "ppm" | "light" | "grey";
/** The formats with a file extension. */
export const FORMATS: Readonly<Record<string,
    { number: number; isText: boolean; scale: number; hasColours: boolean }>>;
/** Whether many readers could not tell dark modules from light ones, on white paper. */
export function areClose(dark: Colour, light: Colour): boolean;

export interface Rectangle { left: number; top: number; width: number; height: number }
/** What an area takes of a code, and what it leaves. */
export interface Reserve {
    /** How many codewords of each block the area touches. */
    touched: number[];
    /** How many codewords of each block may be lost. */
    allowed: number;
    /** The block that loses most, counted from 0. */
    worst: number;
    /** How many modules of each copy of the format information; 3 may be lost. */
    formatModules: [number, number];
    /** How many more codewords of each block may be lost; null if the area takes too much. */
    least: number | null;
}
export interface AreaOptions {
    /** How many wrong codewords each block can still correct; by default half of what it can. */
    reserve?: number | null;
    /** Whether alignment patterns stay visible too. */
    keepAlignment?: boolean;
}

/** A QR or Micro QR code. */
export class QrCode {
    constructor(modules: Exclude<Data, string>, version: Version, level: Level);
    /** A byte for each module, row by row, 1 if it is dark. */
    readonly modules: Uint8Array;
    /** "1" to "40", or "M1" to "M4". */
    readonly version: string;
    readonly level: Level;
    /** The character set, if `encode` was given one or chose it. */
    readonly charset: Charset | null;
    /** Modules per side, without the quiet zone. */
    readonly width: number;
    readonly mask: number;
    /** Where the logo is, and its picture as a data URI. */
    readonly logo: (Rectangle & { area: Rectangle; data: string }) | null;
    /** False if `damaged` made more wrong than this library is promised to correct. */
    readonly isPromised: boolean;
    /** How many wrong codewords of each block it is promised to correct. */
    readonly mostCodewords: number;
    /** The width of the quiet zone that the standard wants. */
    readonly quietZone: number;
    isDark(x: number, y: number): boolean;
    draw(format: Format, options?: DrawOptions): string | Uint8Array;
    /** SVG without the XML declaration, for an HTML page. */
    svgInline(options?: DrawOptions): string;
    svgDataUri(options?: DrawOptions): string;
    pngDataUri(options?: DrawOptions): string;
    /** Half blocks, two modules per character. */
    toString(): string;
    reserve(area: Rectangle | Rectangle[]): Reserve;
    /** The largest rectangle in the middle that may show anything. Throws AreaTooLarge. */
    largestArea(options?: AreaOptions & { ratio?: [number, number] }): Rectangle;
    /** The code with a light area, by default the largest. Whatever the area then shows, the code
        decodes to the same data. Throws NoSuchArea or AreaTooLarge. */
    withArea(area?: Rectangle | Rectangle[]): QrCode;
    /** The code with exactly so many wrong codewords in each block, wrong bits in each copy of the
        format and version information, and wrong modules of finder, timing and alignment patterns
        and separators, to test readers. Throws TooMuchDamage. */
    damaged(options?: { codewords?: number; formatBits?: number; versionBits?: number;
        patternModules?: number; seed?: number }): QrCode;
    /** The code with a logo, the bytes or the text of an SVG or PNG file, in an area, by default
        the largest in its ratio. SVG shows it, and PNG a PNG file; half blocks leave the area
        light, and other formats throw NotInFormat: for these, take withArea. */
    withLogo(logo: Data,
        options?: AreaOptions & { area?: Rectangle | null; margin?: number }): QrCode;
}

type Draws<Formats extends string, Made> = { [format in Formats]: (options?: DrawOptions) => Made };
/** A method for each format but half blocks, which `draw` and `toString` draw. */
export interface QrCode extends Draws<"svg" | "eps" | "pic" | "zpl" | "xbm", string>, Draws<"png" |
    "pbm" | "pgm" | "pdf" | "tspl" | "escpos" | "ppm" | "grey", Uint8Array> {}

/** A field of a payload, as people write it. Milliseconds of a Date are left out, and warned of. */
export type Field = string | number | bigint | boolean | Date | null;
/** The kinds of payloads, with what each field is. */
export const PAYLOADS: Readonly<Record<string,
    { number: number; about: string; more: string; fields: Record<string, string> }>>;
/** The text of a payload, by its kind in PAYLOADS. Throws an error that names the wrong `field`. */
export function payload(kind: string, fields: Record<string, Field>): string;
type Payload<Names extends string> = (fields: { [name in Names]?: Field }) => string;
export const wifi: Payload<"ssid" | "password" | "security" | "hidden">;
export const mecard: Payload<"family" | "given" | "phone" | "email" | "url" | "birthday" | "note" |
    "street" | "city" | "region" | "code" | "country">;
export const vcard: Payload<"name" | "family" | "given" | "organisation" | "phone" | "email" | "url"
    | "street" | "city" | "region" | "code" | "country" | "note" | "title" | "birthday" | "mobile" |
    "workPhone" | "homePhone" | "nickname" | "fax">;
export const payment: Payload<"name" | "iban" | "amount" | "bic" | "purpose" | "reference" |
    "message" | "information">;
export const bill: Payload<"iban" | "name" | "street" | "number" | "code" | "city" | "country" |
    "amount" | "currency" | "reference" | "message" | "debtorName" | "debtorStreet" | "debtorNumber"
    | "debtorCode" | "debtorCity" | "debtorCountry">;
export const mail: Payload<"address" | "subject" | "body" | "cc" | "bcc">;
export const geo: Payload<"latitude" | "longitude">;
export const tel: Payload<"number">;
export const sms: Payload<"number" | "body">;
export const otp: Payload<"account" | "secret" | "issuer" | "algorithm" | "digits" | "period" |
    "counter">;
export const event: Payload<"begin" | "end" | "summary" | "location" | "description" | "uid" |
    "stamp">;
export const upi: Payload<"payee" | "name" | "amount" | "note" | "reference" | "category">;
export const pix: Payload<"payee" | "name" | "city" | "amount" | "reference" | "description">;
export const promptpay: Payload<"payee" | "amount">;
/** The GS1 element string of elements. */
export function gs1(elements: Iterable<Element>): Uint8Array;

/** What a square of modules says, and how many codewords were wrong and corrected. */
export interface Reading {
    data: Uint8Array; version: string; level: Level; mask: number; wrong: number }
/** The position is "upright", "rotated left", "upside down", "rotated right", "mirrored",
    "flipped", "transposed" or "antitransposed". */
export interface AnyReading extends Reading { position: string; isInverted: boolean }
/** A header or a segment: `number` is a character set, an application indicator or a parity,
    `place` and `symbols` belong to "oneOfSeveral", and `length` is the number of bytes. */
export interface Part {
    kind: string; number?: number; place?: number; symbols?: number; length?: number }
/** A code in a picture; `text` is null unless the data is in UTF-8 or the sets that ECI names. */
export interface Found extends AnyReading { parts: Part[]; text: string | null }
/** A PNG, PBM or PGM file, text of half blocks, or the pixels of a canvas. */
export type Picture = Data | { width: number; height: number; data: Uint8ClampedArray };
/** A code, rows of modules, or a byte for each module; without a quiet zone. */
export type Square = QrCode | Iterable<Iterable<boolean | number>> | Exclude<Data, string>;
/** Returns the codes in a picture, or in all pictures of a PBM or PGM file, in order. Of more than
    64 codes in a picture some may be missed. Throws NotPicture, BrokenPicture, NoSquare or another
    cause, unless other pictures of the file have codes: then it warns on the console. */
export function read(picture: Picture): Found[];
/** A square that looks like a code but does not decode: modules per side, the pixels of its upper
    left corner, and why. */
export interface Missed { width: number; left: number; top: number; why: QrError }
/** Returns such squares in a picture, next to the codes that `read` returns. Throws as `read`. */
export function missed(picture: Picture): Missed[];
export function readSquare(square: Square): Reading;
/** Reads a square that may be turned, mirrored or inverted. */
export function readAny(square: Square): AnyReading;
/** Returns the text that readers show for a square. */
export function readText(square: Square): string;
/** Joins the data of codes that `encodeSequence` made, in any order. Throws NotJoined. */
export function join(squares: Iterable<Square>): Uint8Array;
/** Returns what departs from the standard in each code of a picture. */
export function check(picture: Picture): Check[];
export function checkSquare(square: Square): Check;
/** What departs from the standard in a code; `toString` gives the text of `goqlanis check`. What is
    not known is null. */
export class Check {
    readonly version: string;
    readonly level: Level;
    readonly mask: number;
    readonly wrongByBlock: number[];
    readonly allowedByBlock: number;
    readonly unusedCorrection: number;
    readonly grade: string;
    readonly wrongModules: Record<"finder" | "alignment" | "timing" | "format" | "version"
        | "remainder", number>;
    readonly segments: boolean;
    readonly bits: number | null;
    readonly fewestBits: number | null;
    readonly wrongTerminator: number | null;
    readonly wrongPadding: number | null;
    readonly guessedSegments: number | null;
    readonly guessedUtf8: boolean | null;
    readonly masks: { lower: number; sameBefore: number };
    readonly masksHere: { lower: number; sameBefore: number };
    readonly isStandard: boolean;
    toString(): string;
}

/** The error of a call; `name` is its cause, such as "NoRoom". */
export class QrError extends Error {
    /** The field of a payload that is wrong, "text" for the whole, or "elements[1]". */
    readonly field?: string;
}
