/* QR and Micro QR codes, by a library that is proved correct: index.d.ts explains all calls. */

export { QrCode } from "./code.mjs";
export { bill, event, geo, gs1, mail, mecard, otp, payload, payment, pix, promptpay, sms, tel, upi,
    vcard, wifi } from "./contents.mjs";
export { areClose } from "./drawing.mjs";
export { encode, encodeGs1, encodeSegments, encodeSequence, isFunctional } from "./encoding.mjs";
export { QrError } from "./errors.mjs";
export { load, memoryBytes } from "./memory.mjs";
export { FORMATS, PAYLOADS } from "./numbers.mjs";
export { Check, check, checkSquare, join, missed, read, readAny, readSquare, readText }
    from "./reading.mjs";
