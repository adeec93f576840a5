/* What is refused, and why. */

import { CAUSES } from "./numbers.mjs";

export class QrError extends Error {
    constructor(name, message, field) {
        super(message);
        this.name = name;
        if (field !== undefined)
            this.field = field;
    }
}

/** Returns the error for an answer of the library such as "NO_ROOM", with the usual message or
    another one, after `of`, which says what is wrong. */
export function refusal(answer, text = "", of = "") {
    const [name, usual] = CAUSES[answer] ?? ["Error", `answer ${answer} of the library`];
    return new QrError(name, of + (text || usual));
}

/** Throws the error for an answer of the library, unless that is success. */
export function refuse(answer, of = "") {
    if (answer !== "OK")
        throw refusal(answer, "", of);
}
