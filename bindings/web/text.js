// `readText`: the bytes that a text spells: in hexadecimal, in base64, or as a bytes literal of Python.
import { place, readHexadecimal } from "./hexadecimal.js";

// Base64 without line ends; how a literal begins; each of its parts, in quotes; an escape, and those of one letter.
const BASE64 = /^[a-z\d+/]+={0,2}$/i;
const LITERAL = /^\s*(?:(?:bytes|bytearray)?\(\s*)?(?=[bB]["'])/;
const PART = /[bB](["'])((?:\\x[\da-fA-F]{2}|\\[^x]|(?!\1)[\t -[\]-~])*)(\1\s*)?/gy;
const ESCAPE = /\\(?:x(..)|([0-7]{1,3})|([^]))/g;
const LETTERS = { a: "\x07", b: "\b", f: "\f", n: "\n", r: "\r", t: "\t", v: "\v", "\n": "", "'": "'", '"': '"',
    "\\": "\\" };

const bytesOf = (characters) => Uint8Array.from(characters, (it) => it.charCodeAt(0));

// Returns the bytes, and how they were read unless in hexadecimal; or why there are none.
export function readText(text) {
    const literal = LITERAL.exec(text);
    if (literal) {
        return readLiteral(text, literal[0].length);
    }
    const read = readHexadecimal(text), lines = read.fault ? text.split("\n") : [];
    const letters = lines.map((it) => it.trim()).join("");
    if (letters.length % 4 === 0 && BASE64.test(letters) && /[^\da-f]/i.test(letters)) {
        return { bytes: bytesOf(atob(letters)), how: `read as base64: ${read.fault.split(":")[0]} isn't hexadecimal` };
    }
    return read.fault && /^\s*[[{]/.test(text) ? { fault: "the input seems to be JSON; amqp_show --encode reads it" }
        : read;
}

// Reads the parts of a literal, the first of which begins at an offset.
function readLiteral(text, begin) {
    const parts = [...text.slice(begin).matchAll(PART)];
    const at = parts.reduce((sum, [part]) => sum + part.length, begin);
    const one = (all, digits, octal, letter) => (letter ? LETTERS[letter] ?? all
        : String.fromCharCode((digits ? parseInt(digits, 16) : parseInt(octal, 8)) & 255));
    const characters = parts.map((part) => part[2].replace(ESCAPE, one)).join("");
    return parts.at(-1)[3] && /^\)?\s*$/.test(text.slice(at))
        ? { bytes: bytesOf(characters), how: "read as a bytes literal of Python" }
        : { fault: at === text.length ? "the text ends inside a bytes literal of Python"
            : `${place(text.slice(0, at))}: this can't be in a bytes literal of Python` };
}
