// The texts for what `read` returned, in the words of amqp_show, without its options. (packaging/web.py makes header.js
// of amqp_values.h.)
import { AMQPV, NAMES } from "./header.js";
import { AGAIN, BARE, CUT, REST, isContainer, isCounted, isTruncated } from "./reading.js";

// Control characters, and those that can't be seen or that turn the direction of the text around them.
const UNPRINTABLE = new RegExp('["\\\\\\u0000-\\u001f\\u007f-\\u009f\\u00ad\\u034f\\u061c\\u115f\\u1160\\u17b4\\u17b5'
    + "\\u180b-\\u180f\\u200b-\\u200f\\u2028-\\u202e\\u2060-\\u206f\\u3164\\ufeff\\uffa0\\ufff9-\\ufffb]", "g");
const DIGITS = Array.from({ length: 256 }, (_, it) => it.toString(16).padStart(2, "0"));
export const hexadecimal = (bytes) => Array.from(bytes, (it) => DIGITS[it]).join("");

const digitsOf = (character) => `\\u${character.charCodeAt(0).toString(16).padStart(4, "0")}`;
const escaped = (character) => (/["\\]/.test(character) ? `\\${character}` : digitsOf(character));

// A string in quotation marks; if it isn't UTF-8, only with characters of ASCII.
export function quoted(bytes) {
    try {
        const text = new TextDecoder("utf-8", { fatal: true, ignoreBOM: true }).decode(bytes);
        return `"${text.replace(UNPRINTABLE, escaped)}"`;
    } catch {
        const ascii = (it) => String.fromCharCode(it).replace(UNPRINTABLE, escaped);
        return `"${Array.from(bytes, (it) => (it < 128 ? ascii(it) : `\\x${DIGITS[it]}`)).join("")}"`;
    }
}

// The shortest decimal that reads back as a Float above 0, the nearest of these, of two the even one: its digits, and
// how many are before the point. Numbers are whole multiples of 10^-152 here.
function shortest(bits) {
    const raised = bits >>> 23, fraction = BigInt(bits & 0x7fffff), isOdd = fraction % 2n;
    const exact = 4n * (raised ? fraction + 0x800000n : fraction);
    const scaled = (quarters) => ((quarters * 10n ** 152n) << BigInt(Math.max(raised, 1))) >> 152n;
    // (below a power of two the next Float is at half the distance)
    const [low, number, high] = [exact - (fraction || raised < 2 ? 2n : 1n), exact, exact + 2n].map(scaled);
    const far = (it) => (it > number ? it - number : number - it);
    for (let unit = 10n ** BigInt(`${number}`.length - 1); ; unit /= 10n) {
        const below = (number / unit) * unit, both = [below, below + unit];
        const [one, other = one] = both.filter((it) => (isOdd ? low < it && it < high : low <= it && it <= high));
        if (one !== undefined) {
            const isOther = far(one) > far(other) || far(one) === far(other) && (one / unit) % 2n;
            const digits = `${isOther ? other : one}`;
            return [digits, digits.length - 152];
        }
    }
}

// A Float by its bits, or a Double by its number: at most so many digits before the point, and so many zeros after it.
function floatText(number, bits, most, zeros) {
    const sign = number < 0 || Object.is(number, -0) ? "-" : "";
    const [text, exponent] = Math.abs(number).toExponential().split("e");
    if (!Number.isFinite(number) || number === 0) {
        return Number.isNaN(number) ? "NaN" : `${sign}${number === 0 ? "0.0" : "inf"}`;
    }
    const [all, before] = bits === null ? [text.replace(".", ""), Number(exponent) + 1] : shortest(bits & 0x7fffffff);
    const digits = all.replace(/0+$/, "");
    return sign + (before > 0 && before <= most
        ? `${digits.slice(0, before).padEnd(before, "0")}.${digits.slice(before) || 0}`
        : before <= 0 && before >= -zeros ? `0.${"0".repeat(-before)}${digits}`
            : `${digits[0]}${digits[1] ? "." : ""}${digits.slice(1)}e${before - 1}`);
}

// A value of fixed width, by the type tag, bits and scale that were read.
function numberText({ tag, low, high, scale }) {
    const view = new DataView(Uint32Array.of(low, high).buffer), bits = view.getBigUint64(0, true);
    const decimal = `${bits}`.padStart(scale + 1, "0");
    switch (tag) {
        case AMQPV.BOOLEAN: return `${low === 1}`;
        case AMQPV.FLOAT: return floatText(view.getFloat32(0, true), low, 13, 5);
        case AMQPV.DOUBLE: return floatText(view.getFloat64(0, true), null, 16, 4);
        case AMQPV.TIMESTAMP: return bits > 253402207200n ? `${bits}`
            : `${bits} (${new Date(Number(bits) * 1000).toISOString().replace(".000", "")})`;
        case AMQPV.DECIMAL: return scale ? `${decimal.slice(0, -scale)}.${decimal.slice(-scale)}` : decimal;
        default: return `${/UInt$/.test(NAMES[tag]) ? bits : BigInt.asIntN(64, bits)}`;
    }
}

// The type of a row's value and the text of its payload, of which at most so many bytes are shown.
export function valueText({ module, data, rows }, row, most = Infinity) {
    const tag = rows.tag[row], flags = rows.flags[row], from = rows.value[row], end = rows.end[row], name = NAMES[tag];
    const content = data.subarray(from + 5, end), shown = content.subarray(0, Math.min(most, content.length));
    if (flags & BARE || isContainer(tag) || tag === AMQPV.VOID || tag === AMQPV.BYTE_ARRAY && content.length === 0) {
        return name;
    } else if (tag !== AMQPV.LONG_STRING && tag !== AMQPV.BYTE_ARRAY) {
        return `${name} ${numberText(module.number(data.subarray(from, end)))}`;
    }
    const text = tag === AMQPV.LONG_STRING ? quoted(shown) : hexadecimal(shown);
    return `${name} ${text}${shown.length < content.length ? " .." : ""}`;
}

// The JSON of what was read, as amqp_show has it, or "".
export function jsonText({ module, data, code, limits: { frame, depth } }) {
    module.load(data);
    const text = code === AMQPV.OK ? module.json(frame, depth) ?? "" : "";
    return text.replace(UNPRINTABLE, (it) => (/["\\]/.test(it) ? it : digitsOf(it)));
}

export const keyText = ({ data, rows }, row) => quoted(data.subarray(rows.start[row] + 1, rows.value[row]));
const bytesText = (count) => `${count} byte${count === 1 ? "" : "s"}`;
export const indentation = (level) => "  ".repeat(Math.min(level - 1, 64));

// A row as the tree has it, in parts: the key, that it comes again, what is between it and the value, the value, and
// what isn't decoded.
export function rowParts(reading, row, most) {
    const { data, rows } = reading, flags = rows.flags[row], tag = rows.tag[row], isCut = flags & CUT;
    const rest = data.subarray(rows.value[row] + (!isCut ? 0 : isCounted(tag) ? 5 : 1), rows.end[row]);
    const shown = rest.subarray(0, 64), isDigits = isCut && tag !== AMQPV.LONG_STRING;
    const begin = () => (isDigits ? hexadecimal(shown) : quoted(shown)) + (rest.length > 64 ? ".." : "");
    const said = isCut ? ` ${begin()} (${rest.length} of ${rows.whole} bytes)`
        : flags & REST ? `${begin()} (not decoded)` : "";
    const key = rows.isPair(row) ? keyText(reading, row) : "", again = flags & AGAIN ? " (the key comes again)" : "";
    const value = tag ? valueText(reading, row, most) : "";
    return [key, again, key && value ? ": " : "", value, said];
}

export const treeLines = (reading) => Array.from({ length: reading.rows.count - 1 }, (_, it) =>
    indentation(reading.rows.level[it + 1]) + rowParts(reading, it + 1).join(""));

// The offset of a problem, and its words.
function problemText({ data, shift, limits: { frame, depth } }, problem) {
    const { kind, offset, tag, type, size } = problem, at = isTruncated(problem) ? data.length : offset;
    const key = data.subarray(offset + 1, offset + 1 + data[offset]), name = NAMES[type];
    const inside = name ? `the input ends inside the ${name}` : "a value is expected; the input ends here";
    const past = name ? `the ${name} of ${size} bytes goes past the end of its container`
        : "a value is expected; its table ends here";
    const why = {
        [AMQPV.UNKNOWN_TAG]: NAMES[tag]
            ? `RabbitMQ doesn't know the type tag ${String.fromCharCode(tag)} (${NAMES[tag]})`
            : `a type tag is expected; ${DIGITS[tag]} is none`,
        [AMQPV.MORE]: inside,
        [AMQPV.CUT]: past,
        [AMQPV.KEY_CUT]: `the key of ${bytesText(data[offset])} goes past the end of its table`,
        [AMQPV.KEY_NOT_UTF8]: `the key ${quoted(key)} isn't UTF-8`,
        [AMQPV.NOT_FINITE]: "the number is an infinity or a NaN",
        [AMQPV.TOO_DEEP]: `containers nest deeper than the limit of ${depth} levels`,
        [AMQPV.TOO_LARGE]: `the ${shift ? "table with its type tag" : "value"} has ${bytesText(size)}, `
            + `more than the limit of ${frame}`,
    }[kind];
    return [Math.max(0, at - shift), why];
}

const isBeyondLimits = ({ kind }) => kind === AMQPV.TOO_DEEP || kind === AMQPV.TOO_LARGE;

// The offset and the words of what is wrong, or null.
export const failure = (reading) => reading.failed && problemText(reading, reading.failed);

// What is read after so many bytes that were put before it.
const SHAPES = { 0: "value", 1: "table", 5: "table's body" };

// What reading resulted in.
export function outcome({ code, count, shift, failed }) {
    return code === AMQPV.OK ? `a ${SHAPES[shift]} of ${bytesText(count - shift)}`
        : isBeyondLimits(failed) ? "beyond the limits"
            : code === AMQPV.MORE ? `truncated; more bytes needed: ${count}` : "malformed";
}

// Those that were tried; and the most bytes of headers and of arguments, without the type tag, that fit their frames.
const VERSIONS = "RabbitMQ 3.10.8 and 4.0.5", HEADERS = 131058, ARGUMENTS = 131064;

// Whether RabbitMQ closes the connection, and why; nothing of truncated bytes.
export function rabbitmqText(reading) {
    const { code, rabbitmq, count, shift } = reading, size = count - 1;
    if (!rabbitmq && code === AMQPV.OK && size > HEADERS) {
        return `${VERSIONS} close the connection: without its type tag the ${SHAPES[shift]} has ${size} `
            + `bytes; a frame of the usual 131072 takes ${HEADERS} as headers without other properties, and `
            + `${ARGUMENTS} as arguments of a queue without a name`;
    } else if (!rabbitmq) {
        return code === AMQPV.MORE ? "" : `${VERSIONS} accept it`;
    }
    const [at, why] = problemText(reading, rabbitmq);
    return isBeyondLimits(rabbitmq) ? "not checked for RabbitMQ beyond the limits"
        : `${VERSIONS} close the connection: offset ${at}: ${why}`;
}

// Of the first CC or BCC of headers that is no array the row and a line, or null.
export function copies(reading) {
    const { code, rows, shift } = reading, seen = new Set(), row = rows.parent.findIndex((it, row) => {
        const key = it === 1 && row && rows.isPair(row) ? keyText(reading, row) : "", isNew = key && !seen.has(key);
        seen.add(key);
        return isNew && rows.tag[row] !== AMQPV.ARRAY && /^"B?CC"$/.test(key);
    });
    return row < 0 || code !== AMQPV.OK ? null : [row, `offset ${rows.start[row] - shift}: the key `
        + `${keyText(reading, row)} has no array; in headers RabbitMQ closes the channel (406) for it`];
}

// Of the first key that comes again in its table the row and a line, or null.
export function repeated(reading) {
    const { rows, shift } = reading, row = rows.flags.findIndex((it) => it & AGAIN);
    return row < 0 ? null : [row, `offset ${rows.start[row] - shift}: the key ${keyText(reading, row)} comes again; `
        + "readers differ in which value they take"];
}
