// `read` has a `Module` read some bytes, and returns them as `Rows`, also if they are malformed or cut.
import { AMQPV } from "./header.js";

// Of a row: it isn't decoded; only its type tag is, or its key; its table has the key already; its payload is cut.
export const REST = 1, BARE = 2, AGAIN = 4, CUT = 8;
// Whether the input ends inside the value.
export const isTruncated = ({ kind }) => kind === AMQPV.MORE;
// Whether entries are the payload, and whether a length is before it.
export const isContainer = (tag) => tag === AMQPV.ARRAY || tag === AMQPV.TABLE;
export const isCounted = (tag) => isContainer(tag) || tag === AMQPV.LONG_STRING || tag === AMQPV.BYTE_ARRAY;

// Rows by columns. A row is a value, in a table with its key, or such a key, whose type tag is 0, or what isn't read.
// Row 0 stands for all. A payload that is cut has `whole` bytes.
class Rows {
    constructor(length) {
        for (const name of ["start", "value", "end", "parent", "level", "index", "size", "tag", "flags"]) {
            this[name] = new Uint32Array(length + 3);
        }
        [this.count, this.end[0], this.tag[0]] = [1, length, AMQPV.ARRAY];
    }

    add(parent, start, value, end, tag, flags) {
        const row = this.count++;
        [this.start[row], this.value[row], this.end[row], this.parent[row]] = [start, value, end, parent];
        [this.level[row], this.index[row]] = [this.level[parent] + 1, this.size[parent]++];
        [this.tag[row], this.flags[row]] = [tag, flags];
        return row;
    }

    isPair(row) { return this.tag[this.parent[row]] === AMQPV.TABLE && !(this.flags[row] & REST); }

    // The row that a byte is of, or 0.
    at(offset) {
        let low = 0, high = this.count;
        while (low + 1 < high) {
            const middle = (low + high) >> 1;
            [low, high] = this.start[middle] <= offset ? [middle, high] : [low, middle];
        }
        return offset < this.end[low] ? low : 0;
    }

    // The parts of a row: what each is, where it begins, and where it ends.
    parts(row) {
        const [start, value, end, tag] = [this.start, this.value, this.end, this.tag].map((column) => column[row]);
        const content = isCounted(tag) ? value + 5 : value + 1;
        if (this.flags[row] & REST) {
            return [["rest", value, end]];
        }
        const payload = isContainer(tag) ? "entries" : this.flags[row] & CUT ? "rest" : "payload";
        const parts = [["key's length", start, Math.min(start + 1, value)], ["key", start + 1, value],
            ["type tag", value, value + 1], ["length", value + 1, content], [payload, content, end]];
        return parts.filter(([, from, to]) => from < Math.min(to, end));
    }
}

// Returns the rows of the value at the start of some data, as far as they are read, and then one of what isn't.
function walk(module, data, depth) {
    const rows = new Rows(data.length), { words, bytes } = module, entry = module.base / 4, tagAt = module.base + 56;
    const rest = (parent, start, end) => start < end && rows.add(parent, start, start, end, 0, REST);
    let parent = 0;
    module.enter(0, AMQPV.ARRAY, 0, data.length);
    while (parent || rows.count === 1) {
        const end = rows.end[parent], level = rows.level[parent], all = rows.count > 1 ? rows.end[1] : data.length;
        const start = module.begins(level), code = module.next(level);
        if (code === AMQPV.NONE && !parent) {
            break;
        } else if (code === AMQPV.NONE) {
            parent = rows.parent[parent];
            continue;
        }
        const isWhole = code === AMQPV.OK, isPair = rows.tag[parent] === AMQPV.TABLE;
        const value = isWhole ? words[entry + 4] : isPair ? start + 1 + data[start] : start;
        if (value > end) {
            rest(parent, start, all);
            break;
        }
        const tag = isWhole ? bytes[tagAt] : value < end ? module.number([data[value]])?.tag : 0;
        const stop = isWhole ? value + words[entry + 6] : end, hasLength = end - value >= 5;
        if (!tag || isContainer(tag) && level >= depth) {
            isPair && rows.add(parent, start, value, value, 0, BARE);
            rest(parent, value, rows.count > 1 ? all : tag ? stop : 1);
            break;
        } else if (isWhole || isContainer(tag) && hasLength) {
            const row = rows.add(parent, start, value, stop, tag, 0);
            // (of a container that is cut nothing follows in the one that it is in)
            isWhole || module.enter(level, rows.tag[parent], stop, end);
            if (isContainer(tag)) {
                module.enter(level + 1, tag, value + 5, stop);
                parent = row;
            }
        } else {
            const content = isCounted(tag) && hasLength ? value + 5 : value + 1, last = rows.count > 1 ? all : end;
            rows.whole = isCounted(tag) && !hasLength ? 0 : value + extent(module, data, value) - content;
            const isCut = content < last && last - content < rows.whole;
            rows.add(parent, start, value, isCut ? last : content, tag, isCut ? BARE | CUT : BARE);
            isCut || rest(parent, content, last);
            break;
        }
    }
    return rows;
}

// How many bytes the value at an offset has, by its header: at least so many if that is cut.
function extent(module, data, at) {
    const found = module.number([data[at]]), length = data.subarray(at + 1, at + 5);
    return !isCounted(found.tag) || length.length < 4 ? found.size
        : 5 + module.number([AMQPV.LONG_UINT, ...length]).low;
}

// Marks the pairs whose key an earlier pair of the same table has.
function markRepeated({ data, rows }) {
    const { start, value, parent } = rows, pairs = [];
    for (let row = 1; row < rows.count; row++) {
        rows.isPair(row) && pairs.push(row);
    }
    // the slot of each key, of a million, and whether one key has it, or more: only these are compared
    const slotOf = pairs.map((row) => {
        let hash = parent[row];
        for (let at = start[row] + 1; at < value[row]; at++) {
            hash = Math.imul(hash ^ data[at], 0x01000193);
        }
        return (hash ^ (hash >>> 12)) & 0xfffff;
    });
    const slots = new Uint8Array(1 << 20), seen = new Set();
    slotOf.forEach((slot) => (slots[slot] = slots[slot] ? 2 : 1));
    for (const row of pairs.filter((_, it) => slots[slotOf[it]] > 1)) {
        const key = `${parent[row]} ${String.fromCharCode(...data.subarray(start[row] + 1, value[row]))}`;
        rows.flags[row] |= seen.has(key) ? AGAIN : 0;
        seen.add(key);
    }
}

// Bytes after the type tag of a table, and after its length too if they are its body.
function completed(bytes, shape) {
    const length = bytes.length, tagged = [AMQPV.TABLE, length >>> 24, length >>> 16, length >>> 8, length];
    const shift = { value: 0, table: 1, body: 5 }[shape], data = new Uint8Array(length + shift);
    data.set(tagged.slice(0, shift));
    data.set(bytes, shift);
    return data;
}

// What bytes seem to be that are to be a value or a table: that, a table without its type tag (one of the length that
// there is, or one whose first value has a type tag, as far as it is there), or its body, as amqp_show decides it.
export function shapeOf(module, bytes, { shape = "value", frame = AMQPV.MAX_BYTES, depth = AMQPV.MAX_DEPTH } = {}) {
    const [first, , , , count = 0] = bytes, value = bytes.subarray(5 + count), rest = bytes.length - 4;
    const size = rest < 0 ? 0 : new DataView(bytes.buffer, bytes.byteOffset).getUint32(0), isTag = (it) => {
        module.load(new Uint8Array());
        return it !== undefined && Boolean(module.number([it]));
    };
    if (shape === "table" ? rest < 0 || size + 5 <= frame : first === undefined || isTag(first)) {
        return shape;
    } else if (shape === "value" && first === 0 && rest >= 0
        && (size === rest || size > rest && !value.length || size > 0 && isTag(value[0]))) {
        return "table";
    } else if (bytes.length + 5 > frame) {
        return shape;
    }
    const data = completed(bytes, "body");
    module.load(data);
    return module.read(frame, depth).code === AMQPV.OK ? "body" : shape;
}

// Reads the value at the start of some bytes, or the table without its type tag or its length, within limits. Offsets
// count from `data`, which has these, `shift` bytes before the others.
export function read(module, bytes, { shape = "value", frame = AMQPV.MAX_BYTES, depth = AMQPV.MAX_DEPTH } = {}) {
    const data = completed(bytes, shape), shift = data.length - bytes.length;
    module.load(data);
    const { code, count, problem: failed } = module.read(frame, depth), isOk = code === AMQPV.OK;
    const rabbitmq = code === AMQPV.MORE ? null : module.read(frame, depth, AMQPV.RABBITMQ).problem;
    const rows = code === AMQPV.TOO_LARGE ? new Rows(0) : walk(module, data, depth);
    for (const problem of [failed, rabbitmq].filter(Boolean)) {
        const { kind, offset } = problem, isCut = isTruncated(problem);
        let row = isCut ? rows.count - (rows.flags[rows.count - 1] & REST ? 2 : 1) : rows.at(offset);
        // (the input ends inside the innermost value that isn't whole)
        const ends = () => rows.tag[row] && rows.value[row] + extent(module, data, rows.value[row]) > data.length;
        for (; isCut && row && !ends(); row = rows.parent[row]);
        const isRead = row && (isCut || rows.value[row] === offset) && rows.tag[row];
        // (a header that its container cuts isn't read on after that)
        const there = data.subarray(0, isRead ? rows.end[rows.parent[row]] : data.length);
        problem.size = kind === AMQPV.CUT && isRead || kind === AMQPV.TOO_LARGE
            ? extent(module, there, offset) : 0;
        problem.type = isRead ? rows.tag[row] : 0;
    }
    const isCanonical = isOk && module.isCanonical(frame, depth), limits = { frame, depth };
    const reading = { module, data, shift, limits, code, count, rows, failed, rabbitmq, isCanonical };
    isCanonical || markRepeated(reading);
    return reading;
}
