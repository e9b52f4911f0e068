// Shows what was read: draws the tree and the bytes, and handles what is typed, clicked and dropped.
import { AMQPV } from "./header.js";
import { readHexadecimal } from "./hexadecimal.js";
import { Module } from "./module.js";
import { read, shapeOf } from "./reading.js";
import { readText } from "./text.js";
import { copies, failure, hexadecimal, indentation, jsonText, keyText, outcome, rabbitmqText, repeated, rowParts,
    treeLines } from "./words.js";

// The height of a line, and of the tallest element, in pixels; how many bytes of a string a row shows, how many are
// typed, and how many a link has. For more levels a call's stack might not suffice.
const HEIGHT = 22, TALLEST = 8e6, MOST_SHOWN = 300, MOST_TYPED = 65536, MOST_LINKED = 500000, MOST_LEVELS = 1000;
// What is said of bytes that are read as something else, by how many are put before them; and of those that are the
// other, by whether they are taken for a table without its type tag.
const READ_AS = { 1: "read as a table without its type tag",
    5: "read as a table's body, without its type tag and length" };
const OTHER = ["the input seems to be a table without its type tag", "the input seems to have a type tag"];
// How a capture of packets begins, and what is said of it.
const CAPTURE = /^(?:d4c3b2a1|4d3cb2a1|0a0d0d0a)$/;
const OF_CAPTURE = "a capture of packets: copy the bytes of the table in Wireshark as a hex stream, for --hex";
// What is said of a module, by how many bits its addresses have.
const ABOUT_MODULES = {
    64: "The bytes are read by WebAssembly with 64-bit addresses, which is the proved code as Rattle compiles it.",
    32: "This browser has no WebAssembly with 64-bit addresses. The bytes are read by a module with 32-bit addresses, "
        + "which binaryen makes of the proved code; that step isn't proved.",
};
const $ = (id) => document.getElementById(id);
// What is shown: bytes, how they were typed, what reads them and what was read, the rows that are closed and those that
// are seen, what is marked.
const now = { bytes: new Uint8Array(), how: "", module: null, reading: null, closed: new Set(), seen: [], row: 0,
    byte: -1, width: 16 };

function element(name, properties, ...parts) {
    const made = Object.assign(document.createElement(name), properties);
    made.append(...parts);
    return made;
}

const span = (className, ...parts) => element("span", { className }, ...parts);

// Lines of equal height, of which only those in sight are drawn. If they are too many for an element, it is less tall.
class Lines {
    constructor(box, draw) {
        Object.assign(this, { box, draw, sheet: box.firstElementChild, count: 0 });
        box.addEventListener("scroll", () => this.show());
        new ResizeObserver(() => this.show()).observe(box);
    }

    show(count = this.count) {
        const { box, sheet, draw } = this, shown = Math.min(count, Math.ceil(box.clientHeight / HEIGHT));
        this.count = count;
        sheet.style.height = `${Math.min(count * HEIGHT, TALLEST)}px`;
        this.step = (box.scrollHeight - box.clientHeight) / (count - shown);
        this.first = Math.round(box.scrollTop / this.step) || 0;
        sheet.firstElementChild.replaceChildren(...Array.from({ length: shown }, (_, it) => draw(this.first + it)));
    }

    reveal(line) {
        const last = line - Math.floor(this.box.clientHeight / HEIGHT) + 1;
        if (line < this.first || last > this.first) {
            this.box.scrollTop = this.step * (line < this.first ? line : last);
        }
        this.show();
    }
}

const tree = new Lines($("tree"), drawRow), digits = new Lines($("bytes"), drawBytes);

function drawRow(line) {
    const { reading, reading: { rows }, closed, seen } = now, row = seen[line], isOn = row === now.row;
    const { level } = rows;
    const [key, again, colon, value, rest] = rowParts(reading, row, MOST_SHOWN), [type, ...text] = value.split(" ");
    const properties = { className: isOn ? "line on" : "line", id: `row-${row}`, role: "treeitem", ariaSelected: isOn,
        ariaLevel: level[row], ariaPosInSet: rows.index[row] + 1, ariaSetSize: rows.size[rows.parent[row]],
        ariaExpanded: rows.size[row] ? !closed.has(row) : null };
    return element("div", properties, indentation(level[row]), span("twist"), span("key", key), span("again", again),
        colon, span("type", type), text.length ? ` ${text.join(" ")}` : "", span("rest", rest));
}

// Which part a byte is, by the last word. (In a container those of no other row are malformed, or come after that.)
function partOf({ rows }, at) {
    const row = rows.at(at), [name] = row ? rows.parts(row).find(([, from, to]) => from <= at && at < to) : ["entries"];
    return name === "entries" ? "after" : name.split(" ").at(-1);
}

function drawBytes(line) {
    const { reading, reading: { rows, shift }, width, bytes, row } = now, begin = line * width;
    const some = [...bytes.subarray(begin, begin + width)], [wrong] = failure(reading) ?? [];
    const drawn = some.map((byte, it) => {
        const at = begin + it, isOn = row && rows.start[row] <= at + shift && at + shift < rows.end[row];
        const marks = [isOn && "on", wrong === at && "wrong", now.byte === at && "here"];
        const className = [partOf(reading, at + shift), ...marks].filter(Boolean).join(" ");
        return element("span", { className, id: `byte-${at}` }, hexadecimal([byte]));
    });
    return element("div", { className: "line" }, span("offset", `${begin}`.padStart(`${bytes.length}`.length)),
        span("digits", ...drawn), span("text", String.fromCharCode(...some).replace(/[^ -~]/g, "·")));
}

// The way to the row that is marked, by keys and indices, what it is, and where its parts are.
function about() {
    const { reading, reading: { rows, shift }, row } = now, steps = [];
    for (let it = row; rows.parent[it]; it = rows.parent[it]) {
        const key = rows.isPair(it) ? keyText(reading, it) : rows.index[it];
        steps.unshift(/^"[a-z_]\w*"$/i.test(key) ? `.${key.slice(1, -1)}` : `[${key}]`);
    }
    const parts = rows.parts(row).filter(([, , to]) => to > shift);
    const places = parts.map(([name, from, to]) => [name, Math.max(0, from - shift), to - shift - 1]);
    const where = places.map(([name, at, last]) => `${name} at ${at}${last > at ? ` to ${last}` : ""}`).join(", ");
    return row ? `$${steps.join("")}: ${rowParts(reading, row, 1000).slice(3).join("")} — ${where}` : "";
}

const lineOf = (row) => (row ? now.seen.findLastIndex((it) => it <= row) : -1);

// Marks a row and one of its bytes, and brings both in sight, unless they were pointed at there.
function mark(row, byte, pointed) {
    if (row !== now.row || byte !== now.byte) {
        Object.assign(now, { row, byte });
        for (const [lines, line] of [[tree, lineOf(row)], [digits, Math.floor(byte / now.width)]]) {
            lines === pointed || line < 0 ? lines.show() : lines.reveal(line);
        }
        $("tree").setAttribute("aria-activedescendant", row ? `row-${row}` : "");
        $("about").textContent = about();
    }
}

const markRow = (row, pointed) => mark(row, Math.max(0, now.reading.rows.start[row] - now.reading.shift), pointed);
const markByte = (byte, pointed) => mark(now.reading.rows.at(byte + now.reading.shift), byte, pointed);

// Decides which rows are seen: none in a container that is closed.
function fold() {
    const { start, end, count } = now.reading.rows, seen = new Uint32Array(count);
    let lines = 0;
    for (let row = 1, from = 0; row < count; row++) {
        if (start[row] >= from) {
            seen[lines++] = row;
            from = now.closed.has(row) ? end[row] : from;
        }
    }
    now.seen = seen.subarray(0, lines);
    tree.show(lines);
}

function toggle(row) {
    now.closed.delete(row) || now.closed.add(row);
    fold();
}

// Reads the bytes, and shows what was read. What begins as a table without its type tag is read as one, unless it is to
// be a value, and so is a table's body; what is to be a table may have its type tag.
function show() {
    const { module } = now, form = $("form").value, isTable = form === "table";
    const limit = (id, most) => Math.max(0, Math.min(most, Math.trunc(Number($(id).value))));
    const how = { frame: limit("frame", 0xffffffff), depth: limit("depth", MOST_LEVELS) };
    Object.assign(now, { closed: new Set(), row: 0, byte: -1, width: innerWidth > 800 ? 16 : 8 });
    try {
        const seems = shapeOf(module, now.bytes, { ...how, shape: isTable ? "table" : "value" });
        const isOther = isTable ? now.bytes[0] === AMQPV.TABLE && now.bytes[1] === 0 : seems === "table";
        now.reading = read(module, now.bytes, { ...how, shape: form === "value" ? "value" : seems });
        now.bytes.length ? tell(isOther && form !== "any" ? OTHER[Number(isTable)] : "") : complain("");
    } catch (error) {
        module.renew();
        now.reading = read(module, new Uint8Array());
        complain(`the module ended, and was made anew: ${error.message}`);
    }
    $("about").textContent = "";
    fold();
    digits.show(Math.ceil(now.bytes.length / now.width));
    setTimeout(showJson, 0, now.reading);
}

// Shows the JSON of what was read, unless something else was since.
function showJson(reading) {
    if (reading === now.reading) {
        now.json = jsonText(reading);
        $("json-text").textContent = now.json.slice(0, MOST_TYPED) + (now.json.length > MOST_TYPED ? " .." : "");
        $("json-part").hidden = $("copy-JSON").hidden = reading.code !== AMQPV.OK;
    }
}

// A button that leads to a byte.
function jump(text, to) {
    const onclick = () => {
        markByte(Math.min(to, now.bytes.length - 1));
        $("bytes").focus();
    };
    return element("button", { type: "button", onclick }, text);
}

// Says why nothing was read.
function complain(why) {
    ["outcome", "notes"].forEach((id) => $(id).replaceChildren());
    $("failure").replaceChildren(why);
}

// Says what came of reading.
function tell(note) {
    const { reading, reading: { rows, shift, code, count, data, rabbitmq, isCanonical } } = now;
    const again = repeated(reading), copied = copies(reading), [at, why] = failure(reading) ?? [];
    const said = rabbitmqText(reading);
    const notes = [
        now.how,
        shift > ($("form").value === "table" ? 1 : 0) ? READ_AS[shift] : "",
        note,
        rabbitmq ? jump(said, Math.max(0, rabbitmq.offset - shift)) : said,
        copied && jump(copied[1], rows.start[copied[0]] - shift),
        again && jump(again[1], rows.start[again[0]] - shift),
        code === AMQPV.OK && count < data.length ? `more bytes follow, from offset ${count - shift}` : "",
        why ? "" : isCanonical ? "canonical" : "not canonical"];
    $("outcome").textContent = outcome(reading);
    $("failure").replaceChildren(...(why ? [jump(`offset ${at}: ${why}`, at)] : []));
    $("notes").replaceChildren(...notes.filter(Boolean).map((it) => element("li", {}, it)));
}

// Takes what is typed, which neither the example has that was chosen, nor the link that was followed or copied.
function type() {
    const { bytes = new Uint8Array(), how = "", fault } = readText($("text").value);
    $("examples").value = "";
    location.hash && history.replaceState(null, "", "#");
    Object.assign(now, { bytes, how });
    show();
    fault && complain(fault);
}

// Takes other bytes, which are typed if they aren't many.
function put(bytes, name = "a link") {
    const isMuch = bytes.length > MOST_TYPED;
    $("examples").value = "";
    $("text").value = isMuch ? "" : hexadecimal(bytes);
    $("text").setSelectionRange(0, 0);
    $("text").scrollTop = 0;
    $("text").placeholder = isMuch ? `${name}: ${bytes.length} bytes` : "";
    Object.assign(now, { bytes, how: "" });
    show();
}

function showExample() {
    const { value } = $("examples");
    $("form").value = "any";
    put(readHexadecimal(value).bytes);
    $("examples").value = value;
}

// Takes a file, of bytes or of a text that spells them. (What is encoded has a zero, or other controls, with few
// exceptions.)
async function drop(event) {
    event.preventDefault();
    const [file] = event.dataTransfer.files;
    if (file) {
        const bytes = new Uint8Array(await file.arrayBuffer());
        const text = new TextDecoder("latin1").decode(bytes), typed = readText(text);
        const isText = !/[\0-\x08\x0e-\x1f\x7f]/.test(text);
        const isCapture = CAPTURE.test(hexadecimal(bytes.subarray(0, 4)));
        const fault = isCapture ? OF_CAPTURE : isText ? typed.fault : "";
        put(typed.bytes ?? (fault ? new Uint8Array() : bytes), file.name);
        fault && complain(`${file.name}: ${fault}`);
    }
}

// A link has the bytes after `#`, and how they are read.
function follow() {
    const [, form = "any", digits = ""] = /^#(?:(value|table):)?((?:[\da-f]{2})+)$/i.exec(location.hash) ?? [];
    if (location.hash) {
        $("form").value = form;
        put(readHexadecimal(digits).bytes);
        digits || complain(`the link has no bytes in hexadecimal: ${location.hash.slice(0, 40)}`);
    }
}

function link() {
    const form = $("form").value;
    history.replaceState(null, "", `#${form === "any" ? "" : `${form}:`}${hexadecimal(now.bytes)}`);
    return location.href;
}

// What buttons copy, by their ids.
const COPIES = { link, hexadecimal: () => hexadecimal(now.bytes), tree: () => treeLines(now.reading).join("\n"),
    JSON: () => now.json };

async function copy(what) {
    if (what === "link" && now.bytes.length > MOST_LINKED) {
        $("copied").textContent = "too many bytes for a link";
    } else {
        const isDone = await navigator.clipboard?.writeText(COPIES[what]()).then(() => true, () => false);
        $("copied").textContent = isDone ? `${what} copied` : `the browser doesn't let this page copy a ${what}`;
    }
}

// Moves by a key, as the role of a tree has it, and likewise from byte to byte.
function move(event) {
    const { row, byte, seen, closed, reading: { rows } } = now, { key, currentTarget: box } = event;
    const isTree = box === tree.box, side = { ArrowLeft: -1, ArrowRight: 1 }[key];
    const [at, step, last] = isTree ? [lineOf(row), 1, seen.length - 1] : [byte, now.width, now.bytes.length - 1];
    const page = step * Math.floor(box.clientHeight / HEIGHT);
    const to = { ArrowDown: at + step, ArrowUp: at - step, PageDown: at + page, PageUp: at - page, Home: 0, End: last,
        ArrowLeft: at - 1, ArrowRight: at + 1 }[key];
    if (to === undefined || last < 0 || event.ctrlKey || event.altKey || event.metaKey) {
        return;
    }
    event.preventDefault();
    if (!isTree) {
        markByte(Math.max(0, Math.min(last, to)));
    } else if (!side) {
        markRow(seen[Math.max(0, Math.min(last, to))]);
    } else if (row && rows.size[row] && closed.has(row) === side > 0) {
        toggle(row);
    } else if (row && (side < 0 ? rows.parent[row] : rows.size[row])) {
        markRow(side < 0 ? rows.parent[row] : row + 1);
    }
}

// Marks what is pointed at, or closes or opens it.
function point({ type: kind, target }) {
    const item = target.closest("[id^=row-], [id^=byte-]"), [name, at] = item?.id.split("-") ?? [];
    if (name === "byte") {
        markByte(Number(at), digits);
    } else if (item) {
        const isTwist = kind === "click" && target.className === "twist";
        (isTwist ? toggle : markRow)(Number(at), tree);
    }
}

// The module whose addresses have so many bits, or null if the browser has no such addresses.
function compile(bits) {
    try {
        const code = Uint8Array.from(atob($(`wasm${bits}`).textContent), (it) => it.charCodeAt(0));
        return new Module(new WebAssembly.Module(code), bits);
    } catch {
        return null;
    }
}

function start() {
    now.module = compile(64) ?? compile(32);
    if (!now.module) {
        $("failure").textContent = "This browser has no WebAssembly, by which the page reads.";
        return;
    }
    $("module").textContent = ABOUT_MODULES[now.module.bits];
    $("text").addEventListener("input", type);
    ["form", "depth", "frame"].forEach((id) => $(id).addEventListener("change", show));
    $("examples").addEventListener("change", showExample);
    Object.keys(COPIES).forEach((what) => $(`copy-${what}`).addEventListener("click", () => copy(what)));
    addEventListener("hashchange", follow);
    addEventListener("dragover", (event) => event.preventDefault());
    addEventListener("drop", drop);
    for (const { box } of [tree, digits]) {
        box.addEventListener("keydown", move);
        ["pointerover", "click"].forEach((kind) => box.addEventListener(kind, point));
    }
    if (location.hash) {
        follow();
    } else {
        $("examples").selectedIndex = 1;
        showExample();
        $("text").select();
    }
}

start();
// For the console, and for tests.
globalThis.amqp = { compile, failure, hexadecimal, jsonText, now, outcome, partOf, put, rabbitmqText, read,
    readHexadecimal, readText, repeated, shapeOf, treeLines };
