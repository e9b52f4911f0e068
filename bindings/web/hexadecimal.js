// `readHexadecimal`: the bytes that a text in hexadecimal spells, in the forms that amqp_show --hex takes.

// What may be between bytes; bytes; and how much of one may come before a digit that is missing.
const BETWEEN = /(?:[ \n\t\f\r,:]|#[^\n]*)*/y, BYTES = /(?:0[xX]|\\x)?(?:[\da-fA-F]{2})+/y;
const BEGUN = /(?:0[xX]|\\x)[\da-fA-F]?|\\|[\da-fA-F]?/y;
// Offsets of a dump would be taken for bytes.
const HEXDUMP = "a dump of hexdump -C: `cut -c 11-58 FILE | amqp_show --hex` reads it";
const SQUEEZED = "a dump in which * stands for lines that are left out: dump it again with -v";
const DUMPS = [
    [/^00000000: [01]{8}[^]/, "a dump of xxd -b, in binary: `xxd FILE` makes one that `xxd -r` reads, "
        + "and `xxd -p FILE` one that --hex reads"],
    [/^00000000: /, "a dump of xxd: `xxd -r FILE | amqp_show` reads it"],
    [/^(?:[^\n]*\n)?\t0x0000: {2}/, "a dump of tcpdump: `grep '^.0x' FILE | cut -c 11-49 | amqp_show --hex` "
        + "reads its bytes, of which a packet's headers are the first"],
    [/^0000 {3}/, "a dump of Wireshark: copy the bytes of the table as a hex stream, which --hex reads"],
    [/^00000000 {2}/, HEXDUMP],
    [/^(?:[^\n]*\n){0,2}0000 {2}/, "a dump of tshark: `cut -c 7-53 FILE | amqp_show --hex` reads its bytes, of which "
        + "a packet's headers are the first"],
];
const OD = "a dump of od: `cut -sd ' ' -f 2- FILE | amqp_show --hex` reads it";
const WORDS = "a dump of two-byte words, whose bytes od and hexdump swap: `od -An -v -tx1 FILE` makes one that --hex "
    + "reads";

// What a text is that begins with zeros, and whose second line begins with the number of bytes after them.
function withOffsets(text) {
    const [, zeros, words, next] = /^(0{4,})( [^\n]*)\n([^\n]*)/.exec(text) ?? [];
    const count = Math.floor((words ?? "").replace(/[^\da-f]/gi, "").length / 2), end = next?.slice(0, zeros.length);
    const isNext = count && end.length === zeros.length
        && [[16, /^[\da-f]+$/i], [10, /^\d+$/], [8, /^[0-7]+$/]].some(([base, form]) =>
            form.test(end) && parseInt(end, base) === count);
    return isNext ? words.split(" ").some((it) => it.length > 2) ? WORDS : OD : null;
}

// Returns the bytes, or why there are none.
export function readHexadecimal(text) {
    const dump = DUMPS.find(([begins]) => begins.test(text)), bytes = new Uint8Array(text.length >> 1);
    const fault = dump?.[1] ?? withOffsets(text);
    if (fault) {
        return { fault: (fault === HEXDUMP || fault === OD) && /^\*$/m.test(text) ? SQUEEZED : fault };
    }
    let at = 0, count = 0;
    const take = (pattern) => {
        pattern.lastIndex = at;
        const found = pattern.exec(text)?.[0] ?? "";
        at += found.length;
        return found;
    };
    for (;;) {
        take(BETWEEN);
        const found = take(BYTES);
        for (let it = /^.x/i.test(found) ? 2 : 0; it < found.length; it += 2) {
            bytes[count++] = parseInt(found.slice(it, it + 2), 16);
        }
        if (!found && at === text.length) {
            return { bytes: bytes.slice(0, count) };
        } else if (!found) {
            take(BEGUN);
            return { fault: at === text.length ? "the text ends inside a byte of two hexadecimal digits"
                : `${place(text.slice(0, at))}: a byte of two hexadecimal digits is expected` };
        }
    }
}

// The line and the column, in bytes, of what comes after a text.
export function place(before) {
    const lines = before.split("\n");
    return `line ${lines.length}, column ${new TextEncoder().encode(lines.at(-1)).length + 1}`;
}
