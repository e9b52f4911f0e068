"""What a person sees on the page, and how it is used: pointing, keys, links, copies, dropped files, another browser."""

import html
import os
import re
import subprocess
import time
from base64 import b64encode
from collections.abc import Callable
from contextlib import suppress
from pathlib import Path

import pytest
from dependencies import TOP
from selenium.common.exceptions import MoveTargetOutOfBoundsException, StaleElementReferenceException
from selenium.webdriver.common.action_chains import ActionChains
from selenium.webdriver.common.keys import Keys

from tests.model.encoding import field
from tests.model.inputs import nested
from tests.model.tables import EVERY_TYPE, raw
from tests.transcripts import Case, cases
from tests.web.browser import PATIENCE, Browser, opened
from tests.web.shown import RABBITMQ

# The cases of tests/show that take hexadecimal from standard input. (With --max-bytes amqp_show reads no more than that.)
HEXADECIMAL = [
    it
    for it in cases(TOP / "tests/show").values()
    if "--hex" in it.words and "--max-bytes" not in it.words and all(word.startswith("--") for word in it.words)
]
FAULT = re.compile(r'amqp_show: ".*?": (line \d+, column \d+: .*|the text ends inside a byte.*|a dump .*)')
# What is between digits, and before those of a byte.
NO_DIGITS = re.compile(r"#[^\n]*|0[xX]|\\x|[ \t\r\n\f,:]")
TWISTS = str.maketrans("", "", "▸▾")
# A table with a number, an array with a string in it, and a number after that: where each pair and each part begins.
TABLE = "46 00000017 01 61 49 00000005 01 62 41 00000006 53 00000001 78 01 63 56"
ESCAPED = "".join(f"\\x{it:02x}" for it in bytes.fromhex(TABLE)[2:])
CLOSED = ["FieldTable", '  "a": LongInt 5', '  "b": FieldArray', '  "c": Void']
OPEN = [*CLOSED[:3], '    LongString "x"', *CLOSED[3:]]
# Counts the pixels of a picture by their colours.
PIXELS = """
    const [png, done] = arguments, picture = new Image(), counts = {};
    picture.onload = () => {
        const {width, height} = picture, drawing = new OffscreenCanvas(width, height).getContext("2d");
        drawing.drawImage(picture, 0, 0);
        const pixels = new DataView(drawing.getImageData(0, 0, width, height).data.buffer);
        for (let at = 0; at < pixels.byteLength; at += 4) {
            const colour = (pixels.getUint32(at) >>> 8).toString(16);
            counts[colour] = (counts[colour] ?? 0) + 1;
        }
        done(counts);
    };
    picture.src = `data:image/png;base64,${png}`;
"""


@pytest.fixture(autouse=True)
def anew(browser: Browser) -> None:
    """Loads the page, with the pointer where nothing is marked by it."""
    browser.load()
    point(browser, "h1")


def expect(browser: Browser, look: Callable[[Browser], object], wanted: object) -> None:
    """Looks until what is seen is as wanted. The page draws its lines again when their box has another size, which a busy
    machine notices late. (So a test holds no element of a line: the next drawing has another.)
    """
    end = time.monotonic() + PATIENCE
    while (seen := look(browser)) != wanted and time.monotonic() < end:
        time.sleep(0.05)
    assert seen == wanted


def drawn(browser: Browser) -> list[str]:
    """The lines of the tree that are drawn."""
    return [it.translate(TWISTS) for it in browser.lines("tree")]


def marked(browser: Browser) -> tuple[list[str], str]:
    """The rows that are marked, and the digits of the bytes that are."""
    script = """
        const texts = (query) => [...document.querySelectorAll(query)].map((it) => it.textContent);
        return [texts("#tree .line.on"), texts("#bytes [id^=byte-].on").join("")];
    """
    rows, digits = browser.run(script)
    return [it.strip().translate(TWISTS) for it in rows], digits


def marked_rows(browser: Browser) -> list[str]:
    return marked(browser)[0]


def about(browser: Browser) -> str:
    return browser.text("about")


def json_text(browser: Browser) -> str:
    return str(browser.run("return document.getElementById('json-text').textContent"))


def here(browser: Browser) -> list[str]:
    """The byte that was led to."""
    return ids(browser, "#bytes .here")


def ids(browser: Browser, query: str) -> list[str]:
    """The ids of the elements that a query finds."""
    return list(browser.run("return [...document.querySelectorAll(arguments[0])].map((it) => it.id)", query))


def point(browser: Browser, query: str) -> None:
    """Moves the pointer to an element, again if the page is drawn anew or moves it meanwhile."""

    def is_there() -> bool:
        with suppress(MoveTargetOutOfBoundsException, StaleElementReferenceException):
            found = browser.driver.find_element("css selector", query)
            ActionChains(browser.driver).move_to_element(found).perform()
        return bool(browser.run("return document.querySelector(arguments[0])?.matches(':hover') ?? false", query))

    browser.wait(is_there)


def click(browser: Browser, query: str) -> None:
    """Clicks an element, wherever it is now."""
    browser.run("document.querySelector(arguments[0]).click()", query)


def press(browser: Browser, box: str, *keys: str) -> None:
    """Presses keys in a box."""
    browser.run("document.getElementById(arguments[0]).focus()", box)
    ActionChains(browser.driver).send_keys(*keys).perform()


def test_pointing_marks_a_row_and_its_bytes(browser: Browser) -> None:
    browser.type(TABLE)
    point(browser, "#row-3")
    expect(browser, marked, (['"b": FieldArray'], "016241000000065300000001" + "78"))
    places = "key's length at 12, key at 13, type tag at 14, length at 15 to 18, entries at 19 to 24"
    expect(browser, about, f"$.b: FieldArray — {places}")
    point(browser, "#row-4")
    expect(browser, about, '$.b[0]: LongString "x" — type tag at 19, length at 20 to 23, payload at 24')
    point(browser, "#byte-9")
    expect(browser, marked, (['"a": LongInt 5'], "01614900000005"))


def test_keys_move_in_the_tree_and_in_the_bytes(browser: Browser) -> None:
    browser.type(TABLE)
    press(browser, "tree", Keys.ARROW_DOWN, Keys.ARROW_DOWN)
    expect(browser, marked_rows, ['"a": LongInt 5'])
    press(browser, "tree", Keys.END, Keys.ARROW_UP, Keys.ARROW_LEFT)
    expect(browser, marked_rows, ['"b": FieldArray'])
    press(browser, "tree", Keys.ARROW_LEFT)
    expect(browser, drawn, CLOSED)
    press(browser, "tree", Keys.ARROW_RIGHT, Keys.ARROW_RIGHT)
    expect(browser, marked, (['LongString "x"'], "530000000178"))
    press(browser, "bytes", Keys.END, Keys.ARROW_LEFT)
    expect(browser, marked, (['"c": Void'], "016356"))


def test_roles_of_a_tree(browser: Browser) -> None:
    browser.type(TABLE)
    script = """
        return [...document.querySelectorAll("#tree [role=treeitem]")].map((it) =>
            ["level", "posinset", "setsize", "expanded"].map((name) => it.getAttribute(`aria-${name}`)));
    """
    roles = [
        ["1", "1", "1", "true"], ["2", "1", "3", None], ["2", "2", "3", "true"], ["3", "1", "1", None], ["2", "3", "3", None],
    ]  # fmt: skip
    expect(browser, lambda it: it.run(script), roles)
    press(browser, "tree", Keys.HOME)
    active = "return document.getElementById(document.activeElement.getAttribute('aria-activedescendant'))?.id"
    expect(browser, lambda it: it.run(active), "row-1")


def test_what_is_wrong_is_marked(browser: Browser) -> None:
    """The failure leads to it."""
    browser.type("46 00000009 01 61 56 01 62 7a 01 63 56")
    assert browser.text("failure") == "offset 10: a type tag is expected; 7a is none"
    wrong = "return [...document.querySelectorAll('#bytes .wrong')].map((it) => [it.id, it.textContent])"
    expect(browser, lambda it: it.run(wrong), [["byte-10", "7a"]])
    click(browser, "#failure button")
    expect(browser, here, ["byte-10"])


def test_opened(browser: Browser) -> None:
    """It shows an example, which what is pasted replaces, and of an empty field nothing."""
    expect(browser, lambda it: '  "x-death": FieldArray' in drawn(it), True)
    assert browser.text("failure") == "" and browser.text("outcome").startswith("a value of")
    selected = "const it = document.getElementById('text'); return it.value.slice(it.selectionStart, it.selectionEnd)"
    assert browser.run(selected) == browser.run("return document.getElementById('examples').value")
    browser.type("")
    expect(browser, lambda it: [drawn(it), it.lines("bytes")], [[], []])
    assert [browser.text(it) for it in ("failure", "outcome", "notes", "about")] == ["", "", "", ""]
    expect(browser, lambda it: it.is_shown("json-text"), False)


@pytest.mark.parametrize(
    ("text", "how"),
    (
        ("RgAAABcBYUkAAAAFAWJBAAAABlMAAAABeAFjVg==", "read as base64: line 1, column 1 isn't hexadecimal"),
        ("RgAAABcBYUkAAAAF\r\n  AWJBAAAABlMAAAABeAFjVg==\n", "read as base64: line 1, column 1 isn't hexadecimal"),
        (repr(bytes.fromhex(TABLE)), "read as a bytes literal of Python"),
        (repr(bytearray.fromhex(TABLE)), "read as a bytes literal of Python"),
        (f"(b'F\\0'\n  B\"{ESCAPED}\")", "read as a bytes literal of Python"),
    ),
)
def test_other_texts(browser: Browser, text: str, how: str) -> None:
    """Base64 and Python's literals are read too, and a note says so."""
    browser.type(text)
    expect(browser, drawn, OPEN)
    assert browser.text("notes").splitlines()[0] == how


def test_literals(browser: Browser) -> None:
    """Each byte is read of what Python prints, in either quotes, and of what Python takes."""
    texts = [*(bytes([it]) for it in range(256)), bytes(range(256)), b"it's", b'"', b"'\"\\"]
    others = {"b'\\a\\b\\v\\f\\7\\101\\q\\\n'": b"\a\b\v\f\7A\\q", 'b"\\\'\\""': b"'\""}
    script = "return arguments[0].map((it) => amqp.hexadecimal(amqp.readText(it).bytes))"
    given, wants = [*map(repr, texts), *others], [*texts, *others.values()]
    assert browser.run(script, given) == [it.hex() for it in wants]
    for text, fault in (
        ("b'ab", "the text ends inside a bytes literal of Python"),
        ("b'a\\x4'", "line 1, column 4: this can't be in a bytes literal of Python"),
        ("b'a'\nb'\u00e9'", "line 2, column 3: this can't be in a bytes literal of Python"),
        ("b'a' + c", "line 1, column 6: this can't be in a bytes literal of Python"),
    ):
        browser.type(text)
        assert browser.text("failure") == fault


def test_hexadecimal_that_is_none(browser: Browser) -> None:
    """Nothing stays of what was read before."""
    browser.type(TABLE)
    point(browser, "#byte-9")
    browser.type("74 0g")
    assert browser.text("failure") == "line 1, column 5: a byte of two hexadecimal digits is expected"
    expect(browser, lambda it: [drawn(it), it.lines("bytes")], [[], []])
    assert [browser.text(it) for it in ("outcome", "notes", "about")] == ["", "", ""]
    expect(browser, lambda it: it.is_shown("json-text"), False)


def test_other_bytes_have_no_marks(browser: Browser) -> None:
    browser.type(TABLE)
    press(browser, "bytes", Keys.END)
    expect(browser, marked, (['"c": Void'], "016356"))
    browser.type(TABLE.replace("61", "62"))
    expect(browser, marked, ([], ""))
    assert about(browser) == ""


def test_json(browser: Browser) -> None:
    """It is that of what is shown, with keys in the order of the bytes, also if they come again."""
    browser.type("4600000007 0161 7401 0162 56")
    expect(browser, json_text, '{"a":true,"b":null}')
    browser.type("4600000009 0162 56 0161 56 0162 56")
    expect(browser, json_text, '{"b":null,"a":null,"b":null}')
    browser.type("4600000003 0161 56")
    expect(browser, json_text, '{"a":null}')
    browser.type("4600000003 0161")
    expect(browser, lambda it: it.is_shown("copy-JSON"), False)


def test_notes(browser: Browser) -> None:
    """What RabbitMQ does, keys that come again, whether the value is canonical: those about a byte lead to it."""
    browser.type("46 00000007 01 61 66 7fc00000")
    closes = f"{RABBITMQ} close the connection: offset 7: the number is an infinity or a NaN"
    assert browser.text("notes").splitlines() == [closes, "canonical"]
    click(browser, "#notes button")
    expect(browser, marked, (['"a": Float NaN'], "0161667fc00000"))
    expect(browser, here, ["byte-7"])
    browser.choose("form", "table")
    browser.type("00000007 01 61 66 7fc00000")
    click(browser, "#notes button")
    expect(browser, here, ["byte-6"])
    browser.choose("form", "any")
    browser.type("46 0000000a 01 61 74 01 01 62 56 01 61 56")
    again = 'offset 12: the key "a" comes again; readers differ in which value they take'
    assert browser.text("notes").splitlines() == [f"{RABBITMQ} accept it", again, "not canonical"]
    click(browser, "#notes button")
    expect(browser, marked, (['"a" (the key comes again): Void'], "016156"))
    browser.type("46 0000000a 01 61")
    assert browser.text("notes") == "" and browser.text("outcome") == "truncated; more bytes needed: 8"


def test_a_click_closes_and_opens(browser: Browser) -> None:
    browser.type(TABLE)
    for lines in (CLOSED, OPEN):
        point(browser, "#row-3 .twist")
        ActionChains(browser.driver).click().perform()
        expect(browser, drawn, lines)


def test_a_table_without_its_type_tag(browser: Browser) -> None:
    """Is read as one, unless it is to be a value."""
    browser.type("00000007 0161 7401 0162 56")
    expect(browser, drawn, ["FieldTable", '  "a": Boolean true', '  "b": Void'])
    browser.choose("form", "value")
    assert "the input seems to be a table without its type tag" in browser.text("notes")
    browser.choose("form", "table")
    browser.type("46 00000007 0161 7401 0162 56")
    assert "the input seems to have a type tag" in browser.text("notes")


def test_a_link_has_the_bytes(browser: Browser) -> None:
    browser.type(TABLE)
    click(browser, "#copy-link")
    link = browser.run("return location.hash")
    assert link == f"#{TABLE.replace(' ', '')}"
    browser.load(link)
    expect(browser, drawn, OPEN)
    browser.run("location.hash = '#table:00000003016156'")
    expect(browser, drawn, ["FieldTable", '  "a": Void'])
    assert browser.run("return document.getElementById('form').value") == "table"
    browser.run("location.hash = '#value:56'")
    expect(browser, drawn, ["Void"])
    browser.type("74 01")
    assert browser.run("return location.hash") == ""
    expect(browser, drawn, ["Boolean true"])
    for bad in ("#zz", "#table:0"):
        browser.run("location.hash = arguments[0]", bad)
        expect(browser, lambda it: it.text("failure"), f"the link has no bytes in hexadecimal: {bad}")
        expect(browser, drawn, [])
    browser.load("#zz")
    expect(browser, lambda it: it.text("failure"), "the link has no bytes in hexadecimal: #zz")


def test_examples(browser: Browser) -> None:
    """There are six, of which each shows something; one is cut, and one is refused."""
    values = browser.run("return [...document.querySelectorAll('#examples option')].map((it) => it.value)")[1:]
    outcomes = []
    for value in values:
        browser.choose("examples", value)
        browser.wait(lambda: len(drawn(browser)) > 2)
        outcomes.append(browser.text("outcome").partition(" ")[0])
    assert sorted(outcomes) == ["a", "a", "a", "a", "malformed", "truncated;"]
    browser.type(TABLE)
    assert browser.run("return document.getElementById('examples').value") == ""


def test_many_rows_are_drawn_as_they_are_scrolled_to(browser: Browser) -> None:
    """Of a million Voids the last one is drawn at the end, and never more rows than are in sight."""
    browser.run("const it = new Uint8Array(1 << 20).fill(0x56); it.set([0x41, 0, 0xf, 0xff, 0xfb]); amqp.put(it)")
    assert browser.text("outcome") == "a value of 1048576 bytes"
    press(browser, "tree", Keys.END)
    expect(browser, lambda it: ids(it, "#tree .line")[-1:], [f"row-{2**20 - 4}"])
    assert len(ids(browser, "#tree .line")) < 200


def test_nothing_leaves_the_page(browser: Browser) -> None:
    """A load and a use of it ask for nothing but the page itself, and the policy refuses what would."""
    browser.requests()
    browser.load(f"#{TABLE.replace(' ', '')}")
    press(browser, "tree", Keys.ARROW_DOWN)
    browser.run("document.querySelectorAll('[id^=copy-]').forEach((it) => it.click())")
    others = [it for it in browser.requests() if not it.startswith((browser.page.as_uri(), "about:blank"))]
    assert others == []
    asked = """
        globalThis.refused = [];
        document.addEventListener("securitypolicyviolation", (it) => refused.push(it.effectiveDirective));
        new Image().src = "http://127.0.0.1:9/a"; fetch("http://127.0.0.1:9/b").catch(() => 0);
        new Function;
    """
    browser.run(asked)
    expect(browser, lambda it: sorted(it.run("return refused")), ["connect-src", "img-src"])


def test_a_module_without_stack_is_made_anew(browser: Browser) -> None:
    """Reading 200,000 levels ends it. The page then makes it anew, and reads as before."""
    deep = "const n = 200000, it = new Uint8Array(5 * n), view = new DataView(it.buffer);"
    deep += "for (let at = 0; at < n; at++) { it[5 * at] = 0x41; view.setUint32(5 * at + 1, 5 * (n - at - 1)); }"
    # (as the page reads, but without its bound of 1,000 levels)
    script = f"""
        {deep}
        const {{module}} = amqp.now, calls = {{...module.calls}}, {{amqpv_proved_read}} = calls;
        calls.amqpv_proved_read = (input, ...more) => {{
            module.words[Number(input) / 4 + 5] = n + 1;
            return amqpv_proved_read(input, ...more);
        }};
        module.calls = globalThis.ended = calls;
        amqp.put(it);
    """
    browser.run(script)
    assert "made anew" in browser.text("failure") and browser.run("return amqp.now.module.calls !== ended")
    browser.type(TABLE)
    expect(browser, drawn, OPEN)
    assert browser.text("failure") == ""


def outcome(browser: Browser, text: str) -> list[str]:
    """What is said of bytes in hexadecimal: what they are, what is wrong, and the notes."""
    browser.type(text)
    return [browser.text("outcome"), browser.text("failure"), *browser.text("notes").splitlines()]


def test_what_bytes_seem_to_be(browser: Browser) -> None:
    """A table is read without its type tag, also if it is malformed or cut, as amqp_show reads it."""
    table, wrong = "read as a table without its type tag", "offset 6: a type tag is expected; 7a is none"
    assert outcome(browser, "00000003 01 61 7a") == [
        "malformed",
        wrong,
        table,
        f"{RABBITMQ} close the connection: {wrong}",
    ]
    truncated = ["truncated; more bytes needed: 3", "offset 8: the input ends inside the FieldTable", table]
    assert outcome(browser, "00000007 01 61 56 01") == truncated
    expect(browser, drawn, ["FieldTable", '  "a": Void', '  "\\u0001" (not decoded)'])
    notes = [table, f"{RABBITMQ} accept it"]
    key = 'offset 4: the key "\\xff" isn\'t UTF-8'
    assert outcome(browser, "00000003 01 ff 56") == ["malformed", key, *notes]
    body = ["read as a table's body, without its type tag and length", f"{RABBITMQ} accept it", "canonical"]
    assert outcome(browser, "01 61 56 01 62 56") == ["a table's body of 6 bytes", "", *body]
    expect(browser, drawn, ["FieldTable", '  "a": Void', '  "b": Void'])
    browser.choose("form", "table")
    assert outcome(browser, "03 61 62 63 56") == ["a table's body of 5 bytes", "", *body]
    browser.choose("form", "value")
    assert outcome(browser, "00000003 01 61 56")[:2] == ["malformed", "offset 0: a type tag is expected; 00 is none"]
    assert "seems to be a table" in browser.text("notes")


def test_what_rabbitmq_makes_of_headers(browser: Browser) -> None:
    """It closes the connection for large ones, and the channel if CC or BCC isn't an array."""
    closes = f"{RABBITMQ} close the connection: without its type tag the value has 131059 bytes; "
    for size, starts in ((131058, f"{RABBITMQ} accept it"), (131059, closes)):
        pair = b"\1kx" + (size - 11).to_bytes(4, "big") + bytes(size - 11)
        browser.run("amqp.put(Uint8Array.from(arguments[0]))", [*field(b"F", pair)])
        assert browser.text("outcome") == f"a value of {size + 1} bytes"
        assert browser.text("notes").startswith(starts), size
    tells = 'the key "CC" has no array; in headers RabbitMQ closes the channel (406) for it'
    assert f"offset 5: {tells}" in outcome(browser, field(b"F", b"\2CC" + field(b"S", b"a")).hex())
    assert f"offset 4: {tells}" in outcome(browser, field(b"F", b"\2CCV\2CCA\0\0\0\0")[1:].hex())
    for fine in (b"\2CCA\0\0\0\0\2CCV", b"\1aF\0\0\0\4\2CCV", b"\2CcV"):
        assert "406" not in " ".join(outcome(browser, field(b"F", fine).hex()))


def drop(browser: Browser, data: bytes) -> None:
    """Drops a file."""
    script = """
        const data = new DataTransfer();
        data.items.add(new File([Uint8Array.from(arguments[0])], "a.bin"));
        dispatchEvent(new DragEvent("drop", {dataTransfer: data, cancelable: true}));
    """
    browser.run(script, [*data])


def test_a_dropped_file(browser: Browser) -> None:
    """Is read as bytes, or if it is a text as that."""
    for given in (bytes.fromhex(TABLE), f"# a table, größer\n{TABLE}".encode(), repr(bytes.fromhex(TABLE)).encode()):
        browser.load()
        drop(browser, given)
        expect(browser, drawn, OPEN)
        assert browser.run("return document.getElementById('text').value") == TABLE.replace(" ", "")
    browser.load()
    drop(browser, bytes([0x41, 0, 1, 0xFF, 0xFB] + [0x56] * 0x1FFFB))
    expect(browser, lambda it: it.text("outcome"), "a value of 131072 bytes")
    assert browser.run("return document.getElementById('text').placeholder") == "a.bin: 131072 bytes"


def test_a_dropped_text_that_is_something_else(browser: Browser) -> None:
    """Has the hint of amqp_show, and nothing is said of RabbitMQ."""
    texts = {it.given: FAULT.search(it.wants.error.decode()) for it in HEXADECIMAL}
    hints = {text: found[1] for text, found in texts.items() if found}
    capture = "a capture of packets: copy the bytes of the table in Wireshark as a hex stream, for --hex"
    hints[bytes.fromhex("d4c3b2a102000400")] = capture
    hints[b'{"a": 1}'] = "the input seems to be JSON; amqp_show --encode reads it"
    assert len([it for it in hints.values() if it.startswith("a dump of")]) >= 5
    for text, hint in hints.items():
        drop(browser, text)
        expect(browser, lambda it: it.text("failure"), f"a.bin: {hint}")
        assert browser.text("notes") == "" and drawn(browser) == []


def copied(browser: Browser, *names: str) -> list[str]:
    """What buttons copy."""
    script = """
        const said = [];
        navigator.clipboard.writeText = async (it) => { said.push(it) };
        arguments[0].forEach((it) => document.getElementById(`copy-${it}`).click());
        return said;
    """
    return list(browser.run(script, names))


def test_copies(browser: Browser) -> None:
    """The buttons copy the bytes as hexadecimal, the tree as amqp_show prints it, and a link."""
    browser.type("00000003016156")
    browser.choose("form", "table")
    expect(browser, json_text, '{"a":null}')
    digits, tree, json, link = copied(browser, "hexadecimal", "tree", "JSON", "link")
    assert (digits, tree, json) == ("00000003016156", 'FieldTable\n  "a": Void', '{"a":null}')
    assert link.endswith("#table:00000003016156")


def test_copy_of_long_json(browser: Browser) -> None:
    """Of long JSON a part is shown, but all of it is copied."""
    browser.run("amqp.put(Uint8Array.from([0x53, 0, 1, 0, 0, ...Array(65536).fill(0x61)]))")
    expect(browser, json_text, f'"{65535 * "a"} ..')
    assert copied(browser, "JSON") == [f'"{65536 * "a"}"']


def test_modules_are_plain() -> None:
    """All together have at most 950 lines, of at most 120 columns."""
    lines = [it for path in (TOP / "bindings/web").glob("*.js") for it in path.read_text().splitlines()]
    assert len(lines) <= 950 and max(map(len, lines)) <= 120


def test_limits(browser: Browser) -> None:
    """At most 1,000 levels are read, whatever is asked for, and no number is below 0."""
    browser.choose("depth", 5000)
    browser.type(nested("A", 1000, b"").hex())
    assert browser.text("outcome").startswith("a value of")
    browser.type(nested("A", 1001, b"").hex())
    assert "nest deeper" in browser.text("failure")
    browser.choose("depth", -1)
    browser.type("4100000000")
    assert browser.text("failure") == "offset 0: containers nest deeper than the limit of 0 levels"
    browser.choose("frame", -1)
    assert browser.text("failure") == "offset 0: the value has 5 bytes, more than the limit of 0"
    for frame, failure in ((5, "the value has 6 bytes, more than the limit of 5"), (6, "")):
        browser.choose("frame", frame)
        browser.choose("depth", 1)
        browser.type("4100000001 56")
        assert browser.text("failure").partition(": ")[2] == failure


@pytest.mark.parametrize("width", (360, 1600))
def test_widths(browser: Browser, width: int) -> None:
    """Only the panes scroll sideways, not the page."""
    size = {"width": width, "height": 900, "deviceScaleFactor": 1, "mobile": False}
    browser.driver.execute_cdp_cmd("Emulation.setDeviceMetricsOverride", size)
    try:
        browser.load(f"#{raw(EVERY_TYPE).hex()}")
        browser.wait(lambda: len(drawn(browser)) > 5)
        script = "return innerWidth === arguments[0] && document.documentElement.scrollWidth <= innerWidth"
        expect(browser, lambda it: it.run(script, width), True)
    finally:
        browser.driver.execute_cdp_cmd("Emulation.clearDeviceMetricsOverride", {})


def test_a_browser_without_64_bit_addresses(page: Path, tmp_path: Path) -> None:
    """It reads by the second module, and a note says so. (Here the first one is no module.)"""
    with opened(page) as browser:
        browser.type(TABLE)
        expect(browser, drawn, OPEN)
        assert "64-bit" in browser.text("module") and "isn't proved" not in browser.text("module")
    text = page.read_text()
    begin = text.index('id="wasm64">') + len('id="wasm64">')
    other = tmp_path / "other.html"
    other.write_text(f"{text[:begin]}AAAA{text[text.index('<', begin) :]}")
    with opened(other) as browser:
        browser.type(TABLE)
        expect(browser, drawn, OPEN)
        assert "32-bit" in browser.text("module") and "isn't proved" in browser.text("module")


def test_firefox_shows_it(browser: Browser, page: Path, tmp_path: Path) -> None:
    """Its picture has what is drawn of tags, and of what is wrong, in the colours of these."""
    picture, profile = tmp_path / "page.png", tmp_path / "profile"
    profile.mkdir()
    words = ["firefox-esr", "--headless", "--no-remote", "--profile", str(profile), "--window-size=1000,640"]
    words += ["--screenshot", str(picture), f"{page.as_uri()}#4600000003016149"]
    environment = {**os.environ, "HOME": str(tmp_path), "MOZ_CRASHREPORTER_DISABLE": "1"}
    subprocess.run(words, env=environment, capture_output=True, timeout=300, check=True)
    browser.driver.get("about:blank")
    counts = browser.driver.execute_async_script(PIXELS, b64encode(picture.read_bytes()).decode())
    assert counts["8250df"] > 50 and counts["b3141f"] > 200, counts


@pytest.mark.parametrize("case", HEXADECIMAL, ids=[it.name for it in HEXADECIMAL])
def test_hexadecimal(browser: Browser, case: Case) -> None:
    """Of each case of tests/show that reads hexadecimal the bytes, or the same words at the same place."""
    text, fault = case.given.decode(), FAULT.search(case.wants.error.decode())
    script = "const {bytes, fault} = amqp.readHexadecimal(arguments[0]); return fault ?? amqp.hexadecimal(bytes)"
    assert browser.run(script, text) == (fault[1] if fault else NO_DIGITS.sub("", text).lower())


@pytest.mark.parametrize("name", ("LICENSE", "THIRD-PARTY"))
def test_notices_in_page(page: Path, name: str) -> None:
    assert html.escape((TOP / name).read_text()) in page.read_text()
