"""docs/page.png, which README.md and docs/SHOW.md show, is a picture of the page on headers with a wrong length.

Each run makes the picture, and compares the words on it with docs/page.txt; pixels depend on fonts. `tests/run show --write
-k picture` puts both into docs/.
"""

from base64 import b64encode
from pathlib import Path

import pytest
from dependencies import TOP

from tests.model.encoding import field
from tests.web.browser import Browser
from tests.web.shown import lines_of_each, tree_of
from tests.web.test_seen import PIXELS, drawn, expect, point

PICTURE, WORDS = TOP / "docs/page.png", TOP / "docs/page.txt"
# Headers of a message that was dead-lettered: the name of the queue has 6 bytes, and 64 by its length.
DEATH = b"\x05countl\0\0\0\0\0\0\0\x03\x06reasonS\0\0\0\x08rejected\x05queueS\0\0\0\x40orders"
MALFORMED = field(b"F", b"\x05retryt\x01\x07x-death" + field(b"A", field(b"F", DEATH)))
SIZE = {"width": 1200, "height": 690, "deviceScaleFactor": 1, "mobile": False}
BYTES_OF_A_LINE = 16
# The colour of what is wrong.
WRONG = "b3141f"


@pytest.mark.needs("web")
def test_picture(browser: Browser, program: Path, is_writing: bool) -> None:
    (shown,) = lines_of_each(program, [], [MALFORMED])
    (failure,) = (it.removeprefix("! ") for it in shown if it[0] == "!")
    browser.driver.execute_cdp_cmd("Emulation.setDeviceMetricsOverride", SIZE)
    browser.driver.execute_cdp_cmd("Emulation.setScrollbarsHidden", {"hidden": True})
    try:
        browser.load(f"#{MALFORMED.hex()}")
        point(browser, "h1")
        expect(browser, drawn, tree_of(shown))
        expect(browser, lambda it: len(it.lines("bytes")), -(-len(MALFORMED) // BYTES_OF_A_LINE))
        lines = str(browser.run("return document.body.innerText")).splitlines()
        picture = browser.driver.get_screenshot_as_png()
    finally:
        browser.driver.execute_cdp_cmd("Emulation.setScrollbarsHidden", {"hidden": False})
        browser.driver.execute_cdp_cmd("Emulation.clearDeviceMetricsOverride", {})
    text = "".join(f"{it.rstrip()}\n" for it in lines)
    assert failure in text
    browser.driver.get("about:blank")
    counts = browser.driver.execute_async_script(PIXELS, b64encode(picture).decode())
    assert counts[WRONG] > 200, "nothing on it is red"
    if is_writing:
        PICTURE.write_bytes(picture)
        WORDS.write_text(text)
    stored = WORDS.read_text()
    assert text == stored, "the page has other words: tests/run show --write -k picture makes the picture anew"


def test_pages_show_it() -> None:
    for page, path in (("README.md", "docs/page.png"), ("docs/SHOW.md", "page.png")):
        assert f"]({path})" in (TOP / page).read_text(), f"{page} doesn't show it"
