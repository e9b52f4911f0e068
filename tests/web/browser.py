"""`Browser`: Chromium with the page in it, as a person has it, by Debian's driver; the tests in tests/web use it."""

import json
from collections.abc import Callable, Iterator, Sequence
from contextlib import contextmanager
from pathlib import Path
from typing import Any

from selenium import webdriver
from selenium.webdriver.chrome.service import Service
from selenium.webdriver.support.ui import WebDriverWait

DRIVER, CHROMIUM = "/usr/bin/chromedriver", "/usr/bin/chromium"
# How many seconds a busy machine may take.
PATIENCE = 60
# Reads inputs in the page, as it does itself: of each the lines of the tree, the first letter of the part that each byte is of,
# unless there are many, the line of the first repeated key, the failure, the outcome, what RabbitMQ does and, of a value, whether it is
# canonical, and its JSON.
READ = """
const [inputs, how, bits] = arguments, {amqp} = globalThis;
const module = (amqp.modules ??= {})[bits] ??= amqp.compile(bits);
return inputs.map((digits) => {
    const bytes = Uint8Array.from(digits.match(/../g) ?? [], (it) => parseInt(it, 16));
    const shape = amqp.shapeOf(module, bytes, {...how, shape: how.isTable ? "table" : "value"});
    const reading = amqp.read(module, bytes, {...how, shape}), failed = amqp.failure(reading);
    return {
        tree: amqp.treeLines(reading),
        parts: bytes.length > 5000 ? "" : Array.from(reading.data, (_, at) =>
            amqp.partOf(reading, at)[0]).join("").slice(reading.shift),
        repeated: amqp.repeated(reading) ? `* ${amqp.repeated(reading)[1]}` : "",
        failure: failed ? `! offset ${failed[0]}: ${failed[1]}` : "",
        outcome: `= ${amqp.outcome(reading)}`,
        rabbitmq: amqp.rabbitmqText(reading),
        canonical: failed ? null : reading.isCanonical,
        json: failed ? null : amqp.jsonText(reading),
    };
});
"""


class Browser:
    """A browser with the page."""

    def __init__(self, driver: Any, page: Path) -> None:
        self.driver, self.page = driver, page

    def load(self, after: str = "") -> None:
        self.driver.get("about:blank")
        self.driver.get(f"{self.page.as_uri()}{after}")

    def run(self, script: str, *given: object) -> Any:
        return self.driver.execute_script(script, *given)

    def read(self, inputs: Sequence[bytes], bits: int, **how: object) -> list[dict[str, Any]]:
        """What the page reads of inputs."""
        return list(self.run(READ, [it.hex() for it in inputs], how, bits))

    def type(self, text: str) -> None:
        """Types a text in place of what is there."""
        script = (
            "const it = document.getElementById('text'); it.value = arguments[0]; it.dispatchEvent(new Event('input'));"
        )
        self.run(script, text)

    def choose(self, name: str, value: object) -> None:
        script = "const it = document.getElementById(arguments[0]); it.value = arguments[1]; it.dispatchEvent(new Event('change'));"
        self.run(script, name, str(value))

    def text(self, name: str) -> str:
        """What an element says that is seen."""
        return str(
            self.run("const it = document.getElementById(arguments[0]); return it.hidden ? '' : it.innerText", name)
        )

    def lines(self, name: str) -> list[str]:
        """The lines that are drawn in a box."""
        script = "return [...document.querySelectorAll(`#${arguments[0]} .line`)].map((it) => it.textContent)"
        return list(self.run(script, name))

    def is_shown(self, name: str) -> bool:
        return bool(self.run("return document.getElementById(arguments[0]).checkVisibility()", name))

    def wait(self, is_so: Callable[[], bool]) -> None:
        """Waits until something is so."""
        WebDriverWait(self.driver, PATIENCE, poll_frequency=0.05).until(lambda _: is_so())

    def requests(self) -> list[str]:
        """What was asked of a network, a file or anything else since this was asked last."""
        entries = [json.loads(it["message"])["message"] for it in self.driver.get_log("performance")]
        return [it["params"]["request"]["url"] for it in entries if it["method"] == "Network.requestWillBeSent"]


@contextmanager
def opened(page: Path) -> Iterator[Browser]:
    """A browser with the page, in a window that shows many lines."""
    options = webdriver.ChromeOptions()
    options.binary_location = CHROMIUM
    for word in ("--headless=new", "--no-sandbox", "--disable-dev-shm-usage", "--window-size=1200,2400"):
        options.add_argument(word)
    options.set_capability("goog:loggingPrefs", {"performance": "ALL", "browser": "ALL"})
    driver = webdriver.Chrome(service=Service(DRIVER), options=options)
    try:
        browser = Browser(driver, page)
        browser.load()
        yield browser
    finally:
        driver.quit()
