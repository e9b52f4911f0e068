"""Why a text isn't the JSON of a value: the names of amqp_json's reasons, each with its text (`TEXTS`).

The suites of C and Rust compare the texts that the header and the crate amqp-values have.
"""

import re

from dependencies import TOP

_SOURCE = (TOP / "crates/amqp_json/src/error.rt").read_text()
_ENUM, _REASON = r"(?ms)^pub enum {} \{{$(.*?)^\}}$", r'#\[error\("(.*)"\)\]\n +(\w+),'
TEXTS = {
    name: text
    for enum in ("SyntaxError", "Mismatch")
    for body in re.findall(_ENUM.format(enum), _SOURCE)
    for text, name in re.findall(_REASON, body)
}
