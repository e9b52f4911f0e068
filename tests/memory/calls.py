"""What each `Row` of crates/test_calls may answer if one of its allocations fails, for test_alloc_failures.py.

The call whose allocation fails has to return an error of FAILED or MIXED, and leave all as it was. The other calls of the request have
to return what they do anyhow: the parts of an answer, divided by "; ", and the answer given in another way, after " but ". A request
whose calls don't return the same error is judged by its words: each has to be one of its answer, or of such an error.
"""

import re
from typing import NamedTuple

from dependencies import TOP

CALLS = "test_calls"
READ = "value raw_value short_string long_string byte_array field_array field_table flags".split()
WITHIN = "value_within field_array_within field_table_within".split()
COPIES = "clone clone_held clone_flags long_string byte_array try_from from_pairs from_bytes get_bytes".split()
# The error by the first word of a request: {0} is the second word, which the call leaves unchanged. A generator into a vector
# leaves what was there. All other calls allocate nothing.
FAILED = {
    **dict.fromkeys([f"parse_{it}" for it in READ + WITHIN], "failure OutOfMemory"),
    **dict.fromkeys(("wire", "wire_as", "wire_sizes", "split_value"), "failure OutOfMemory"),
    **dict.fromkeys(("push", "insert", "place", "add_flag"), "AllocError {0}"),
    **dict.fromkeys((*COPIES, "repeated_key"), "AllocError"),
    **dict.fromkeys(("try_copy", "from_entries", "next", "to_json"), "OutOfMemory"),
    **dict.fromkeys(("to_vec", "tagged_field_table_to_vec", "field_table_to_vec"), "OutOfMemory"),
    "message": "Parser error: OutOfMemory",
}
IN_PLACE = "read_in_place read_in_place_unlimited read_table_in_place warnings warnings_in_table".split()
# The words of the errors, for requests that make calls of several kinds.
MIXED = {
    **dict.fromkeys(IN_PLACE, "AllocError"),
    **dict.fromkeys(("json", "json_bytes", "json_of_encoding", "nest"), "OutOfMemory"),
    "prefixes": "failure OutOfMemory",
}
# What else these answers have: which call it was, and what it was called with.
BESIDES = re.compile(r"\b(frame|depth) \d+ |\b(but|encoded) ")
# In which way another answer was given.
WAY = re.compile(r" (cut after \d+|by bytes|of Values)$")
# How an answer begins for which no memory is needed: nothing may be allocated. The answers of some calls don't tell.
NEEDS_NONE = re.compile(
    r"more |error (MapOpt|TooLarge)|(ok )?(-|\[\]|\{\}|Void|None|(Boolean|\w*Int|Float|Double|DecimalValue|Timestamp)"
    r"\(.*?\)|(Short|Long)String\(-\)|ByteArray\(-\)|\"\"|0)(?![^ ;])"
)
DONT_TELL = "next repeated_key to_json json json_bytes json_of_encoding nest".split()
# How many failed allocations a call gets over: the kit's `collect` asks for room for all pairs, and if it can't have that for less.
# A long table is read by it.
GETS_OVER = {"from_pairs": 1, "wire 4600004": 2}
# An encoding has at most as many values as bytes, and what a call requests for each of them is bounded; so are the blocks in which
# a reader reads.
TIMES, BLOCKS = 200, 1 << 14
# A request is made once for each of its allocations; if they are many only for some of them, evenly spread: so many that all of these
# together allocate about WORK times, but LEAST at least, a prime, to meet all allocations in a loop.
WORK, LEAST = 250_000, 17


class Row(NamedTuple):
    """A request and its answer, and where the row is."""

    place: str
    request: str
    answer: str

    def error(self) -> str:
        """What its calls answer if an allocation fails, or in which words; nothing if they don't allocate."""
        name, *words = self.request.split(" ")
        if name.startswith("gen_"):
            before, _, to = words[0].rpartition("/")
            return f"OutOfMemory {before or '-'} counted 0" if to == "vec" else ""
        is_too_long = name == "try_copy" and self.answer.startswith("error")
        if is_too_long or name not in DONT_TELL and NEEDS_NONE.match(self.answer):
            return ""
        return MIXED.get(name, "") or FAILED.get(name, "").format(*words)

    def allows(self, said: str) -> bool:
        """Whether it may be answered so if an allocation fails."""
        error = self.error()
        if self.request.split(" ")[0] in MIXED:
            words, usual = words_of(said), words_of(self.answer)
            return bool(words & {*error.split(" ")}) and words <= usual | {*error.split(" ")}
        found = [WAY.sub("", it).split("; ") for it in said.split(" but ")]
        others = [[it for it in parts if it != error] for parts in found]
        return others != found and all(it in ([], self.answer.split("; ")) for it in others)

    def most_over(self) -> int:
        """The number of failed allocations that its calls may get over."""
        return max((it for start, it in GETS_OVER.items() if self.request.startswith(start)), default=0)

    def most_asked(self) -> int:
        """The number of bytes that one of its calls may request."""
        written_out = re.findall(r"(\d+)[*@]([^+ ,)]*)", self.request)
        return TIMES * (len(self.request) + sum(int(count) * (len(part) + 4) for count, part in written_out)) + BLOCKS


def words_of(answer: str) -> set[str]:
    """The words of an answer of several calls."""
    return {it.strip("()") for it in re.split("[;,]? ", BESIDES.sub("", answer))}


def rows() -> list[Row]:
    """All rows."""
    found = []
    for path in sorted((TOP / "crates" / CALLS / "data").glob("*.calls")):
        for n, line in enumerate(path.read_text().splitlines(), 1):
            request, arrow, answer = line.partition(" => ")
            if arrow and not line.startswith("#"):
                found.append(Row(f"{path.stem}:{n}", request.strip(), answer.strip()))
    return found


def numbers(allocations: int) -> list[int]:
    """Which of so many allocations fail."""
    count = min(allocations, max(LEAST, WORK // max(allocations, 1)))
    return [1 + n * allocations // count for n in range(count)]
