"""`faults`, for tests/pages.py: code that makes up OutOfMemory although no allocation failed, or may request too much.

No clause can state that an allocation failed. A body that returns OutOfMemory above a size keeps its contract, so its
form is what is rejected: OutOfMemory, of whatever error, and AllocError are made by From<AllocError>, which `?` calls,
or on the right of a match arm with no guard, each alternative of whose pattern names such an error. Failure and
out_of_memory() are what parsers call it. A request that can't succeed makes it up too: whatever asks for memory by a
number is a line of BY_NUMBER, whether it is called there or only named.

Nor can a clause state with which error a reader or a writer of std failed: the bodies that call one for a trait of ours are PASSED_ON.
"""

import re
from collections.abc import Iterator

from dependencies import TOP

# How the crates begin that are tests, or programs that provoke such errors.
LEFT_OUT = ("test_",)
# The lines that are otherwise, each once in its file.
LISTED = {
    # the value was read from bytes, so it has an encoding, and only memory for that or for the text can be short
    ("amqp_json/src/printing.rt", "Err(_) => Err(DecodeError::OutOfMemory),"),
    # a vector is too short for what is written only for want of memory
    ("amqp_json/src/printing.rt", "Err(_) => Err(EncodeError::OutOfMemory),"),
    # the bytes are the encoding of a value, so reading them fails only for want of memory
    ("amqp_json/src/reading.rt", "Err(_) => Err(JsonError::OutOfMemory),"),
    # this call fails only for want of memory: its error is an AllocError
    ("amqp_c_alloc/src/canonical.rt", "return Err(Fault::NoMemory);"),
}
# The lines that ask for memory by a number, and what bounds that.
BY_NUMBER = {
    "self.make_room(a.len() + b.len())?;": "the bytes that are written next",
    "x.make_room(all.len().div_ceil(8))?;": "the same",
    "let at = x.reserve(4)?;": "a length field",
    "self.output.make_room(n)": "what the caller asks for",
    "self.output.reserve(n)": "the same",
    "Ok(self.try_reserve(n)?)": "the same",
    "self.try_reserve(n)?;": "the same",
    "self.resize(at + n, 0)?;": "the same",
    "let mut bytes = Vec::with_capacity(alloc, chunk.len())?;": "bytes that are there",
    "let mut out = Vec::with_capacity(alloc, text.len())?;": "a text that is there",
    "let mut text = vec![in alloc; 0u8; end.count]?;": "a text that was measured",
    "bytes.reserve(input.input_len())?;": "bytes that are there",
    "let mut bytes = vec![in alloc; 0; capacity]?;": "the bytes that a value was read from",
    "block: vec![in rt.alloc(); 0; BLOCK]?,": "a constant",
    "let space = make_room(&mut self.buffer, self.count, most)?;": "as much again as there is",
    "buffer.reserve_exact(most.min(buffer.len()).max(BLOCK))?;": "the same",
    "buffer.resize(count + more, 0)?;": "capacity that there is",
}
REQUEST = r"""\b(?:with_capacity\w*|(?:try_)?reserve\w*|make_room|resize\w*|repeat|from_elem|repeat_n|new_uninit\w*|allocate\w*|concat|extend_from_within)
    \s*\(|::(?:with_capacity\w*|(?:try_)?reserve\w*|resize\w*|repeat_n|new_uninit\w*|allocate\w*)\b|\bvec!\s*\[[^;\]]*;[^;\]]*;"""
# The bodies that pass a call on, by their heads.
PASSED_ON = {
    "amq_protocol_types/src/stream/source.rt": "fn read_some(&mut self, buf: &mut [u8]) -> io::Result<usize> { self.read(buf) } }",
    "amqp_wire/src/sink.rt": "fn write_some(&mut self, buf: &[u8]) -> io::Result<usize> { self.write(buf) } }",
}
SILENT = r"""//[^\n]*|/\*.*?\*/|\bb?r(#*)".*?"\1|"(?:\\.|[^"\\])*"|'(?:\\.[^']*|[^'\\])'"""
MADE = r"\bAlloc(?:Error|Failed)\b(?!\s*[<>])|\b(?:OutOf|No)Memory\b|\bFailure\s*\(|\bout_of_memory\s*\("
NAMED = r"\bAllocError\b|::\s*(?:OutOf|No)Memory\b|::\s*Failure\s*\("
RENAMED = r"\b(?:AllocError|AllocFailed|OutOfMemory|NoMemory|out_of_memory)\s+as\b"
IMPORTED = r"\buse std::alloc::(?:AllocError;|\{[^}]*\bAllocError\b)"
# What makes one of an AllocError.
MAKER = r"\bimpl From<AllocError> for [^{]*\{|\bfn out_of_memory\(\)[^{]*\{"


def end_of(code: str, at: int, ends: str) -> int:
    """After the first of `ends` from here on in no bracket that opens after here, or at the end of the one round it."""
    depth = 0
    for it in range(at, len(code)):
        depth += (code[it] in "([{") - (code[it] in ")]}")
        if depth < 0:
            return it
        if code[it] in ends and depth == (code[it] in "([{"):
            return it + 1
    return len(code)


def cut(code: str, head: str, ends: str) -> str:
    """The code with blanks for each thing that begins so, up to one of these."""
    while found := re.search(head, code):
        end = end_of(code, found.start(), ends)
        end -= code[end - 1] == "{"
        code = code[: found.start()] + re.sub(r"\S", " ", code[found.start() : end]) + code[end:]
    return code


def brackets(code: str, at: int) -> Iterator[int]:
    """The places of the brackets round a place, the innermost first."""
    depth = 0
    for it in range(at - 1, -1, -1):
        depth += (code[it] in ")]}") - (code[it] in "([{")
        if depth < 0:
            yield it
            depth = 0


def before(code: str, at: int) -> str:
    """What is before a place in its arm, statement or argument."""
    depth = 0
    for it in range(at - 1, -1, -1):
        depth += (code[it] in ")]") - (code[it] in "([")
        if depth < 0 or code[it] in "{}" or depth == 0 and code[it] in ",;":
            return code[it + 1 : at]
    return code[:at]


def is_pattern(code: str, at: int) -> bool:
    """Whether what is here is part of a pattern."""
    end = at
    for it in brackets(code, at):
        if code[it] == "{":
            break
        if re.search(r"\bmatches!$", code[:it]):
            return True
        at, end = it, end_of(code, it, ")]")
    start, follows = before(code, at), re.match(r"[^;,{}=]*(=>|=(?!=))?", code[end:])
    arrow = follows[1] if follows else None
    is_arm = arrow == "=>" and not re.search(r"\bif\b|=>", start)
    return is_arm or arrow == "=" and bool(re.search(r"\blet\b[^=]*$", start))


def is_passed_on(code: str, at: int) -> bool:
    """Whether it is in an arm that only such an error reaches."""
    for place in (at, *brackets(code, at)):
        pattern, arrow, _ = before(code, place).rpartition("=>")
        if arrow and not re.search(r"\bif\b", pattern) and all(re.search(NAMED, it) for it in pattern.split("|")):
            return True
    return False


def silenced(text: str) -> str:
    """A file's code, with blanks for comments, strings, clauses, ghost items and tests."""
    code = re.sub(SILENT, lambda it: re.sub(r"\S", " ", it[0]), text, flags=re.DOTALL)
    code = cut(code, r"\b(?:requires|ensures\*?|invariant)\s*(?:\w+\s*)?\{", "}")
    code = cut(code, r"\bghost\b", ";,")
    return cut(code, r"#\[cfg\(test\)\]", ";}")


def line_of(text: str, at: int) -> int:
    return text.count("\n", 0, at) + 1


def made_up(text: str) -> Iterator[int]:
    """Yields the lines of a file that make it up or ask for memory by a number."""
    code = silenced(text)
    if re.search(RENAMED, code):
        yield 1
    is_imported = bool(re.search(IMPORTED, code))
    code = cut(code, r"\buse\b|\btype\b", ";")
    code = cut(code, r"\b(?:enum|struct)\b", ";}")
    makers = [(it.end(), end_of(code, it.end() - 1, "}")) for it in re.finditer(MAKER, code)]
    code = cut(code, r"\bfn\s+\w+", ";{")
    for found in re.finditer(MADE, code):
        at = found.start()
        # what isn't imported is no error but a name that a pattern binds
        is_known = found[0] != "AllocError" or is_imported
        is_made = any(begin <= at < end for begin, end in makers)
        if not (is_known and (is_made or is_pattern(code, at) or is_passed_on(code, at))):
            yield line_of(text, at)
    yield from (line_of(text, it.start()) for it in re.finditer(REQUEST, code, re.VERBOSE))


def sources() -> Iterator[tuple[str, str]]:
    """Yields each source that is judged, by its name below crates/, and what it has."""
    for file in sorted(TOP.glob("crates/*/src/**/*.rt")):
        name = file.relative_to(TOP / "crates").as_posix()
        if not name.startswith(LEFT_OUT) and not re.search(r"/src/tests[./]", name):
            yield name, file.read_text()


def is_in(name: str, body: str) -> bool:
    """Whether a source is there and has a body, however it is laid out."""
    file = TOP / "crates" / name
    return file.is_file() and body in " ".join(file.read_text().split())


def faults() -> Iterator[str]:
    """Yields the places at which the sources make it up, by file and line."""
    listed, by_number = set(LISTED), set(BY_NUMBER)
    for name, text in sources():
        for number in sorted(set(made_up(text))):
            line = text.splitlines()[number - 1].strip()
            if (name, line) in listed:
                listed.remove((name, line))
            elif line in BY_NUMBER:
                by_number.discard(line)
            else:
                yield f"crates/{name}:{number}: makes up that memory ran out, or asks for it by a number: {line}"
    for name, body in PASSED_ON.items():
        if not is_in(name, body):
            yield f"crates/{name}: a call isn't passed on as it is: {body}"
    yield from (f"crates/{name} has no line to be listed: {line}" for name, line in sorted(listed))
    yield from (f"no source has the line to be listed: {line}" for line in sorted(by_number))
