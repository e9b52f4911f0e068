"""The C API on each case of vectors/: what is read, the problem, the canonical encoding, the JSON, and that of the canonical one."""

from typing import Any

import pytest

from tests.c import c_api
from tests.model.encoding import json_of_encoding
from tests.vectors.cases import CASES, PROBLEMS, Case, none_of

pytestmark = pytest.mark.usefixtures("library", "deep")
NO_LIMIT = 2**32 - 1


def found(it: Case) -> Any:
    """The result and the problem of reading, and what is written."""
    limits = c_api.UNTAGGED * it.is_table, NO_LIMIT, NO_LIMIT
    result, _, problem = c_api.read(it.data, *limits)
    canonical = c_api.canonical(it.data, *limits)
    of_canonical = c_api.to_json(canonical[1], *limits) if isinstance(canonical[1], bytes) else None
    return result, problem, canonical, c_api.to_json(it.data, *limits), of_canonical


def wanted(it: Case) -> Any:
    if it.canonical is not None and it.json is not None:
        texts = [(c_api.OK, text.encode()) for text in (json_of_encoding(it.tagged), it.json)]
        return c_api.OK, None, (c_api.OK, it.canonical), *texts
    if it.is_beyond_limits:
        result, problem = c_api.TOO_LARGE, (0, 0, 0, 0)
    elif "missing" in it.result:
        result, problem = c_api.MORE, (0, it.result["missing"], 0, 0)
    else:
        kind, at = PROBLEMS[it.result["error"]], it.result["offset"]
        result = next(each for each, of in c_api.KINDS.items() if of == kind and each != c_api.MORE)
        problem = at, 0, it.data[at] if kind == 1 else 0, 0
    return result, problem, (result, 0), (result, 0), None


def test_vectors() -> None:
    assert none_of([f"{it.id}: {found(it)!r:.300}" for it in CASES if found(it) != wanted(it)]) == ""
