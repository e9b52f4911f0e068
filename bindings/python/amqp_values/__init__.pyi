# Signatures of `amqp_values`, for type checkers and editors. tests/python/test_package.py compares them with `help`.
from collections.abc import Mapping
from datetime import datetime
from decimal import Decimal
from typing import Any, Literal, SupportsIndex, Union, overload

from typing_extensions import Self, TypeAlias

__version__: str
# The largest `depth`, and the default ones.
MOST_DEPTH: int
DEPTH: int
MAX_BYTES: int

_Data: TypeAlias = Union[bytes, bytearray, memoryview]
# What becomes of keys and text that aren't UTF-8.
_NotUtf8: TypeAlias = Literal["strict", "bytes", "surrogateescape"]
# Which of equal keys counts, or "refuse" for an Error.
_EqualKeys: TypeAlias = Literal["last", "first", "refuse"]
_Table: TypeAlias = Union[Mapping[str, Any], Mapping[bytes, Any], Mapping[Union[str, bytes], Any]]
_Kind: TypeAlias = Literal[
    "cut",
    "key cut",
    "unknown tag",
    "too deep",
    "too large",
    "key not UTF-8",
    "text not UTF-8",
    "trailing bytes",
    "not finite",
    "lone surrogate",
    "out of range",
    "naive datetime",
    "key too long",
    "equal keys",
    "changed",
    "raised",
    "bad option",
    "not JSON",
    "not a value",
    "not a table",
    "unsupported type",
]

__all__ = [
    "DEPTH",
    "Encoded",
    "Error",
    "Float",
    "LongInt",
    "LongString",
    "LongUInt",
    "MAX_BYTES",
    "MOST_DEPTH",
    "ShortInt",
    "ShortShortInt",
    "ShortShortUInt",
    "ShortUInt",
    "Timestamp",
    "UnsupportedType",
    "__version__",
    "decode_table",
    "dumps",
    "dumps_table",
    "find",
    "from_json",
    "loads",
    "loads_table",
    "to_json",
]

class Error(ValueError):
    kind: _Kind
    offset: int
    expected: str
    missing: int
    reason: str
    path: tuple[Any, ...]
    def __init__(self, kind: _Kind, offset: int = 0, expected: str = "", missing: int = 0) -> None: ...

class UnsupportedType(Error, TypeError): ...

class _Integer(int):
    tag: str
    least: int
    most: int
    def __new__(cls, value: SupportsIndex = 0) -> Self: ...
    # Of the same type if that has the number.
    def __iadd__(self, other: int, /) -> int: ...
    def __isub__(self, other: int, /) -> int: ...

class ShortShortInt(_Integer): ...
class ShortShortUInt(_Integer): ...
class ShortInt(_Integer): ...
class ShortUInt(_Integer): ...
class LongInt(_Integer): ...
class LongUInt(_Integer): ...

class Timestamp(_Integer):
    @classmethod
    def of(cls, time: datetime) -> Self: ...
    def as_datetime(self) -> datetime: ...

class Float(float):
    def __new__(cls, value: Union[float, Decimal] = 0.0) -> Self: ...
    @classmethod
    def of_bits(cls, bits: SupportsIndex) -> Self: ...
    @property
    def bits(self) -> int: ...

class LongString(bytes):
    def __new__(cls, content: _Data = b"") -> Self: ...

class Encoded(bytes):
    def __new__(cls, content: _Data = b"") -> Self: ...

def loads(
    data: _Data,
    /,
    *,
    keys: _NotUtf8 = "strict",
    text: _NotUtf8 = "strict",
    plain: bool = False,
    equal_keys: _EqualKeys = "last",
    signed_decimals: bool = False,
    finite: bool = False,
    depth: int = 32,
    max_bytes: int = 1048576,
) -> Any:
    r"""Returns the value that the bytes encode, with its type tag. No byte may follow it.

    Raises an Error if the bytes aren't such a value, or if it is beyond the limits: `kind`, `offset` and `expected`
    say what is wrong and where, and `missing` how many more bytes the cut field needs, or 0 if more bytes can't help.
    Data that isn't bytes, a bytearray or a memoryview raises a TypeError.

    Options, by name:

        keys='strict'          a key that isn't UTF-8 raises an Error; 'bytes' makes it bytes, 'surrogateescape' a str
                               with surrogates, as in the names of files
        text='strict'          the same of a string, which 'bytes' makes a LongString
        plain=False            True for int, float, bytes, and a datetime in UTC for a Timestamp, not own classes
        equal_keys='last'      of equal keys in a table the last counts; 'first', or 'refuse', which raises an Error
        signed_decimals=False  True for decimals that pika or py-amqp wrote, of 32 bits with a sign
        finite=False           True raises an Error for infinities and NaNs, for which RabbitMQ closes the connection
        depth=32               how deep containers nest at most, up to MOST_DEPTH
        max_bytes=1048576      how many bytes the value has at most, the type tag of a table counted

    >>> loads(b'A\0\0\0\x0cI\0\0\0\5t\1S\0\0\0\0')
    [LongInt(5), True, '']
    """

@overload
def loads_table(
    data: _Data,
    /,
    *,
    encoded: Literal[True],
    keys: Literal["strict", "surrogateescape"] = "strict",
    text: _NotUtf8 = "strict",
    plain: bool = False,
    equal_keys: _EqualKeys = "last",
    signed_decimals: bool = False,
    finite: bool = False,
    depth: int = 32,
    max_bytes: int = 1048576,
) -> dict[str, Encoded]:
    r"""Returns the dict that the bytes encode as a table without its type tag: its length, then its pairs. No byte may
    follow it. Errors and options are those of loads, and

        encoded=False          True makes each value of the dict an Encoded, to be written as it is

    >>> loads_table(b'\0\0\0\4\1at\1')
    {'a': True}
    >>> loads_table(b'\0\0\0\4\1\xfft\1', keys='bytes')
    {b'\xff': True}
    """

@overload
def loads_table(
    data: _Data,
    /,
    *,
    encoded: Literal[True],
    keys: Literal["bytes"],
    text: _NotUtf8 = "strict",
    plain: bool = False,
    equal_keys: _EqualKeys = "last",
    signed_decimals: bool = False,
    finite: bool = False,
    depth: int = 32,
    max_bytes: int = 1048576,
) -> dict[Union[str, bytes], Encoded]: ...
@overload
def loads_table(
    data: _Data,
    /,
    *,
    encoded: bool = False,
    keys: Literal["strict", "surrogateescape"] = "strict",
    text: _NotUtf8 = "strict",
    plain: bool = False,
    equal_keys: _EqualKeys = "last",
    signed_decimals: bool = False,
    finite: bool = False,
    depth: int = 32,
    max_bytes: int = 1048576,
) -> dict[str, Any]: ...
@overload
def loads_table(
    data: _Data,
    /,
    *,
    encoded: bool = False,
    keys: Literal["bytes"],
    text: _NotUtf8 = "strict",
    plain: bool = False,
    equal_keys: _EqualKeys = "last",
    signed_decimals: bool = False,
    finite: bool = False,
    depth: int = 32,
    max_bytes: int = 1048576,
) -> dict[Union[str, bytes], Any]: ...
@overload
def decode_table(
    data: _Data,
    /,
    offset: int = 0,
    *,
    encoded: Literal[True],
    keys: Literal["strict", "surrogateescape"] = "strict",
    text: _NotUtf8 = "strict",
    plain: bool = False,
    equal_keys: _EqualKeys = "last",
    signed_decimals: bool = False,
    finite: bool = False,
    depth: int = 32,
    max_bytes: int = 1048576,
) -> tuple[dict[str, Encoded], int]:
    r"""Returns the table without its type tag that begins at an offset, and the offset of its end. Other bytes may
    follow. Errors and options are those of loads_table; the offset of an Error counts from the start of the data.

    >>> decode_table(b'..\0\0\0\4\1at\1..', 2)
    ({'a': True}, 10)
    """

@overload
def decode_table(
    data: _Data,
    /,
    offset: int = 0,
    *,
    encoded: Literal[True],
    keys: Literal["bytes"],
    text: _NotUtf8 = "strict",
    plain: bool = False,
    equal_keys: _EqualKeys = "last",
    signed_decimals: bool = False,
    finite: bool = False,
    depth: int = 32,
    max_bytes: int = 1048576,
) -> tuple[dict[Union[str, bytes], Encoded], int]: ...
@overload
def decode_table(
    data: _Data,
    /,
    offset: int = 0,
    *,
    encoded: bool = False,
    keys: Literal["strict", "surrogateescape"] = "strict",
    text: _NotUtf8 = "strict",
    plain: bool = False,
    equal_keys: _EqualKeys = "last",
    signed_decimals: bool = False,
    finite: bool = False,
    depth: int = 32,
    max_bytes: int = 1048576,
) -> tuple[dict[str, Any], int]: ...
@overload
def decode_table(
    data: _Data,
    /,
    offset: int = 0,
    *,
    encoded: bool = False,
    keys: Literal["bytes"],
    text: _NotUtf8 = "strict",
    plain: bool = False,
    equal_keys: _EqualKeys = "last",
    signed_decimals: bool = False,
    finite: bool = False,
    depth: int = 32,
    max_bytes: int = 1048576,
) -> tuple[dict[Union[str, bytes], Any], int]: ...
def find(
    data: _Data,
    /,
    *path: Union[str, bytes, int],
    table: bool = False,
    default: Any = None,
    keys: _NotUtf8 = "strict",
    text: _NotUtf8 = "strict",
    plain: bool = False,
    equal_keys: _EqualKeys = "last",
    signed_decimals: bool = False,
    finite: bool = False,
    depth: int = 32,
    max_bytes: int = 1048576,
) -> Any:
    r"""Returns the value at a path: keys into tables, and indexes from 0 into arrays. Returns the default if the path
    leads nowhere.

    Only this value is built, and checked as loads checks it. Elsewhere in the data find checks type tags, lengths, depth
    and max_bytes, and with equal_keys='refuse' that no key repeats; keys and strings there may have any bytes, and
    numbers any value. So headers that an adapter delivers aren't rejected for what you don't ask for. The errors are
    those of loads.

    Options, by name, and those of loads, of which keys is also about the keys of the path:

        table=False            True for a table without its type tag, as headers and arguments are
        default=None           what is returned if the path leads nowhere

    >>> data = dumps_table({'x-death': [{'queue': 'orders', 'count': 3}]})
    >>> find(data, 'x-death', 0, 'queue', table=True)
    'orders'
    >>> find(data, 'x-death', 1, 'queue', table=True, default='nowhere')
    'nowhere'
    """

def dumps(
    value: Any,
    /,
    *,
    keys: _NotUtf8 = "strict",
    text: _NotUtf8 = "strict",
    naive_datetimes: bool = False,
    signed_decimals: bool = False,
    finite: bool = False,
    depth: int = 32,
) -> bytes:
    r"""Returns the bytes of a value, with its type tag. The keys of a table keep their order.

    Raises an Error if the value can't be written: `kind` and `expected` say why, and `path` leads to what can't. Of an
    object whose type has no encoding it is an UnsupportedType, which is a TypeError too.

    Options, by name:

        keys='strict'          'bytes' allows keys of any bytes, 'surrogateescape' str with such surrogates
        text='strict'          'surrogateescape' allows str with such surrogates
        naive_datetimes=False  True writes a datetime without a time zone, as of UTC
        signed_decimals=False  True writes decimals of 32 bits with a sign, as pika and py-amqp do
        finite=False           True raises an Error for infinities and NaNs
        depth=32               how deep containers nest at most, up to MOST_DEPTH

    >>> dumps([None, ShortInt(-2)])
    b'A\x00\x00\x00\x04Vs\xff\xfe'
    """

def dumps_table(
    mapping: _Table,
    /,
    *,
    keys: _NotUtf8 = "strict",
    text: _NotUtf8 = "strict",
    naive_datetimes: bool = False,
    signed_decimals: bool = False,
    finite: bool = False,
    depth: int = 32,
) -> bytes:
    r"""Returns the bytes of a table without its type tag, as methods and content headers have it: its length, then its
    pairs. Errors and options are those of dumps.

    >>> dumps_table({'a': True})
    b'\x00\x00\x00\x04\x01at\x01'
    """

def to_json(
    data: _Data,
    /,
    *,
    canonical: bool = False,
    table: bool = False,
    depth: int = 32,
    max_bytes: int = 1048576,
) -> str:
    r"""Returns the JSON of the value that the bytes encode, or with table=True of the table without its type tag. A
    type that plain JSON doesn't have is an object with one key. Errors are those of loads.

    Every pair of a table is written, in the order in which it is encoded. A key that comes again is written again: its
    last value counts, but some JSON parsers take the first, and strict ones reject the text.

    Options, by name:

        table=False            True for a table without its type tag
        canonical=False        True for keys that ascend, each once with its last value: equal values have equal texts
        depth=32               how deep containers nest at most, up to MOST_DEPTH; in a text brackets count, up to 127
        max_bytes=1048576      how many bytes the value has at most, the type tag of a table counted; a text has at most
                               12 times as many

    >>> data = dumps_table({'b': b'\1', 'a': [ShortInt(5), 5]})
    >>> to_json(data, table=True)
    '{"b":{"$ByteArray":"01"},"a":[{"$ShortInt":5},5]}'
    >>> to_json(data, table=True, canonical=True)
    '{"a":[{"$ShortInt":5},5],"b":{"$ByteArray":"01"}}'
    """

def from_json(
    text: Union[str, _Data],
    /,
    *,
    table: bool = False,
    depth: int = 32,
    max_bytes: int = 1048576,
) -> bytes:
    r"""Returns the encoding of the value that a JSON text means, with its type tag, or with table=True of a table
    without it. It is the canonical one, in which keys ascend. The bracket of a named value counts for the depth. The
    options are those of to_json without canonical.

    Raises an Error if the text isn't the JSON of a value or a table, or if that is beyond the limits. Its offset counts
    the characters of a str, or the bytes of any other text.

    >>> loads_table(from_json('{"a": {"$ShortInt": 5}}', table=True))
    {'a': ShortInt(5)}
    """
