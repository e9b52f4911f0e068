"""AMQP 0-9-1 field tables, exact in both directions: the headers and arguments of RabbitMQ's messages, queues and exchanges.

    >>> data = dumps_table({"x-max-length": 10000, "x-queue-type": "quorum", "x-max-priority": ShortShortUInt(5)})
    >>> loads_table(data)
    {'x-max-length': 10000, 'x-queue-type': 'quorum', 'x-max-priority': ShortShortUInt(5)}
    >>> find(data, "x-queue-type", table=True)
    'quorum'

Each type is one of Python, or a class that is a number or bytes there:

    t  Boolean         bool                        f  Float         Float, a float
    b  ShortShortInt   ShortShortInt, an int       d  Double        float
    B  ShortShortUInt  ShortShortUInt, an int      D  DecimalValue  decimal.Decimal
    s  ShortInt        ShortInt, an int            S  LongString    str, or LongString, bytes, if it isn't UTF-8
    u  ShortUInt       ShortUInt, an int           x  ByteArray     bytes
    I  LongInt         LongInt, an int             A  FieldArray    list
    i  LongUInt        LongUInt, an int            F  FieldTable    dict, its keys str, or bytes that aren't UTF-8
    l  LongLongInt     int                         T  Timestamp     Timestamp, an int, in seconds since 1970
                                                   V  Void          None

So `dumps(loads(data))` is `data`, except for what can be written in two ways: the alternate tags U and L become s and l, a
true that isn't 1 becomes 1, and of equal keys in a table one is kept. Bytes that can't be read and values that can't be written
raise `Error`. The only other exceptions are TypeError, for an argument of the wrong type, and MemoryError.

`help(loads)` has the options of reading, `help(dumps)` those of writing, `help(to_json)` those of JSON, and `help(Timestamp)` what
a type has.
"""

from ._native import DEPTH, MAX_BYTES, MOST_DEPTH, __version__
from ._native import decode_table, dumps, dumps_table, find, from_json, loads, loads_table, to_json
from ._types import Encoded, Error, Float, LongInt, LongString, LongUInt
from ._types import ShortInt, ShortShortInt, ShortShortUInt, ShortUInt, Timestamp, UnsupportedType

for _it in (Encoded, Error, Float, LongInt, LongString, LongUInt):
    _it.__module__ = __name__
for _it in (ShortInt, ShortShortInt, ShortShortUInt, ShortUInt, Timestamp, UnsupportedType):
    _it.__module__ = __name__
del _it

__all__ = [
    "DEPTH",
    "Encoded",
    "Error",
    "Float",
    "LongInt",
    "LongString",
    "LongUInt",
    "MAX_BYTES",
    "MOST_DEPTH",
    "ShortInt",
    "ShortShortInt",
    "ShortShortUInt",
    "ShortUInt",
    "Timestamp",
    "UnsupportedType",
    "__version__",
    "decode_table",
    "dumps",
    "dumps_table",
    "find",
    "from_json",
    "loads",
    "loads_table",
    "to_json",
]
