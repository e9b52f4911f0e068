"""`decode` and `write` for run.py and writing.py, by pamqp's own codec of tables, which aiormq and aio-pika use."""

from typing import Any

from adapters.natural import natural
from pamqp.decode import field_table
from pamqp.encode import field_table as field_table_of


def decode(data: bytes) -> Any:
    return field_table(data)[1]


def write(value: Any) -> Any:
    return field_table_of(natural(value))
