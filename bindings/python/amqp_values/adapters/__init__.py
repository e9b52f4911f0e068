"""Adapters, which put this package in place of a client's own codec of tables: `pika`, `pyamqp` and `pamqp`.

Each has `install()`, to be called before a connection is opened, and `uninstall()`. What isn't read comes as `Refused`, which `refused`
finds in a message of any client.
"""

from amqp_values.adapters.headers import Headers, Refused, refused
from amqp_values.adapters.shared import IncompatibleClient, UntestedVersion

__all__ = ["Headers", "IncompatibleClient", "Refused", "UntestedVersion", "refused"]
