"""`Codec`, the part of the extension `_native` that only adapters use. `__init__.pyi` has signatures of the rest."""

from typing import Any

from typing_extensions import Self

class Codec:
    def __new__(cls, owner: object, kept: type[Any], made: type[Any] | None, /, **options: Any) -> Self: ...
    def read(self, data: Any, offset: int, /) -> tuple[dict[Any, Any], int]: ...
    def write(self, table: Any, /) -> bytes: ...
