"""Files that give one item after another, as ports do, and `log` and `jobs`."""

from typing import Any, Generic, Iterator, Optional, Tuple, TypeVar

from .client import File
from .errors import Error, FidClunked

Item = TypeVar("Item")
Self = TypeVar("Self", bound="Items[Any]")


class Items(Generic[Item]):
    """An open file of items. A read of it gives an item, or a piece of one, and waits until there is something."""

    def __init__(self, file: File):
        self.file, self._held = file, b""

    def decode(self, data: bytes) -> Optional[Tuple[Item, bytes]]:
        """The item that bytes begin with, and the bytes behind it; None where more bytes are wanted."""
        raise NotImplementedError

    def recv(self, timeout: Optional[float] = None) -> Item:
        """The next item; waits until there is one. Where `timeout` seconds pass it is a TimedOut, and none is lost."""
        while True:
            found = self.decode(self._held)
            if found:
                item, self._held = found
                return item
            data = self.file.read(timeout=timeout)
            if not data:
                raise Error(f"{self.file.name}: a read of it gave nothing")
            self._held += data

    def __iter__(self) -> Iterator[Item]:
        """The items from now on, until the file is closed."""
        while True:
            try:
                item = self.recv()
            except FidClunked:
                return
            yield item

    def close(self) -> None:
        self.file.close()

    def __enter__(self: Self) -> Self:
        return self

    def __exit__(self, *whys: object) -> None:
        self.file.__exit__(*whys)
