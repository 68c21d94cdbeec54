"""The exceptions of the store: one class for each error of rstore.h, all of them `Error`."""

from __future__ import annotations

from typing import Optional


class Error(Exception):
    """What the library refused. `number` is that of rstore.h, and `detail` the number that came with it: an identifier, a
    page or a fault, else 0. Where many were given, `index` is the place of the first that was refused, else None."""

    number: int = 0
    index: Optional[int] = None

    def __init__(self, message: str = "", detail: int = 0) -> None:
        super().__init__(message)
        self.detail = detail

    __str__ = Exception.__str__  # and not KeyError's, which quotes


class BadName(Error, ValueError):
    """A layer name is 1 to 24 of a-z, 0-9 and _, the first a letter."""

    number = 1


class LayerExists(Error, KeyError):
    """A layer of that name is there."""

    number = 2


class NoLayer(Error, KeyError):
    """No layer has that name."""

    number = 3


class BadDims(Error, ValueError):
    """A layer has two or three axes."""

    number = 4


class BadFanout(Error, ValueError):
    """A fanout is 4 to 100."""

    number = 5


class TooManyLayers(Error):
    """There are 60 layers."""

    number = 6


class BadBox(Error, ValueError):
    """A low is above its high."""

    number = 7


class WrongDims(Error, ValueError):
    """A box or a point has another number of axes than the layer."""

    number = 8


class Duplicate(Error, KeyError):
    """An object of that identifier is there."""

    number = 9


class NoObject(Error, KeyError):
    """No object has that identifier."""

    number = 10


class TooManyObjects(Error):
    """There would be more than 2^30 objects."""

    number = 11


class NotEmpty(Error):
    """Only an empty layer is loaded."""

    number = 12


class DuplicateInLoad(Error, KeyError):
    """An identifier stands twice in a load; `detail` is the least such one."""

    number = 13


class BadCount(Error, ValueError):
    """The nearest 1 to 1,000,000 can be asked for."""

    number = 14


class DimsDiffer(Error, ValueError):
    """The layers of a join have different numbers of axes."""

    number = 15


class OutOfMemory(Error, MemoryError):
    """Memory was refused."""

    number = 16


class DeviceFailed(Error, OSError):
    """A read, write or sync of the file failed."""

    number = 17


class Damaged(Error):
    """A page is damaged; `detail` is its number."""

    number = 18


class StoreFailed(Error):
    """The store failed half way through a change, or had failed before: `rollback` brings back what was kept last."""

    number = 19


class NotClosed(Error):
    """The last session over the file did not end: open it once for writing, with its journal beside it."""

    number = 20


class NotAStore(Error):
    """The file holds no store."""

    number = 21


class WrongVersion(Error):
    """The file has a version that is not known."""

    number = 22


class BadCache(Error, ValueError):
    """A cache holds 8 to 4096 pages."""

    number = 23


class NoPages(Error):
    """No page number is left."""

    number = 25


class CannotOpen(Error, OSError):
    """The system refuses the file or its journal, or it is no regular file."""

    number = 101


class Busy(Error, OSError):
    """The file is open for writing elsewhere."""

    number = 102


class Closed(Error, ValueError):
    """The store is closed, or a rollback was refused and it is not open until one goes well."""

    number = 103


class Misuse(Error, ValueError):
    """Numbers that are no box, point, identifier or tag."""

    number = 104


class ReadOnly(Error):
    """A change of a store that was opened to be read."""

    number = 105


class NoLocks(Error, OSError):
    """The system has no locks for the file."""

    number = 106


class NoJournal(Error):
    """The journal is missing where the last session did not end, or is no journal."""

    number = 107


class OtherJournal(Error):
    """The journal beside the file is that of another file."""

    number = 108


def at_index(error: Error, index: int, where: str) -> Error:
    """The same error of one of many, whose message tells where it stands: `where` and its index."""
    told = type(error)(f"{where} {index}: {error}", error.detail)
    told.index = index
    return told


KINDS = {kind.number: kind for kind in list(vars().values()) if isinstance(kind, type) and issubclass(kind, Error)}

__all__ = [kind.__name__ for kind in KINDS.values()]
