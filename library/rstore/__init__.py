"""A verified R*-tree spatial store in one file, for Python, over librstore.so by ctypes (standard library only).

    import rstore

    with rstore.open("map.rst", create=True) as db:
        parks = db.create_layer("parks", dims=2)
        parks[7] = (0, 0, 10, 10)                 # a box: the lows, and then the highs
        parks.insert(8, (20, 20, 30, 30), tag=3)
        for id, box, tag in parks.window((5, 5, 25, 25)):
            print(id, box, tag)
        print(parks.nearest((19, 19), 1))         # [(8, 2)]: the squared distance
        db.commit()                               # changes are in the file now
        del parks[7]
        db.rollback()                             # object 7 is there again
        with db.transaction():                    # all of it, or with an exception nothing
            parks[9] = (1, 1, 2, 2)
            del parks[8]
                                                  # and now, at the end of the `with`, unless by an exception

A box is a sequence of 2 * dims whole numbers of 32 bits, a point one of `dims`, an identifier a whole number below 2^64,
and a tag one below 2^32. A layer with a `scale` takes and gives decimal numbers, as degrees.

Changes are in the file once `commit` or `close` has returned, or a `transaction` or the `with` of `open` has ended. A
process that is killed loses what was changed since, and nothing else; `rollback` gives it up, and so does an exception
that leaves one of these two. Errors are exceptions, one class for each refusal, all of them `rstore.Error`.

A store may be used by several threads: it has a lock, and a call waits for the one that runs. A forked child has no use
of a store of its parent. RSTORE_LIBRARY names another librstore.so than the one beside this file.
"""

from __future__ import annotations

from rstore import errors
from rstore._arrays import Found, FoundRows, MaybeRows, Neighbours
from rstore._layer import Layer
from rstore._library import version
from rstore._rows import LayerInfo, LayerStats, LevelStats, Node, Rows, StoreInfo
from rstore._store import Store, Transaction, open
from rstore.errors import *  # noqa: F403

__all__ = [
    "open", "Store", "Transaction", "Layer", "Rows", "LayerInfo", "LayerStats", "LevelStats", "Node", "StoreInfo",
    "Found", "FoundRows", "MaybeRows", "Neighbours", "version", *errors.__all__,
]
