"""The old name of `rstore.rtree`."""

from rstore.rtree import *  # noqa: F401, F403
from rstore.rtree import SCALE, RTreeError, index  # noqa: F401
