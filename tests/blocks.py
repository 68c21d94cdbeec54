"""Files as rows of blocks, written by hand as docs/FORMAT.md says, and runs over them."""
import os

from runs import Runs

SIZE = 4096  # of a block
VERSION = (1, 8, 2)  # where the header says it: block, place, count of bytes
PLANE = "-2147483648 -2147483648 2147483647 2147483647"  # which all boxes of two axes meet
SPACE = "-2147483648 -2147483648 -2147483648 2147483647 2147483647 2147483647"

NODE, BUCKET, FORK = 6, 7, 8  # kinds of pages
OLD_NODE, OLD_BUCKET = 2, 4  # of format 1


def put(data, block, at, width, number):
    """Puts a number of so many bytes at a place of a block, the highest byte first. The block behind all
    others is added."""
    if SIZE * block == len(data):
        data += bytes(SIZE)
    begin = SIZE * block + at
    data[begin : begin + width] = number.to_bytes(width, "big")


def number_at(data, block, at, width):
    begin = SIZE * block + at
    return int.from_bytes(data[begin : begin + width], "big")


def blocks_of(data):
    """How many there are."""
    return len(data) // SIZE


def block_of(data, block):
    return data[SIZE * block : SIZE * block + SIZE]


def with_numbers(data, *numbers):
    """The file with these numbers in it: of each the block, the place, the count of bytes and the number."""
    data = bytearray(data)
    for number in numbers:
        put(data, *number)
    return data


def pages_of(data):
    """The numbers of the pages behind the catalog, each with its kind."""
    return [(page, data[SIZE * page]) for page in range(3, blocks_of(data))]


def text_of(commands):
    return "".join(f"{command}\n" for command in commands)


def parted(replies):
    """The replies of a text, each with its rows."""
    lines = replies.splitlines(keepends=True)
    found, at = [], 0
    while at < len(lines):
        rows = int(lines[at][3:]) if lines[at].startswith("ok ") else 0
        found.append("".join(lines[at : at + 1 + rows]))
        at += 1 + rows
    return found


class RunsOver(Runs):
    """Runs over files that are written by hand, with as few pages cached as may be. They lie in memory, where
    syncs take no time, if that can be had."""

    within = "/dev/shm" if os.access("/dev/shm", os.W_OK) else None

    def store(self):
        """The bytes of the file, which no run has left a journal beside."""
        files = self.files()
        self.assertEqual(list(files), ["store"])
        return files["store"]
