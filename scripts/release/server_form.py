"""The free lists of a database put into server form, by docs/FORMATS.md."""

import struct


def number(data, at):
    return struct.unpack_from(">I", data, at)[0]


def put(data, at, *numbers):
    struct.pack_into(f">{len(numbers)}I", data, at, *numbers)


def free_pages(data, size):
    """The stock free list: trunks, and the pages that each lists."""
    found = []
    trunk = number(data, 32)
    while trunk:
        start = (trunk - 1) * size
        found += [trunk] + [number(data, start + 8 + 4 * i) for i in range(number(data, start + 4))]
        trunk = number(data, start)
    return sorted(found)


def deal(free, firsts, most):
    """The trunks once each page was freed into the lists in turn: their next trunks and leaves."""
    trunks = {first: (0, []) for first in firsts}
    for place, page in enumerate(free):
        first = firsts[place % len(firsts)]
        after, leaves = trunks[first]
        if len(leaves) < most:
            leaves.append(page)
        else:
            trunks[page] = (after, leaves)
            trunks[first] = (page, [])
    return trunks


def prepare(data, lists):
    """Gives the bytes in server form, how many pages there are and how many are free."""
    data = bytearray(data)
    size = int.from_bytes(data[16:18], "big")
    size = 65536 if size == 1 else size
    usable = size - data[20]
    free = free_pages(data, size)
    count = len(data) // size
    new = list(range(count + 1, count + 1 + max(0, lists + 1 - len(free))))
    data += bytes(size * len(new))
    free += new
    node, firsts, rest = free[0], free[1 : lists + 1], free[lists + 1 :]
    for page, words in [(node, [lists, *firsts])] + [
        (page, [after, len(leaves), *leaves]) for page, (after, leaves) in deal(rest, firsts, usable // 4 - 8).items()
    ]:
        start = (page - 1) * size
        data[start : start + usable] = bytes(usable)
        put(data, start, *words)
    counter = (number(data, 24) + 1) % 2**32
    put(data, 24, counter, count + len(new), node, 0)
    put(data, 92, counter)
    return bytes(data), count + len(new), len(free)
