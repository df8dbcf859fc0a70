"""Damaged copies of databases."""

PATTERNS = [b"\x00", b"\xff", b"\x00\x00\x00\x01", b"\x7f\xff\xff\xff", b"\xff" * 9]


def flipped(draw, file, size):
    """One bit is turned."""
    place = draw.randrange(len(file))
    file[place] ^= 1 << draw.randrange(8)


def headed(draw, file, size):
    """One byte is another among the first of a page."""
    place = draw.randrange(len(file) // size) * size + draw.randrange(16)
    file[place + 100 if place < 100 else place] = draw.randrange(256)


def overwritten(draw, file, size):
    """A few bytes are others."""
    pattern = draw.choice(PATTERNS)
    place = draw.randrange(max(1, len(file) - len(pattern)))
    file[place : place + len(pattern)] = pattern


def zeroed(draw, file, size):
    """A page is zero."""
    page = draw.randrange(len(file) // size)
    from_ = max(100, page * size)
    file[from_ : (page + 1) * size] = bytes((page + 1) * size - from_)


def swapped(draw, file, size):
    """A page stands in the place of another."""
    pages = len(file) // size
    source, target = draw.randrange(pages), draw.randrange(pages)
    if target > 0:
        file[target * size : (target + 1) * size] = file[source * size : (source + 1) * size]


def shortened(draw, file, size):
    """The end of the file is missing."""
    del file[draw.randrange(len(file)) :]


WAYS = [flipped, headed, overwritten, flipped, zeroed, headed, swapped, overwritten, shortened]
