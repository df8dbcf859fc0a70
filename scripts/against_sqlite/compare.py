"""Compares `check` and `rows` with sqlite3 over a hundred databases and over damaged copies of each."""

import os
import random
import re
import subprocess
import sys
from collections import Counter

import damage
import databases
import sqlite

DATABASES = 100
COPIES = 5
SCHEMA = "SELECT type, name, tbl_name, rootpage, hex(sql) FROM sqlite_schema ORDER BY rowid;"
VERDICT = re.compile(rb"ok pages \d+ tables \d+ rows \d+ free \d+\n|damage \d+ ([1-9]|1[01])\n|refused [^\n]+\n")
STATUS = {b"ok": 0, b"damage": 5, b"refused": 2}
# sqlite3 reads a float that is not a number as NULL.
NOT_A_NUMBER = re.compile(rb"r'[7f]ff(?!0{13})[0-9a-f]{13}'")
# The lines of integrity_check about what no rule of `check` asks.
UNASKED = [
    rb"\*\*\* in database main \*\*\*",
    # What a page's header says of freeblocks, fragments and the start of the content.
    rb"(Tree \d+ p|P)age \d+: free space corruption",
    rb"Fragmentation of \d+ bytes reported as \d+ on page \d+",
    # Pages in no tree, chain or list.
    rb"Page \d+( is|:) never used",
    # Rows and the entries of their index.
    rb"row \d+ missing from index .+",
    rb"wrong # of entries in index .+",
    # Values, and the types that columns declare.
    rb"NUMERIC value in .+",
    # Offset 64 of the database header.
    rb"incremental_vacuum enabled with a max rootpage of zero",
    # A schema row whose text is no SQL: its table is closed.
    rb"Parse error near line 1: malformed database schema \(.+\) - incomplete input \(11\)",
]
ALL_UNASKED = re.compile(rb"((" + rb"|".join(UNASKED) + rb")\n)+")


class Comparison:
    """What was compared so far."""

    def __init__(self, program):
        self.program = program
        self.counts = Counter()

    def run(self, *words):
        ended = subprocess.run([self.program, *words], capture_output=True, timeout=120)
        return ended.returncode, ended.stdout

    def differ(self, name, what, expected, found):
        self.counts["differences"] += 1
        print(f"{name}: {what}: expected {expected[:300]!r}, found {found[:300]!r}")

    def expect(self, name, what, expected, found):
        if expected != found:
            self.differ(name, what, repr(expected), repr(found))

    def rows(self, path, table, is_damaged):
        """The rows of an open table, where sqlite3 can read it."""
        expected = sqlite.text_of(path, table)
        if expected is None:
            return
        status, found = self.run("rows", path, table.name)
        if is_damaged:
            found = NOT_A_NUMBER.sub(b"NULL", found)
        self.expect(path, f"rows of {table.name}", (0, expected), (status, found))
        self.counts["tables", is_damaged] += 1
        self.counts["rows", is_damaged] += expected.count(b"\n") - 1

    def whole(self, path, tables):
        """A database that sqlite3 made."""
        self.expect(path, "integrity_check", b"ok\n", sqlite.run(path, "PRAGMA integrity_check;", "-readonly"))
        numbers = [
            sqlite.run(path, question, "-readonly").strip()
            for question in [
                "PRAGMA page_count;",
                "SELECT count(*) FROM sqlite_schema WHERE type = 'table';",
                "SELECT 0" + "".join(f" + (SELECT count(*) FROM {sqlite.quoted(t.name)})" for t in tables if not t.closed) + ";",
                "PRAGMA freelist_count;",
            ]
        ]
        expected = b"ok pages %b tables %b rows %b free %b\n" % tuple(numbers)
        self.expect(path, "check", (0, expected), self.run("check", path))
        for table in tables:
            if table.closed:
                refused = b"refused closed-table %d\n" % table.closed
                self.expect(path, f"rows of {table.name}", (2, refused), self.run("rows", path, table.name))
                self.counts["closed"] += 1
            else:
                self.rows(path, table, False)
        self.expect(path, "no table", (2, b"refused no-table\n"), self.run("rows", path, "no such table"))
        self.counts["checked"] += 1

    def damaged(self, path, tables, schema):
        """A damaged copy. `check` decodes all records of open tables, which integrity_check does not; integrity_check asks what
        UNASKED lists, which `check` does not. So the two may differ. But where a rule other than that of records is broken,
        sqlite3 sees damage too; and where `check` says ok, sqlite3 sees nothing but what is listed and, as long as the schema
        is as it was, reads what `rows` prints."""
        status, verdict = self.run("check", path)
        if not VERDICT.fullmatch(verdict) or STATUS[verdict.split()[0]] != status:
            self.differ(path, "check", "a verdict", repr((status, verdict)))
            return
        seen = sqlite.all_output(path, "PRAGMA integrity_check;", "-readonly")
        sound = seen == b"ok\n"
        word = verdict.split()[0].decode()
        self.counts[word, sound] += 1
        if word == "damage" and sound and not verdict.endswith(b" 8\n"):
            self.differ(path, "check", "damage to sqlite3", repr(verdict))
        if word == "ok" and not sound and not ALL_UNASKED.fullmatch(seen):
            self.differ(path, "integrity_check", "what is not asked", seen)
        if word == "ok" and sqlite.run(path, SCHEMA, "-readonly") == schema:
            for table in tables:
                if not table.closed:
                    self.rows(path, table, True)


def copies(comparison, seed, path, tables):
    """Compares over damaged copies of a database."""
    with open(path, "rb") as file:
        bytes_ = file.read()
    size = databases.PAGE_SIZES[seed % 8]
    schema = sqlite.run(path, SCHEMA, "-readonly")
    for number in range(COPIES):
        draw = random.Random(seed * COPIES + number)
        copy = bytearray(bytes_)
        damage.WAYS[(seed + number) % len(damage.WAYS)](draw, copy, size)
        name = f"{path}.{number}"
        with open(name, "wb") as file:
            file.write(copy)
        comparison.damaged(name, tables, schema)
        os.remove(name)


def main(program, folder):
    comparison = Comparison(program)
    counts = comparison.counts
    for seed in range(DATABASES):
        path = os.path.join(folder, f"{seed}.db")
        tables = databases.make(seed, path)
        comparison.whole(path, tables)
        copies(comparison, seed, path, tables)
        os.remove(path)
    print(
        f"damaged copies {DATABASES * COPIES}: ok to both {counts['ok', True]}, damaged to both {counts['damage', False]},"
        f" to sqlite3 alone {counts['ok', False]}, to check alone {counts['damage', True]},"
        f" refused {counts['refused', True] + counts['refused', False]};"
        f" tables compared {counts['tables', True]} rows compared {counts['rows', True]}"
    )
    print(
        f"databases {DATABASES} checked {counts['checked']} closed tables {counts['closed']}"
        f" tables compared {counts['tables', False]} rows compared {counts['rows', False]} differences {counts['differences']}"
    )
    return 1 if counts["differences"] else 0


sys.exit(main(sys.argv[1], sys.argv[2]))
