"""Lets the program put databases into server form and back, and looks at each stage with sqlite3."""

import os
import subprocess
import sys
from collections import Counter

sys.path.insert(0, os.path.join(os.path.dirname(os.path.abspath(__file__)), "..", "against_sqlite"))
import databases  # noqa: E402
import server_form  # noqa: E402
import sqlite  # noqa: E402

DATABASES = 100


class Walk:
    """What was tried so far with a program."""

    def __init__(self, program):
        self.program = program
        self.counts = Counter()

    def run(self, *words):
        ended = subprocess.run([self.program, *words], capture_output=True, timeout=120)
        return ended.returncode, ended.stdout

    def same(self, name, what, expected, found):
        self.counts["compared"] += 1
        if expected != found:
            self.counts["differences"] += 1
            print(f"{name}: {what}: expected {expected!r:.300}, found {found!r:.300}")

    def rows(self, path, tables, what, wanted):
        for table in tables:
            if not table.closed:
                self.same(path, f"rows of {table.name}, {what}", (0, wanted[table.name]), self.run("rows", path, table.name))

    def prepare(self, path, lists):
        """Puts the file into server form; gives how many pages there are then and how many are free."""
        with open(path, "rb") as file:
            data, pages, free = server_form.prepare(file.read(), lists)
        line = b"prepared lists %d pages %d\n" % (lists, pages)
        self.same(path, "prepare", (0, line), self.run("prepare", path, str(lists)))
        with open(path, "rb") as file:
            self.same(path, "bytes in server form", True, file.read() == data)
        self.same(path, "prepare again", (2, b"refused prepared\n"), self.run("prepare", path, str(lists)))
        return pages, free

    def release(self, path, pages, free):
        status, verdict = self.run("check", path)
        # The node page is not counted among the free ones.
        self.same(path, "check", (0, b"free %d" % (free - 1)), (status, b" ".join(verdict.split()[-2:])))
        line = b"released free %d pages %d\n" % (free, pages)
        self.same(path, "release", (0, line), self.run("release", path))
        self.same(path, "a journal is left", False, os.path.exists(path + "-journal"))
        self.same(path, "release again", (2, b"refused not-prepared\n"), self.run("release", path))

    def stock(self, path, tables, free, wanted):
        """The released file in sqlite3, which goes on inserting into it."""
        self.same(path, "integrity_check", b"ok\n", sqlite.run(path, "PRAGMA integrity_check;"))
        self.same(path, "free pages", b"%d\n" % free, sqlite.run(path, "PRAGMA freelist_count;"))
        for table in tables:
            if not table.closed:
                self.same(path, f"sqlite3's rows of {table.name}", wanted[table.name], sqlite.text_of(path, table))
        more = "CREATE TABLE later(a, b); WITH RECURSIVE n(i) AS (SELECT 1 UNION ALL SELECT i + 1 FROM n WHERE i < 300)"
        sqlite.run(path, more + " INSERT INTO later SELECT i, printf('%.*c', i % 900, 'x') FROM n;")
        self.same(path, "integrity_check after more rows", b"ok\n", sqlite.run(path, "PRAGMA integrity_check;"))
        self.same(path, "rows after more rows", b"300\n", sqlite.run(path, "SELECT count(*) FROM later;"))

    def full(self, path):
        """A file that lacks two pages to 2^30 bytes, and has no free page: there is room for one list, and not for two."""
        rows = "WITH RECURSIVE n(i) AS (SELECT 1 UNION ALL SELECT i + 1 FROM n WHERE i < %d) INSERT INTO t(b) SELECT zeroblob(60000) FROM n;"
        make = "PRAGMA page_size = 65536; PRAGMA synchronous = OFF; CREATE TABLE t(id INTEGER PRIMARY KEY, b BLOB);"
        sqlite.run(path, make + rows % 16000)
        pages = int(sqlite.run(path, "PRAGMA page_count;"))
        sqlite.run(path, rows % (16382 - pages))
        self.same(path, "pages", b"16382\n", sqlite.run(path, "PRAGMA page_count;"))
        self.same(path, "two lists", (2, b"refused full 16382\n"), self.run("prepare", path, "2"))
        self.same(path, "one list", (0, b"prepared lists 1 pages 16384\n"), self.run("prepare", path, "1"))

    def walk(self, seed, path):
        tables = databases.make(seed, path)
        if not os.path.getsize(path):
            return
        wanted = {t.name: sqlite.text_of(path, t) for t in tables if not t.closed}
        pages, free = self.prepare(path, seed % 16 + 1)
        self.rows(path, tables, "in server form", wanted)
        self.release(path, pages, free)
        self.rows(path, tables, "released", wanted)
        self.stock(path, tables, free, wanted)
        self.counts["released"] += 1


def main(program, folder):
    walk = Walk(program)
    for seed in range(DATABASES):
        path = os.path.join(folder, f"{seed}.db")
        walk.walk(seed, path)
        os.remove(path)
    walk.full(os.path.join(folder, "full.db"))
    counts = walk.counts
    print(f"databases {counts['released']} comparisons {counts['compared']} differences {counts['differences']}")
    return 1 if counts["differences"] else 0


sys.exit(main(sys.argv[1], sys.argv[2]))
