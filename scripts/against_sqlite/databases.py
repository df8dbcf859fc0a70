"""Databases of many kinds, made by the program sqlite3. The same number gives the same SQL."""

import random
from typing import NamedTuple, Optional

import sqlite

PAGE_SIZES = [512, 1024, 2048, 4096, 8192, 16384, 32768, 65536]
# The greatest leaves 480 usable bytes of the smallest pages.
RESERVED = [0, 32, 0, 1, 0, 8]
LETTERS = ["a", "Z", "0", " ", "'", "''", '"', "|", ";", "\n", "\t", "\\", "é", "☃", "𝄞", "--", "x'"]
TYPES = [
    "", "INTEGER", "TEXT", "BLOB", "REAL", "NUMERIC", "int", "VARCHAR(20)", "DOUBLE PRECISION", "DECIMAL(10, -5)",
    "UNSIGNED BIG INT", "FLOAT(+3)", "NATIVE CHARACTER(70)", "[long] text", '"date"', "CLOB", "CHARINT",
]  # fmt: skip
KEYS = ["INTEGER PRIMARY KEY", "integer primary key asc", "INTEGER NOT NULL PRIMARY KEY", "Integer PRIMARY KEY NOT NULL"]
NAMES = ["t{}", "Two words {}", "it's {}", "naïve_{}", 'a"b{}', "select {}", "$x-{}"]
COLUMNS = ["c{}", "C_{}", "c {}", "née{}", "key {}", "it's {}", 'q"{}']


class Table(NamedTuple):
    """A table with its columns and their types, and the reason why it is closed, where it is."""

    name: str
    columns: list
    closed: Optional[int] = None


def spelled(draw, name):
    """A name in one of the spellings that SQL has for it."""
    ways = [sqlite.quoted(name), "'" + name.replace("'", "''") + "'", "`" + name + "`", "[" + name + "]"]
    return draw.choice(ways)


def number(draw):
    bits = draw.getrandbits(draw.choice([0, 1, 6, 7, 8, 15, 16, 23, 24, 31, 32, 47, 48, 62, 63]))
    return str(bits if draw.random() < 0.5 else -bits - 1)


def fraction(draw):
    some = [0.5, -0.0, 2.0, -7.0, 140737488355327.0, 140737488355328.0, -140737488355329.0, 1e18, 1e300, 5e-324]
    return repr(draw.choice(some + [draw.uniform(-1e6, 1e6)] * 10))


def text(draw, most=30):
    letters = "".join(draw.choice(LETTERS) for _ in range(draw.randrange(most)))
    return "'" + letters.replace("'", "''") + "'"


def blob(draw, length):
    return "x'" + draw.randbytes(length).hex() + "'"


def literal(draw):
    kind = draw.randrange(10)
    if kind < 4:
        return number(draw)
    if kind < 7:
        return text(draw)
    return [fraction(draw), blob(draw, draw.randrange(20)), "NULL"][kind - 7]


def rowids(draw, count):
    """Distinct rowids: one after the other, or anywhere in 64 bits."""
    if draw.random() < 0.4:
        first = draw.choice([1, -count, 2**63 - count, -(2**63)])
        return list(range(first, first + count))
    return list({int(number(draw)) for _ in range(count)})


def rows(draw, name, columns, ids):
    """SQL that puts a row into a table for each rowid."""
    listed = ", ".join(["rowid"] + [sqlite.quoted(column) for column, kind in columns if kind not in KEYS])
    found = []
    for rowid in ids:
        values = ", ".join([str(rowid)] + [literal(draw) for _, kind in columns if kind not in KEYS])
        found.append(f"INSERT INTO {sqlite.quoted(name)}({listed}) VALUES({values});")
    return found


def plain(draw, name, usable):
    """A table with columns of any type and values of any kind, changed here and there, with short records perhaps."""
    columns = [(draw.choice(COLUMNS).format(i), draw.choice(TYPES)) for i in range(draw.randrange(1, 8))]
    if draw.random() < 0.5:
        columns.insert(draw.randrange(len(columns) + 1), ("id", draw.choice(KEYS)))
    gap = draw.choice([" ", "\n  ", " /* a; 'comment */ ", " -- to the end\n "])
    listed = ("," + gap).join(f"{spelled(draw, column)} {kind}" for column, kind in columns)
    ids = rowids(draw, draw.choice([0, 1, 10, 80]))
    sql = [f"CREATE TABLE {spelled(draw, name)}{gap}({gap}{listed});", *rows(draw, name, columns, ids)]
    if draw.random() < 0.5:
        columns.append(("added", draw.choice(TYPES)))
        sql.append(f"ALTER TABLE {sqlite.quoted(name)} ADD COLUMN added {columns[-1][1]};")
        sql.append(f"DELETE FROM {sqlite.quoted(name)} WHERE rowid % 5 = 2;")
        sql.append(f"UPDATE {sqlite.quoted(name)} SET added = rowid WHERE rowid % 3 = 1;")
    if draw.random() < 0.2:
        sql.append(f"ALTER TABLE {sqlite.quoted(name)} RENAME TO {sqlite.quoted(name + ' new')};")
        name = name + " new"
    return sql, [Table(name, columns)]


def deep(draw, name, usable):
    """A tree of three or four levels where pages are small."""
    columns = [("id", KEYS[0]), ("v", "INTEGER"), ("t", "TEXT")]
    step = draw.choice([1, 1 << 20, 1 << 48, -3])
    count = max(2000, min(8000, 4000000 // usable))
    sql = [
        f"CREATE TABLE {sqlite.quoted(name)}(id INTEGER PRIMARY KEY, v INTEGER, t TEXT);",
        f"WITH RECURSIVE n(i) AS (SELECT 1 UNION ALL SELECT i + 1 FROM n WHERE i < {count})"
        f" INSERT INTO {sqlite.quoted(name)} SELECT i * {step}, i * 7919 % 1009, printf('%.*c', i % 120, 'x') FROM n;",
    ]
    if draw.random() < 0.5:
        sql.append(f"DELETE FROM {sqlite.quoted(name)} WHERE v < {draw.randrange(1009)} AND id % 4 > 0;")
    return sql, [Table(name, columns)]


def long(draw, name, usable):
    """Payloads about the lengths at which they need one more overflow page."""
    columns = [("id", KEYS[0]), ("b", "BLOB"), ("t", "TEXT")]
    sql = [f"CREATE TABLE {sqlite.quoted(name)}(id INTEGER PRIMARY KEY, b BLOB, t TEXT);"]
    for length in [usable - 40, usable + 20, 2 * usable - 50, 3 * usable, draw.randrange(200000)]:
        length = max(0, length + draw.randrange(-12, 13))
        sql.append(f"INSERT INTO {sqlite.quoted(name)}(b) VALUES({blob(draw, length)});")
        sql.append(f"INSERT INTO {sqlite.quoted(name)}(t) VALUES(replace(hex(zeroblob({length})), '00', 'é'));")
    sql.append(f"DELETE FROM {sqlite.quoted(name)} WHERE id = {draw.randrange(1, 11)};")
    return sql, [Table(name, columns)]


def freed(draw, name, usable):
    """Free pages: of a table that is dropped, and of rows that are deleted."""
    sql, _ = deep(draw, name + " gone", usable)
    kept, tables = long(draw, name, usable)
    emptied = [f"DELETE FROM {sqlite.quoted(name)};"] if draw.random() < 0.3 else []
    return sql + kept + [f"DROP TABLE {sqlite.quoted(name + ' gone')};", *emptied], tables


def many(draw, name, usable):
    """A schema of several pages, with a definition that needs an overflow page."""
    sql, tables = [], []
    for i in range(draw.choice([3, 25])):
        tables.append(Table(f"{name} {i}", [("a", ""), ("b", "REAL")]))
        comment = "/* " + "long " * draw.choice([0, 0, 5, usable // 2]) + "*/"
        sql.append(f"CREATE TABLE {sqlite.quoted(f'{name} {i}')}(a, b REAL {comment});")
        sql.append(f"INSERT INTO {sqlite.quoted(f'{name} {i}')} VALUES({i}, {i}.0), (x'', {i}.5);")
    return sql, tables


# Definitions and more SQL behind them, with the reason why the table is closed.
CLOSED = [
    (2, "(a TEXT PRIMARY KEY, b BLOB) WITHOUT ROWID", []),
    (2, "(a INTEGER PRIMARY KEY AUTOINCREMENT, b)", []),
    (2, "(a, b, c AS (a || b))", []),
    (2, "(a UNIQUE, b)", []),
    (2, "(a, b DEFAULT 5)", []),
    (2, "(a COLLATE NOCASE, b CHECK(b > a))", []),
    (2, "(a INT, b TEXT) STRICT", []),
    (2, "(a INT PRIMARY KEY, b)", []),
    (2, "(a INTEGER PRIMARY KEY DESC, b)", []),
    (3, "(a INTEGER PRIMARY KEY, b)", ["CREATE INDEX {index} ON {name}(b)"]),
    (3, "(a, b)", ["CREATE INDEX {index} ON {name}(b, a DESC) WHERE a > 0", "CREATE VIEW {view} AS SELECT a FROM {name}"]),
    (4, "(a INTEGER PRIMARY KEY, b)", ["CREATE TRIGGER {index} AFTER INSERT ON {name} BEGIN SELECT 1; END"]),
]  # fmt: skip


def shut(draw, name, usable):
    """A closed table of many rows."""
    reason, definition, more = draw.choice(CLOSED)
    words = {key: sqlite.quoted(name + part) for key, part in [("name", ""), ("index", " index"), ("view", " view")]}
    sql = [f"CREATE TABLE {words['name']}{definition};", *[part.format(**words) + ";" for part in more]]
    count = max(200, 400000 // usable)
    sql.append(
        f"WITH RECURSIVE n(i) AS (SELECT 1 UNION ALL SELECT i + 1 FROM n WHERE i < {count})"
        f" INSERT INTO {words['name']}(a, b) SELECT i, printf('%.*c', i % {draw.choice([10, 300])}, 'k') || i FROM n;"
    )
    tables = [Table(name, [], reason)]
    if "AUTOINCREMENT" in definition:
        tables.append(Table("sqlite_sequence", [], 1))
    if reason == 3:
        sql.append("ANALYZE;")
        tables.append(Table("sqlite_stat1", [], 1))
    return sql, tables


KINDS = [plain, deep, shut, long, plain, freed, many, shut]


def make(seed, path):
    """Makes the database of this number, and gives its tables."""
    draw = random.Random(seed)
    page_size, reserved = PAGE_SIZES[seed % 8], RESERVED[seed // 8 % 6]
    sql = [f".filectrl reserve_bytes {reserved}", f"PRAGMA page_size = {page_size};", "PRAGMA auto_vacuum = 0;"]
    sql += ["PRAGMA synchronous = OFF;", "BEGIN;", f"PRAGMA user_version = {seed + 1};"]
    tables = []
    kinds = [KINDS[(seed // 3 + i) % 8] for i in range(draw.randrange(5))]
    for place, kind in enumerate(kinds):
        name = draw.choice(NAMES).format(place)
        more, made = kind(draw, name, page_size - reserved)
        sql += more
        tables += [table for table in made if table not in tables]
    if sqlite.run(path, "\n".join([*sql, "COMMIT;"])) is None:
        raise SystemExit(f"sqlite3 did not make database {seed}")
    return tables
