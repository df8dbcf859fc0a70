"""The program sqlite3: running it, and SQL that shows rows as `rows` prints them."""

import os
import subprocess

# Where a whole number in a REAL column is stored as one: in at most six bytes.
STORED_WHOLE = "BETWEEN -140737488355328 AND 140737488355327"


def ended(path, sql, options):
    """Runs SQL over a database."""
    words = ["sqlite3", "-batch", "-bail", *options, path]
    folder = os.path.dirname(path)
    return subprocess.run(words, input=sql.encode(), capture_output=True, env={**os.environ, "HOME": folder})


def run(path, sql, *options):
    """Runs SQL over a database; gives what is printed, or None where sqlite3 failed."""
    found = ended(path, sql, options)
    return found.stdout if found.returncode == 0 and not found.stderr else None


def all_output(path, sql, *options):
    """Runs SQL over a database; gives what is printed, and the messages where sqlite3 failed."""
    found = ended(path, sql, options)
    return found.stdout + found.stderr


def quoted(name):
    return '"' + name.replace('"', '""') + '"'


def is_real(declared):
    """Whether a column with this type has the affinity REAL."""
    text = declared.upper()
    earlier = ("INT", "CHAR", "CLOB", "TEXT", "BLOB")
    return not any(part in text for part in earlier) and any(part in text for part in ("REAL", "FLOA", "DOUB"))


def shown(column, declared):
    """SQL for a column's value in print; a whole number in a REAL column is shown as it is stored."""
    value = quoted(column)
    number = f"'r''' || lower(hex(ieee754_to_blob({value}))) || ''''"
    if is_real(declared):
        whole = f"CAST({value} AS INTEGER)"
        number = f"CASE WHEN {value} = {whole} AND {whole} {STORED_WHOLE} THEN {whole} ELSE {number} END"
    return (
        f"CASE typeof({value}) WHEN 'null' THEN 'NULL' WHEN 'integer' THEN {value}"
        f" WHEN 'text' THEN '''' || replace({value}, '''', '''''') || ''''"
        f" WHEN 'blob' THEN 'x''' || lower(hex({value})) || '''' ELSE {number} END"
    )


def text_of(path, table):
    """What `rows` is to print of an open table, or None where sqlite3 fails to read it."""
    columns = [shown(name, declared) for name, declared in table.columns]
    line = " || '|' || ".join(["rowid", *columns])
    # In hexadecimal digits, since a text may hold line feeds and zero bytes.
    found = run(path, f"SELECT hex({line}) FROM {quoted(table.name)} ORDER BY rowid;", "-readonly")
    if found is None:
        return None
    rows = [bytes.fromhex(row.decode()) for row in found.splitlines()]
    return b"".join(row + b"\n" for row in rows) + b"rows %d\n" % len(rows)
