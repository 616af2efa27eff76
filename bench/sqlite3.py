"""What the archive takes over a database file, and what the program `sqlite3` takes for the statements alone.

    python3 -m bench.sqlite3 ARCHIVE FOLDER [--deliveries 10,1000,10000] [--uploads 1000]

ARCHIVE is the program, FOLDER a new folder to work in. It prints a table. What the archive takes is that of `serve` for a request,
and of `verdicts` for an opening; what `sqlite3` takes is told less a start of it that only opens the file. It does

    for a delivery the statements of one, in the one transaction that it has (the last tenth of so many is told)
    for a delivery of 4 MiB, one of ten, the adding of 64 pieces of 64 KiB, each in a transaction of its own, by Python's sqlite3
    for a run of so many uploads the changes of rows that the run made, taken from the two databases, in one transaction
    for a look-up the reading of the file's bytes
    for an opening the checks of the database and of its references, and the reading of all rows; the three digests of all
        bodies, by Python's hashlib, are added

`serve` binds before its archive is open, so it is asked once before it is measured. The journal is a write-ahead log, and each commit
is synced, as the archive's are."""
import hashlib
import os
import shutil
import sqlite3

from bench import measure, ways
from uploads import uploads

# The number of pieces of a body of 4 MiB, and the number of bytes of a piece.
PIECES, PIECE_SIZE = 64, 65_536

START = "PRAGMA journal_mode = wal;\nPRAGMA synchronous = full;\nPRAGMA foreign_keys = on;\n"


def alone(file, statements):
    """What sqlite3 takes over these statements, with its start."""
    with open(f"{file}.sql", "w", encoding="ascii") as it:
        it.write(START + "\n".join(statements) + "\n")
    taken, _ = measure.line(["sqlite3", "-bail", file, f".read {file}.sql"])
    return taken


def taken(file, statements):
    """What sqlite3 takes over these statements, less its start."""
    return alone(file, statements) - alone(file, ["SELECT 1;"])


def blob(value):
    return f"X'{value.hex()}'"


def literal(value):
    if value is None:
        return "NULL"
    if isinstance(value, bytes):
        return blob(value)
    return str(value) if isinstance(value, int) else "'" + value.replace("'", "''") + "'"


def delivery(number, name, body):
    """The statements of a delivery of a new body of one piece under a new name; `number` is the number of that name."""
    prints = {"size": str(len(body))} | {it: blob(hashlib.new(it, body).digest()) for it in ("md5", "sha1", "sha256")}
    same = " AND ".join(f"{column} = {cell}" for column, cell in prints.items())
    cells = ", ".join(prints.values())
    return "\n".join([
        "BEGIN;",
        f"SELECT rowid FROM bodies WHERE {same} ORDER BY rowid;",
        f"INSERT INTO bodies (size, md5, sha1, sha256) VALUES ({cells});",
        f"INSERT INTO pieces (body, number, bytes) VALUES ({number}, 1, {blob(body)});",
        f"SELECT rowid, id, name, body, moment FROM arrivals WHERE name = '{name}' AND body = {number} ORDER BY rowid;",
        f"INSERT INTO arrivals (name, body, moment) VALUES ('{name}', {number}, {number});",
        f"UPDATE wants SET here = 1 WHERE name = '{name}' AND {same};",
        "COMMIT;",
    ])


def change(held, table, columns, number, row):
    """The statement that makes a row what it is, if the old database had another row or none."""
    [old] = held.execute(f"SELECT * FROM old.{table} WHERE rowid = ?", (number,)).fetchall() or [None]
    if old is None:
        return f"INSERT INTO {table} VALUES ({', '.join(map(literal, row))});"
    news = [f"{column} = {literal(value)}" for column, value, before in zip(columns, row, old) if value != before]
    return f"UPDATE {table} SET {', '.join(news)} WHERE rowid = {number};"


def changes(before, after):
    """The statements that make of the rows of one database those of the other, in one transaction."""
    held = sqlite3.connect(after)
    held.execute("ATTACH ? AS old", (before,))
    statements = ["BEGIN;"]
    for (table,) in held.execute("SELECT name FROM sqlite_schema WHERE type = 'table' ORDER BY rowid").fetchall():
        columns = [row[1] for row in held.execute(f"PRAGMA table_info({table})")]
        gone = held.execute(f"SELECT rowid FROM old.{table} EXCEPT SELECT rowid FROM main.{table}").fetchall()
        here = held.execute(f"SELECT rowid, * FROM main.{table} EXCEPT SELECT rowid, * FROM old.{table} ORDER BY 1").fetchall()
        statements += [f"DELETE FROM {table} WHERE rowid = {number};" for (number,) in gone]
        statements += [change(held, table, columns, number, row) for number, *row in here]
    held.close()
    return statements + ["COMMIT;"]


def settled(way, file):
    """Ends the server, has the log beside its database copied into that, and copies the database to a file."""
    way.close()
    ways.Lines.opening(way)
    shutil.copyfile(way.db, file)


def checked(file):
    """What it takes to check a database, to read all its rows, and to digest all bodies."""
    held = sqlite3.connect(file)
    tables = [table for (table,) in held.execute("SELECT name FROM sqlite_schema WHERE type = 'table'")]
    held.close()
    read = [f"SELECT * FROM {table};" for table in tables]
    return taken(file, ["PRAGMA integrity_check;", "PRAGMA foreign_key_check;", *read]) + measure.digests(file)


def deliveries(way, folder, count):
    """What a delivery takes, for the last tenth of this number of deliveries, and then an opening."""
    bodies, last = uploads.small(count), -(-count // 10)
    paths = uploads.write(f"{folder}/files", bodies)
    way.make()
    settled(way, f"{folder}/alone.db")
    way.serve()
    way.idle()
    way.hand_in(paths[:-last])
    ours = way.hand_in(paths[-last:]) / last
    statements = [delivery(number, *it) for number, it in enumerate(bodies.items(), 1)]
    alone(f"{folder}/alone.db", statements[:-last])
    theirs = taken(f"{folder}/alone.db", statements[-last:]) / last
    yield f"a file of 4,096 bytes delivered, one of the last tenth of {count:,}", ours, theirs
    settled(way, f"{folder}/whole.db")
    yield f"an opening, with {count:,} files of 4,096 bytes", ways.Lines.opening(way), checked(f"{folder}/whole.db")


def commits(file):
    """What it takes to add the pieces of a body of 4 MiB, each in a transaction of its own, by Python's sqlite3."""
    held = sqlite3.connect(file, isolation_level=None)
    held.executescript(START)
    body = held.execute("INSERT INTO bodies (size) VALUES (NULL)").lastrowid
    with measure.taking() as parts:
        for number in range(1, PIECES + 1):
            held.execute("INSERT INTO pieces (body, number, bytes) VALUES (?, ?, ?)", (body, number, b"." * PIECE_SIZE))
    held.close()
    return parts[0]


def large(way, folder):
    """What a delivery of a file of 4 MiB takes, one of ten, and what as many commits take as it has pieces."""
    size = PIECES * PIECE_SIZE
    bodies = {f"large{number}_1.0-1_amd64.deb": bytes([number]) * size for number in range(10)}
    paths = uploads.write(f"{folder}/files", bodies)
    way.make()
    settled(way, f"{folder}/alone.db")
    way.serve()
    way.idle()
    ours = measure.mean([way.hand_in([path]) for path in paths])
    theirs = measure.mean([commits(f"{folder}/alone.db") for _ in paths])
    yield "a file of 4 MiB delivered; 64 commits of 64 KiB", ours, theirs


def run(way, folder, count):
    """What a run of this number of uploads takes."""
    given = uploads.make(f"{folder}/uploads", count)
    way.make()
    way.hand_in([path for paths in given for path in paths])
    settled(way, f"{folder}/before.db")
    way.serve()
    way.idle()
    ours = way.run(count)
    settled(way, f"{folder}/after.db")
    theirs = taken(f"{folder}/before.db", changes(f"{folder}/before.db", f"{folder}/after.db"))
    yield f"the run of {count:,} uploads", ours, theirs


def look_up(way, folder):
    """What a look-up of a file of 4 MiB takes, one of twenty."""
    paths = uploads.write(f"{folder}/large", uploads.upload_of(uploads.LARGE))
    path, size = ways.pool_path_of(paths[0]), os.path.getsize(paths[0])
    way.make()
    way.hand_in(paths)
    way.run(1)
    ours = measure.mean([way.look_up(path, size) for _ in range(20)])
    settled(way, f"{folder}/after.db")
    found = "SELECT p.rowid, p.body, p.number, p.bytes FROM files f JOIN pieces p ON p.body = f.body " \
        f"WHERE f.path = '{path}' ORDER BY p.rowid;"
    yield "a file of 4 MiB looked up", ours, taken(f"{folder}/after.db", [found] * 20) / 20


def rows(line):
    """What is done, what the archive takes, and what sqlite3 takes, each in a folder and an archive of its own."""
    tasks = [lambda way, folder, count=count: deliveries(way, folder, count) for count in line.deliveries]
    tasks += [large, lambda way, folder: run(way, folder, line.uploads), look_up]
    for number, task in enumerate(tasks):
        folder = f"{line.folder}/{number}"
        os.mkdir(folder)
        way = ways.Served(line.archive, folder)
        try:
            yield from task(way, folder)
        finally:
            way.close()


def main():
    words = measure.words(__doc__)
    words.add_argument("--deliveries", type=measure.numbers, default=[10, 1000, 10000])
    words.add_argument("--uploads", type=int, default=1000)
    line = words.parse_args()
    os.mkdir(line.folder)
    taken_by = [(what, [ours, theirs]) for what, ours, theirs in rows(line)]
    print(measure.heading())
    print(measure.table_of(["archive", "sqlite3"], taken_by))


if __name__ == "__main__":
    main()
