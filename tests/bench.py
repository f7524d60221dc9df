#!/usr/bin/env python3
"""Times the program beside sqlite3 on the same rows, with its peak memory, by hand.

  bench.py [PROGRAM] [--rows N] [--numbers N] [--vectors N] [--fragments N] [--columns N] [--runs N] [--full]

PROGRAM is the one that the gate or `rt run` left where it is missing. Without more words the sizes are small, so
that it ends in a minute; `--full` takes those of the figures that are told of: 1,000,000 rows of three fields, as
many of one number, 100,000 vectors of 768 floats in four appends, 10,000 fragments of one row, 1,000 columns.
A size of 0 leaves its part out. Of times the best of the runs counts, 3 where nothing is said.

sqlite3 reads the lines into a table of as many columns with json_extract, and prints them with json_object: the
program of this name where there is one, and else the module of Python. Both write to files in one folder, and what
each prints is compared with what it was given. Peak memory is what Linux tells of the process while it runs, in
10^6 bytes.
"""
import argparse
import filecmp
import json
import os
import shutil
import sqlite3
import subprocess
import sys
import tempfile
import threading
import time

from stored import columns_listed, data_file, file_message, fragment, manifest, number_name, row_of

TOP = os.path.dirname(os.path.dirname(os.path.abspath(__file__)))
PROGRAM = os.path.join(TOP, "crates", "lance_cli", "out", "lance_cli")
FULL = {"rows": 1_000_000, "numbers": 1_000_000, "vectors": 100_000, "fragments": 10_000, "columns": 1_000}
SMALL = {"rows": 50_000, "numbers": 50_000, "vectors": 1_000, "fragments": 500, "columns": 100}


def field(name, type_, nullable=False, **more):
    return {"name": name, "nullable": nullable, "type": type_, **more}


ROWS = [field("id", "int64"), field("tags", "list", True, item=field("item", "int64", True)),
        field("note", "string", True)]
NUMBER = [field("x", "int64")]
VECTOR = [field("v", "fixed_size_list:float:768")]


def run(words, given=None, printed=None):
    """How many seconds a run takes, from a file to a file, and its peak memory."""
    peak, done = [0], threading.Event()

    def watch(path):
        while True:
            try:
                with open(path, encoding="ascii") as status:
                    sizes = [line for line in status if line.startswith("VmHWM")]
            except OSError:
                return
            for line in sizes:
                peak[0] = max(peak[0], int(line.split()[1]) * 1024)
            if done.wait(0.004):
                return

    with open(given or os.devnull, "rb") as source, open(printed or os.devnull, "wb") as sink:
        start = time.perf_counter()
        process = subprocess.Popen(words, stdin=source, stdout=sink)
        watcher = threading.Thread(target=watch, args=(f"/proc/{process.pid}/status",))
        watcher.start()
        status = process.wait()
        seconds = time.perf_counter() - start
    done.set()
    watcher.join()
    if status:
        sys.exit(f"{words}: status {status}")
    return seconds, peak[0]


def best(runs, action):
    """The least time and the greatest memory of some runs."""
    figures = [action() for _ in range(runs)]
    return min(seconds for seconds, _ in figures), max(peak for _, peak in figures)


def same(one, other):
    if not filecmp.cmp(one, other, shallow=False):
        sys.exit(f"{one} and {other} differ: the folder stays")


class Place:
    """A folder for one measurement, with the paths in it."""

    def __init__(self, program, folder, name):
        self.program, self.folder = program, os.path.join(folder, name)
        os.makedirs(self.folder)

    def at(self, name):
        return os.path.join(self.folder, name)

    def write(self, name, lines):
        with open(self.at(name), "w", encoding="utf-8") as file:
            file.writelines(lines)
        return self.at(name)

    def append(self, fields, given):
        """A new dataset of these fields, and the appends of these files."""
        shutil.rmtree(self.at("set"), ignore_errors=True)
        run([self.program, self.at("set"), "create", json.dumps(fields)])
        figures = [run([self.program, self.at("set"), "append"], path) for path in given]
        return sum(seconds for seconds, _ in figures), max(peak for _, peak in figures)

    def scan(self, *words):
        return run([self.program, self.at("set"), "scan", *words], None, self.at("printed"))


# ---- sqlite3

def extracts(fields, line):
    return ",".join(f"json_extract({line},'$.{one['name']}')" for one in fields)


def objects(fields):
    return "json_object(" + ",".join(
        f"'{one['name']}'," + (f"json({one['name']})" if one["type"] == "list" else one["name"])
        for one in fields) + ")"


def table(fields):
    return "create table t(" + ",".join(one["name"] for one in fields) + ")"


def sqlite_append(place, fields, given):
    base = place.at("base")
    if os.path.exists(base):
        os.remove(base)
    if shutil.which("sqlite3"):
        script = place.write("script", [
            table(fields) + ";\ncreate temp table lines(line text);\n.mode list\n.separator \"\\037\" \"\\n\"\n",
            f".import {given} lines\ninsert into t select {extracts(fields, 'line')} from lines;\n"])
        return run(["sqlite3", base], script)[0]
    start = time.perf_counter()
    with sqlite3.connect(base) as connection, open(given, encoding="utf-8") as lines:
        connection.execute(table(fields))
        connection.executemany(f"insert into t select {extracts(fields, '?1')}", ((line,) for line in lines))
    return time.perf_counter() - start


def sqlite_scan(place, fields):
    base, select = place.at("base"), f"select {objects(fields)} from t"
    if shutil.which("sqlite3"):
        return run(["sqlite3", base, select], None, place.at("selected"))[0]
    start = time.perf_counter()
    connection = sqlite3.connect(base)
    with open(place.at("selected"), "w", encoding="utf-8") as out:
        out.writelines(line + "\n" for (line,) in connection.execute(select))
    return time.perf_counter() - start


# ---- the parts

def report(what, size, seconds, peak, beside=None, parts=None):
    line = f"{what:<34} {seconds:8.2f} s {size / seconds / 1e6:8.1f} MB/s  {peak / 1e6:8.1f} MB"
    if parts:
        line += f"  {peak / parts:5.2f} times the input"
    if beside is not None:
        line += f"  sqlite3 {beside:8.2f} s  {seconds / beside:5.2f} times"
    print(line, flush=True)


def beside_sqlite(place, runs, name, fields, lines):
    given = place.write("given", lines)
    size = os.path.getsize(given)
    seconds, peak = best(runs, lambda: place.append(fields, [given]))
    theirs = min(sqlite_append(place, fields, given) for _ in range(runs))
    report(f"append, {name}", size, seconds, peak, theirs, size)
    seconds, peak = best(runs, place.scan)
    same(given, place.at("printed"))
    theirs = min(sqlite_scan(place, fields) for _ in range(runs))
    same(given, place.at("selected"))
    report(f"scan, {name}", size, seconds, peak, theirs)


def rows_lines(count):
    return ('{"id":%d,"tags":[%d,null,3],"note":"n%d"}\n' % (i, i % 10, i % 1000) for i in range(count))


def rows(place, runs, count):
    """Of a tenth as many rows too: what a scan holds is not to grow with them."""
    beside_sqlite(Place(place.program, place.folder, "tenth"), runs, f"{count // 10} rows", ROWS,
                  rows_lines(count // 10))
    beside_sqlite(place, runs, f"{count} rows", ROWS, rows_lines(count))


def numbers(place, runs, count):
    beside_sqlite(place, runs, f"{count} numbers", NUMBER, ('{"x":%d}\n' % (i * 7919) for i in range(count)))


def vectors(place, runs, count):
    line = '{"v":[' + ",".join('"%08x"' % (i * 2654435761 % (1 << 32)) for i in range(768)) + "]}\n"
    parts = [place.write(f"given{at}", (line.replace("0", "%x" % (i % 16)) for i in range(at, count, 4)))
             for at in range(4)]
    size = sum(map(os.path.getsize, parts))
    seconds, peak = best(runs, lambda: place.append(VECTOR, parts))
    report(f"append, {count} vectors in four", size, seconds, peak, None, max(map(os.path.getsize, parts)))
    seconds, peak = best(runs, place.scan)
    with open(place.at("given"), "wb") as whole:
        for part in parts:
            with open(part, "rb") as file:
                shutil.copyfileobj(file, whole)
    same(place.at("given"), place.at("printed"))
    report(f"scan, {count} vectors", size, seconds, peak)


def fragments(place, runs, most):
    """A folder that no append made: a file and a fragment a row."""
    for count in (most // 2, most):
        folder, listed = place.at("set"), []
        shutil.rmtree(folder, ignore_errors=True)
        os.makedirs(os.path.join(folder, "data"))
        os.makedirs(os.path.join(folder, "_versions"))
        lines = ['{"x":%d}\n' % i for i in range(count)]
        for i, line in enumerate(lines):
            name = number_name(i + 1)
            with open(os.path.join(folder, "data", name), "wb") as file:
                file.write(data_file(NUMBER, [row_of(NUMBER, line)]))
            listed.append(fragment(i, [file_message(name, *columns_listed(NUMBER))], 1))
        with open(os.path.join(folder, "_versions", "1.manifest"), "wb") as file:
            file.write(manifest(NUMBER, listed, 1, count - 1))
        given = place.write("given", lines)
        seconds, peak = best(runs, place.scan)
        same(given, place.at("printed"))
        report(f"scan, {count} fragments", os.path.getsize(given), seconds, peak)
        print(f"{'':<34} {seconds / count * 1e6:8.1f} microseconds a fragment")


def columns(place, runs, most):
    for count in (most // 2, most):
        fields = [field(f"c{i}", "int64", i % 2 == 0) for i in range(count)]
        lines = ("{" + ",".join(f'"c{i}":{row * i}' for i in range(count)) + "}\n" for row in range(100))
        given = place.write("given", lines)
        size = os.path.getsize(given)
        seconds, peak = best(runs, lambda: place.append(fields, [given]))
        report(f"append, 100 rows of {count} columns", size, seconds, peak, None, size)
        print(f"{'':<34} {seconds / count * 1e6:8.1f} microseconds a column")
        seconds, peak = best(runs, place.scan)
        same(given, place.at("printed"))
        report(f"scan, 100 rows of {count} columns", size, seconds, peak)
        print(f"{'':<34} {seconds / count * 1e6:8.1f} microseconds a column")


PARTS = {"rows": rows, "numbers": numbers, "vectors": vectors, "fragments": fragments, "columns": columns}


def main():
    words = argparse.ArgumentParser(description="Times the program beside sqlite3.")
    words.add_argument("program", nargs="?", default=PROGRAM)
    for name in PARTS:
        words.add_argument(f"--{name}", type=int)
    words.add_argument("--runs", type=int, default=3)
    words.add_argument("--full", action="store_true")
    given = words.parse_args()
    sizes = FULL if given.full else SMALL
    folder = tempfile.mkdtemp()
    for name, part in PARTS.items():
        asked = getattr(given, name)
        size = sizes[name] if asked is None else asked
        if size:
            part(Place(os.path.abspath(given.program), folder, name), given.runs, size)
            shutil.rmtree(os.path.join(folder, name))
    shutil.rmtree(folder)


if __name__ == "__main__":
    main()
