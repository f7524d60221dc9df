#!/usr/bin/env python3
"""Compares the program with the formats as `stored.py` has them, on random schemas and rows, by hand.

  compare.py [PROGRAM [ROUNDS [SEED]]]

Each round makes a dataset of a random schema, appends random rows once to three times, and compares all stored
bytes, the lines that scans print (of each version, and of some columns), and the schema. It stops at the first
difference and leaves the folder.
"""
import json
import os
import random
import subprocess
import sys
import tempfile

from stored import WIDTHS, FLOATS, columns_listed, data_file, file_message, fragment, manifest, number_name, row_of

TOP = os.path.dirname(os.path.dirname(os.path.abspath(__file__)))
TEXTS = ["", "a", "\"\\\b\f\n\r\t\u0001\u001f/\u007f", "é€😀", "x" * 300, "null", " "]


def any_field(rng, name, depth):
    kinds = list(WIDTHS) + ["string", "binary", "vector"] + ["list", "struct"] * (8 if depth < 4 else 0)
    kind = rng.choice(kinds)
    field = {"name": name, "nullable": rng.random() < 0.5, "type": kind}
    if kind == "vector":
        inner = rng.choice([k for k in WIDTHS if k != "bool"])
        field["type"] = f"fixed_size_list:{inner}:{rng.choice([1, 2, 3, 40, 700])}"
    elif kind == "list":
        field["item"] = any_field(rng, rng.choice(["item", name, "é"]), depth + 1)
    elif kind == "struct":
        field["fields"] = [any_field(rng, f"{name}{at}", depth + 1) for at in range(rng.choice([1, 1, 2, 3]))]
    return field


def any_fixed(rng, kind):
    width = WIDTHS[kind]
    if kind == "bool":
        return rng.random() < 0.5
    if kind in FLOATS:
        return f"{rng.getrandbits(width):0{width // 4}x}"
    if kind.startswith("uint"):
        return rng.choice([0, (1 << width) - 1, rng.getrandbits(width)])
    low = -(1 << width - 1)
    return rng.choice([0, -1, low, -low - 1, low + rng.getrandbits(width)])


def any_value(rng, field, sparse):
    kind = field["type"]
    if field["nullable"] and rng.random() < sparse:
        return None
    if kind == "list":
        return [any_value(rng, field["item"], sparse) for _ in range(rng.choice([0, 0, 1, 2, 5]))]
    if kind == "struct":
        return {inner["name"]: any_value(rng, inner, sparse) for inner in field["fields"]}
    if kind == "string":
        return rng.choice(TEXTS)
    if kind == "binary":
        return rng.randbytes(rng.choice([0, 1, 5, 300])).hex()
    if kind.startswith("fixed_size_list:"):
        inner, count = kind.split(":", 1)[1].rsplit(":", 1)
        return [any_fixed(rng, inner) for _ in range(int(count))]
    return any_fixed(rng, kind)


def ordered(fields):
    """The schema as it is printed: keys in the order of their bytes."""
    return json.dumps(fields, sort_keys=True, separators=(",", ":"), ensure_ascii=False)


def line_of(row):
    return json.dumps(row, separators=(",", ":"), ensure_ascii=False)


class Differs(Exception):
    pass


def same(what, wanted, got):
    if wanted != got:
        at = next((i for i, (a, b) in enumerate(zip(wanted, got)) if a != b), min(len(wanted), len(got)))
        raise Differs(f"{what}: at {at}: wanted {wanted[at:at + 80]!r}.., got {got[at:at + 80]!r}..")


def run(program, folder, *words, given=b""):
    done = subprocess.run([program, folder, *words], input=given, capture_output=True)
    if done.returncode or done.stderr:
        raise Differs(f"{words}: status {done.returncode}, {done.stderr!r}")
    return done.stdout


def held(folder, name):
    with open(os.path.join(folder, name), "rb") as file:
        return file.read()


def one_round(program, folder, rng):
    fields = [any_field(rng, f"c{at}", 0) for at in range(rng.choice([1, 1, 2, 4]))]
    same("create", b"version 1\n", run(program, folder, "create", json.dumps(fields)))
    same("1.manifest", manifest(fields, [], 1), held(folder, "_versions/1.manifest"))
    same("schema", ordered(fields).encode() + b"\n", run(program, folder, "schema"))
    fragments, rows, version, ends = [], [], 1, [0, 0]
    for number in range(1, rng.choice([2, 3, 4])):
        sparse = rng.choice([0, 0.1, 0.5, 1])
        count = rng.choice([1, 1, 2, 7, 50])
        more = [{f["name"]: any_value(rng, f, sparse) for f in fields} for _ in range(count)]
        if rng.random() < 0.3:
            more = [more[0]] * count
        text = "".join(json.dumps(row, ensure_ascii=rng.random() < 0.5) + "\n" for row in more)
        version += 1
        same("append", f"version {version}\n".encode(), run(program, folder, "append", given=text.encode()))
        stored = [row_of(fields, line) for line in text.splitlines() if line]
        same(number_name(number), data_file(fields, stored), held(folder, f"data/{number_name(number)}"))
        fragments.append(fragment(number - 1, [file_message(number_name(number), *columns_listed(fields))], count))
        same(f"{version}.manifest", manifest(fields, fragments, version, number - 1),
             held(folder, f"_versions/{version}.manifest"))
        rows += more
        ends.append(len(rows))
    for at in range(1, version + 1):
        lines = "".join(line_of(row) + "\n" for row in rows[:ends[at]])
        same(f"scan --version {at}", lines.encode(), run(program, folder, "scan", "--version", str(at)))
    names = [f["name"] for f in fields]
    names = rng.sample(names, rng.randint(1, len(names)))
    lines = "".join(line_of({name: row[name] for name in names}) + "\n" for row in rows)
    same(f"scan --columns {names}", lines.encode(), run(program, folder, "scan", "--columns", ",".join(names)))
    return len(rows)


def main():
    program = sys.argv[1] if len(sys.argv) > 1 else os.path.join(TOP, "crates", "lance_cli", "out", "lance_cli")
    rounds = int(sys.argv[2]) if len(sys.argv) > 2 else 100
    seed = int(sys.argv[3]) if len(sys.argv) > 3 else 1
    total = 0
    for at in range(seed, seed + rounds):
        place = tempfile.mkdtemp()
        folder = os.path.join(place, "set")
        try:
            total += one_round(os.path.abspath(program), folder, random.Random(at))
        except Differs as error:
            sys.exit(f"seed {at}, in {folder}: {error}")
        subprocess.run(["rm", "-r", place], check=True)
    print(f"{rounds} rounds, {total} rows: the same")


if __name__ == "__main__":
    main()
