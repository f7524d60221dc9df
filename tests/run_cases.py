#!/usr/bin/env python3
"""Runs the cases of tests/cases on real folders with the proved program.

A case is a text file. Each line begins with a word that says what it is:

  # TEXT           a remark
  let NAME BYTES   names bytes
  file PATH BYTES  a file to be there in the dataset's folder before the next run
  framed PATH BYTES  a manifest's object, of this message
  made PATH BYTES | BYTES | BYTES ..  a data file: what stands in front (the buffers), the descriptor, and the
                   metadata of each column, one behind the other; the tables and the footer come by themselves
  sized PATH N     a file of N zero bytes
  folder PATH      a folder to be there
  set PATH         the dataset's folder for the next runs, in place of `set`
  run WORDS        runs the program with the folder and these words, split as a shell splits them
  bare WORDS       runs the program with these words alone
  in TEXT          a line of the last run's input (`in-hex BYTES`: bytes of it, as they are; `in-times N
                   TEXT`: a text so often, without newlines; `in-each A B TEXT`: a line for each number from
                   A to B, which stands in place of each # of the text)
  out TEXT         a line that the last run has to print; what isn't named may not be printed (`out-each A B
                   TEXT`: as `in-each`; `out-hex BYTES`: bytes, as they are)
  err TEXT         the line that it has to print on standard error; `@` at its end is the marked place
  status N         its status, 0 where the line is missing
  to-full          its output goes to a device that is full
  from-folder      its input is a folder, which can't be read
  has PATH BYTES   a file that has to stand in the folder after it (`has-framed`, `has-made`: as above)
  holds N          how many files stand in the folder after it
  changed PATH AT HEX ..  writes the file that stands there again, as it was before any such line, with these
                   bytes at their places
  changes PATH AT HEX ..  does so with each of these bytes alone, one after another; each time `scan` has to
                   end with status 15 and to name the file
  fronts PATH BYTES  puts each front of these bytes but the whole as a file, one after another; each time
                   `scan` has to end with status 15 and to name the file

BYTES are hexadecimal digits, two a byte, with spaces where they please; `-` is no bytes. `"TEXT"` is a text's
bytes, `$NAME` are those that a `let` named, and `HEX*N` are the bytes N times. `[BYTES]` is their number, as a
varint, and the bytes: what stands behind a key of type 2. `{A B BYTES}` is the bytes for each number from A to B,
where `#` is the number, as a varint or in a text. `@` is no byte, and marks the place where it stands.

The program is the first argument, or the one that the gate or `rt run` left.
"""
import os
import re
import shlex
import struct
import subprocess
import sys
import tempfile

TOP = os.path.dirname(os.path.dirname(os.path.abspath(__file__)))
PROGRAM = os.path.join(TOP, "crates", "lance_cli", "out", "lance_cli")


def built():
    """The program, which is built where no run has left it."""
    if len(sys.argv) > 1:
        return os.path.abspath(sys.argv[1])
    if not os.path.exists(PROGRAM):
        crate = os.path.join(TOP, "crates", "lance_cli")
        with tempfile.TemporaryDirectory() as folder:
            subprocess.run(["rt", "run", "--", os.path.join(folder, "set")], cwd=crate,
                           stdout=subprocess.DEVNULL, stderr=subprocess.DEVNULL)
    return PROGRAM


class Run:
    """One run of the program, and what it has to do."""

    def __init__(self, words, with_folder):
        self.words, self.with_folder = words, with_folder
        self.input, self.out, self.err = b"", b"", b""
        self.status, self.full, self.from_folder = 0, False, False
        self.files, self.count = {}, None

    def faults(self, program, folder):
        words = [program] + ([folder] if self.with_folder else []) + self.words
        to = open("/dev/full", "wb") if self.full else subprocess.PIPE
        given = {"input": self.input}
        if self.from_folder:
            given = {"stdin": os.open(TOP, os.O_RDONLY)}
        done = subprocess.run(words, stdout=to, stderr=subprocess.PIPE, **given)
        if self.full:
            to.close()
        if self.from_folder:
            os.close(given["stdin"])
        said = [("status", self.status, done.returncode), ("err", self.err, done.stderr)]
        if not self.full:
            said.append(("out", self.out, done.stdout))
        if self.count is not None:
            held = sum(len(names) for _, _, names in os.walk(folder))
            said.append(("holds", self.count, held))
        for path, wanted in self.files.items():
            said.append((path, wanted, bytes_of(os.path.join(folder, path))))
        return [(what, wanted, got) for what, wanted, got in said if wanted != got]


def shown(wanted, got):
    """Both, or of long ones what follows from a little before their first difference on."""
    if isinstance(wanted, bytes) and isinstance(got, bytes) and max(len(wanted), len(got)) > 400:
        at = next((i for i, (a, b) in enumerate(zip(wanted, got)) if a != b), min(len(wanted), len(got)))
        at = max(0, at - 20)
        return f"from {at} on wanted {wanted[at:at + 200]!r}, got {got[at:at + 200]!r}"
    return f"wanted {wanted!r}, got {got!r}"


def bytes_of(path):
    try:
        with open(path, "rb") as file:
            return file.read()
    except OSError as error:
        return error.strerror


def put(folder, path, data):
    full = os.path.join(os.fsencode(folder), os.fsencode(path).replace(rb"\xff", b"\xff"))
    os.makedirs(os.path.dirname(full), exist_ok=True)
    with open(full, "wb") as file:
        file.write(data)


def hexes(text):
    return b"" if text == "-" else bytes.fromhex(text)


def varint(number):
    out = bytearray()
    while number >= 128:
        out.append(number % 128 + 128)
        number //= 128
    return bytes(out) + bytes([number])


EACH = re.compile(r"\{(\d+) (\d+) ([^}]*)\}")


def spread(found):
    """The bytes of a range of numbers, spelled one after another."""
    parts = found[3].split('"')
    return " ".join('"'.join(part.replace("#", str(number) if at % 2 else varint(number).hex())
                             for at, part in enumerate(parts))
                    for number in range(int(found[1]), int(found[2]) + 1))


TOKEN = re.compile(r'\s+|"([^"]*)"|\$(\w+)|([0-9a-fA-F]+)(?:\*(\d+))?|([\[\]@])')


def bytes_in(text, named):
    """The bytes that a text spells, and the place that it marks."""
    if text.strip() == "-":
        return b"", None
    text = EACH.sub(spread, text)
    # What is open, outermost first: its bytes, and the marked place in them.
    open_, at = [[bytearray(), None]], 0
    while at < len(text):
        found = TOKEN.match(text, at)
        if not found:
            raise ValueError(f"no bytes: {text[at:at + 40]}")
        at = found.end()
        quoted, name, digits, times, sign = found.groups()
        data = open_[-1][0]
        if quoted is not None:
            data += quoted.encode()
        elif name is not None:
            data += named[name]
        elif digits is not None:
            data += bytes.fromhex(digits) * int(times or 1)
        elif sign == "[":
            open_.append([bytearray(), None])
        elif sign == "@":
            open_[-1][1] = len(data)
        elif sign == "]":
            inner, mark = open_.pop()
            data = open_[-1][0]
            data += varint(len(inner))
            if mark is not None:
                open_[-1][1] = len(data) + mark
            data += inner
    (data, mark), = open_
    return bytes(data), mark


def framed_in(text, named):
    """The object of a manifest's message: its length, the message, and the place of the length, 0."""
    message, mark = bytes_in(text, named)
    return (struct.pack("<I", len(message)) + message + struct.pack("<QHH", 0, 0, 2) + b"LANC",
            None if mark is None else mark + 4)


def made_in(text, named):
    """A data file of what stands in front, the descriptor, and the metadata of each column."""
    data, mark, places = b"", None, []
    for part in text.split("|"):
        more, marked = bytes_in(part, named)
        if marked is not None:
            mark = len(data) + marked
        places.append((len(data), len(more)))
        data += more
    _, described, *columns = places
    first = columns[0][0] if columns else len(data)
    column_table = len(data)
    data += b"".join(struct.pack("<QQ", *column) for column in columns)
    global_table = len(data)
    data += struct.pack("<QQ", *described)
    data += struct.pack("<QQQIIHH", first, column_table, global_table, 1, len(columns), 2, 1) + b"LANC"
    return data, mark


SPELLINGS = {"file": bytes_in, "framed": framed_in, "made": made_in}


def numbered(text):
    """A line for each number of a range: the words are its ends and the text."""
    first, last, line = text.split(" ", 2)
    return "".join(line.replace("#", str(number)) + "\n" for number in range(int(first), int(last) + 1)).encode()


def pairs_of(words):
    """Places and the bytes that are written there."""
    return [(int(at), hexes(data)) for at, data in zip(words[::2], words[1::2], strict=True)]


def with_changes(data, pairs):
    data = bytearray(data)
    for at, part in pairs:
        data[at:at + len(part)] = part
    return bytes(data)


def faults_of_objects(program, folder, path, objects):
    """What goes wrong where these bytes of a file are scanned in turn, each with its name, as lines."""
    lines = []
    for name, data in objects:
        put(folder, path, data)
        done = subprocess.run([program, folder, "scan"], stdout=subprocess.PIPE, stderr=subprocess.PIPE)
        if done.returncode != 15 or done.stdout or not done.stderr.startswith(f"outside: {path}: ".encode()):
            lines.append(f"{name} of {path}: status {done.returncode}, {done.stdout + done.stderr!r}")
    return lines


def faults_of(path, program, place):
    """What goes wrong in a case, as lines."""
    lines, runs, folder, current, before = [], 0, os.path.join(place, "set"), None, {}
    named, mark = {}, None

    def finish():
        nonlocal current
        if current is not None:
            for what, wanted, got in current.faults(program, folder):
                lines.append(f"{os.path.basename(path)}: run {runs}: {what}: {shown(wanted, got)}")
        current = None

    with open(path, encoding="utf-8") as file:
        for line in file.read().split("\n"):
            word, _, rest = line.partition(" ")
            if word in ("run", "bare"):
                finish()
                runs += 1
                current = Run(shlex.split(rest), word == "run")
            elif word == "fronts":
                finish()
                name, _, data = rest.partition(" ")
                data, _ = bytes_in(data, named)
                runs += len(data)
                lines += faults_of_objects(program, folder, name,
                                           [(f"{n} bytes", data[:n]) for n in range(len(data))])
            elif word in ("changed", "changes"):
                finish()
                name, *words = rest.split()
                data = before.setdefault((folder, name), bytes_of(os.path.join(folder, name)))
                if isinstance(data, str):
                    lines.append(f"{os.path.basename(path)}: {name}: {data}")
                elif word == "changed":
                    put(folder, name, with_changes(data, pairs_of(words)))
                else:
                    runs += len(words) // 2
                    lines += faults_of_objects(program, folder, name,
                                               [(f"a change at {at}", with_changes(data, [(at, part)]))
                                                for at, part in pairs_of(words)])
            elif word == "let":
                name, _, data = rest.partition(" ")
                named[name], _ = bytes_in(data, named)
            elif word == "set":
                finish()
                folder = os.path.join(place, rest)
            elif word == "folder":
                finish()
                os.makedirs(os.path.join(folder, rest), exist_ok=True)
            elif word == "sized":
                finish()
                name, size = rest.split()
                before.pop((folder, name), None)
                put(folder, name, b"")
                os.truncate(os.path.join(folder, name), int(size))
            elif word in SPELLINGS:
                finish()
                name, _, data = rest.partition(" ")
                before.pop((folder, name), None)
                data, mark = SPELLINGS[word](data, named)
                put(folder, name, data)
            elif word == "in":
                current.input += rest.encode() + b"\n"
            elif word == "in-hex":
                current.input += bytes_in(rest, named)[0]
            elif word == "in-each":
                current.input += numbered(rest)
            elif word == "in-times":
                times, _, text = rest.partition(" ")
                current.input += text.encode() * int(times)
            elif word == "out":
                current.out += rest.encode() + b"\n"
            elif word == "out-each":
                current.out += numbered(rest)
            elif word == "out-hex":
                current.out += bytes_in(rest, named)[0]
            elif word == "err":
                current.err += (f"{rest[:-1]}{mark}" if rest.endswith("@") else rest).encode() + b"\n"
            elif word == "status":
                current.status = int(rest)
            elif word == "to-full":
                current.full = True
            elif word == "from-folder":
                current.from_folder = True
            elif word in ("has", "has-framed", "has-made"):
                name, _, data = rest.partition(" ")
                spelled = SPELLINGS[word[4:] or "file"]
                current.files[name], _ = spelled(data, named)
            elif word == "holds":
                current.count = int(rest)
            elif word not in ("#", ""):
                lines.append(f"{os.path.basename(path)}: no such line: {line}")
    finish()
    if runs == 0:
        lines.append(f"{os.path.basename(path)}: no run")
    return runs, lines


def main():
    program = built()
    folder = os.path.join(TOP, "tests", "cases")
    cases = sorted(name for name in os.listdir(folder) if name.endswith(".txt"))
    failed, runs = 0, 0
    for name in cases:
        with tempfile.TemporaryDirectory() as place:
            count, lines = faults_of(os.path.join(folder, name), program, place)
        runs += count
        failed += bool(lines)
        for line in lines:
            print(line)
    print(f"cases: {len(cases) - failed} passed, {failed} failed ({runs} runs)")
    return 1 if failed or not cases else 0


if __name__ == "__main__":
    sys.exit(main())
