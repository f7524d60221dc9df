"""The stored formats once more, apart from the program: what docs/FORMAT.md says, from a schema and rows to bytes.

The bytes in tests/cases were made with it, `compare.py` holds the program against it, and `bench.py` writes
folders with it. A schema is the program's JSON, loaded; a row is the list of its values, where a null is None,
a fixed value, a text and a binary value are their bytes, a list is a list of its items, and a struct the list
of its members' values.
"""
import json
import struct

WIDTHS = {"bool": 1, "int8": 8, "uint8": 8, "int16": 16, "uint16": 16, "halffloat": 16, "int32": 32,
          "uint32": 32, "float": 32, "date32:day": 32, "int64": 64, "uint64": 64, "double": 64}
FLOATS = ("halffloat", "float", "double")


# ---- messages

def varint(number):
    number %= 1 << 64
    out = bytearray()
    while number >= 128:
        out.append(number % 128 + 128)
        number //= 128
    return bytes(out) + bytes([number])


def present(field, number):
    """A field of type 0, zero or not."""
    return varint(field * 8) + varint(number)


def num(field, number):
    return present(field, number) if number else b""


def part(field, data):
    """A field of type 2, empty or not."""
    return varint(field * 8 + 2) + varint(len(data)) + data


def packed(field, numbers):
    return part(field, b"".join(map(varint, numbers))) if numbers else b""


def field_messages(fields, number, parent=-1, ids=None):
    """A Field message for each field, depth first, each under this number; ids from 0 in that order."""
    ids = [0] if ids is None else ids
    out = b""
    for field in fields:
        own = ids[0]
        ids[0] += 1
        inner = fields_in(field)
        kind = {"struct": 0, "list": 1}.get(field["type"], 2)
        logical = field["type"]
        if logical == "list" and inner[0]["type"] == "struct":
            logical = "list.struct"
        out += part(number, num(1, kind) + part(2, field["name"].encode()) + num(3, own) + num(4, parent)
                    + part(5, logical.encode()) + num(6, field["nullable"]))
        out += field_messages(inner, number, own, ids)
    return out


def fields_in(field):
    return field.get("fields") or ([field["item"]] if "item" in field else [])


# ---- leaves, and their slots

class Leaf:
    """A leaf: its id, its type, and its layers from the outermost inward, each a kind and whether it's nullable."""

    def __init__(self, number, type_, layers, way):
        self.id, self.type, self.layers, self.way = number, type_, layers, way
        self.lists = sum(kind == "list" for kind, _ in layers)
        self.codes = [{"list": 6 if null else 5}.get(kind, 3 if null else 1) for kind, null in reversed(layers)]
        # The number of each state, from the innermost layer outward, null before empty.
        self.numbers, last = {}, 0
        for at, code in enumerate(self.codes):
            for state in {3: ["null"], 4: ["null"], 5: ["empty"], 6: ["null", "empty"]}.get(code, []):
                last += 1
                self.numbers[state, at] = last
        self.bits_rep, self.bits_def = self.lists.bit_length(), last.bit_length()
        self.bits = bits_of(type_)

    def bare(self, state):
        """Whether a slot has no value: its layer is a list's, or has one between it and the leaf."""
        if state is None:
            return False
        inner = list(reversed(self.layers))[:state[1] + 1]
        return any(kind == "list" for kind, _ in inner)

    def slots(self, row):
        """The slots of a row: a repetition number, a state (None where the value is there), and the value."""
        return list(self.of_value(row[self.way[0]], 0, self.lists, 1))

    def of_value(self, value, layer, repetition, way):
        kind, _ = self.layers[layer]
        depth = len(self.layers) - 1 - layer
        if value is None:
            yield repetition, ("null", depth), b""
        elif kind == "struct":
            yield from self.of_value(value[self.way[way]], layer + 1, repetition, way + 1)
        elif kind == "list":
            if not value:
                yield repetition, ("empty", depth), b""
            again = sum(kind == "list" for kind, _ in self.layers[layer:]) - 1
            for at, item in enumerate(value):
                yield from self.of_value(item, layer + 1, again if at else repetition, way)
        else:
            yield repetition, None, value

    def stored(self, state, value):
        """The bytes of a slot's value, where it isn't bare: blank ones for a null."""
        if state is not None and self.bits is not None:
            return bytes((self.bits + 7) // 8)
        return value


def bits_of(type_):
    if type_.startswith("fixed_size_list:"):
        _, rest = type_.split(":", 1)
        inner, count = rest.rsplit(":", 1)
        return WIDTHS[inner] * int(count)
    return WIDTHS.get(type_)


def leaves(fields):
    found, ids = [], [0]

    def walk(field, layers, way):
        own = ids[0]
        ids[0] += 1
        if field["type"] == "struct":
            for at, inner in enumerate(field["fields"]):
                walk(inner, layers + [("struct", field["nullable"])], way + [at])
        elif field["type"] == "list":
            walk(field["item"], layers + [("list", field["nullable"])], way)
        else:
            found.append(Leaf(own, field["type"], layers + [("item", field["nullable"])], way))

    for at, field in enumerate(fields):
        walk(field, [], [at])
    return found


# ---- pages

def pages_of(leaf, rows):
    """The pages of the rows by the writer's rule: rows, layout and buffers of each."""
    pages, at = [], 0
    while at < len(rows):
        slots, size, first = [], 0, at
        while at < len(rows) and len(slots) < 32768 and size < 1 << 20:
            for rep, state, value in leaf.slots(rows[at]):
                slots.append((rep, state, value))
                size += 0 if leaf.bare(state) else len(leaf.stored(state, value))
            at += 1
        pages.append((at - first, *page_of(leaf, slots)))
    return pages


def page_of(leaf, slots):
    head = packed(1, leaf.codes) + num(2, len(slots))
    if not leaf.lists:
        states = {state for _, state, _ in slots}
        values = {value for _, _, value in slots}
        if states == {("null", 0)}:
            return part(2, head), []
        if states == {None} and len(values) == 1 and len(slots[0][2]) <= 256:
            return part(2, head + part(3, slots[0][2])), []
    word = (leaf.bits_rep + leaf.bits_def + 7) // 8
    content, places = bytearray(), []
    for rep, state, value in slots:
        if rep == leaf.lists:
            places.append(len(content))
        number = rep << leaf.bits_def | (leaf.numbers[state] if state else 0)
        content += number.to_bytes(word, "little")
        if not leaf.bare(state):
            value = leaf.stored(state, value)
            content += (struct.pack("<I", len(value)) if leaf.bits is None else b"") + value
    kind = part(2, b"") if leaf.bits is None else part(1, num(1, leaf.bits))
    layout = part(3, head + part(3, kind) + num(4, leaf.bits_rep) + num(5, leaf.bits_def))
    if leaf.bits is not None and not leaf.lists:
        return layout, [bytes(content)]
    return layout, [bytes(content), struct.pack(f"<{len(places) + 1}Q", *places, len(content))]


# ---- objects

def data_file(fields, rows):
    out, columns = bytearray(), []

    def align():
        out.extend(bytes(-len(out) % 64))

    for leaf in leaves(fields):
        message, before = b"", 0
        for count, layout, buffers in pages_of(leaf, rows):
            places = []
            for buffer in buffers:
                align()
                places.append(len(out))
                out.extend(buffer)
            message += part(2, packed(1, places) + packed(2, [len(b) for b in buffers]) + num(3, count)
                            + part(4, part(2, part(1, layout))) + num(5, before))
            before += count
        columns.append(message)
    align()
    descriptor = part(1, field_messages(fields, 1)) + num(2, len(rows))
    described = len(out)
    out += descriptor
    metadata = len(out)
    table, place = b"", metadata
    for message in columns:
        table += struct.pack("<QQ", place, len(message))
        place += len(message)
    out += b"".join(columns)
    columns_table = len(out)
    out += table
    globals_table = len(out)
    out += struct.pack("<QQ", described, len(descriptor))
    out += struct.pack("<QQQIIHH4s", metadata, columns_table, globals_table, 1, len(columns), 2, 1, b"LANC")
    return bytes(out)


def columns_listed(fields):
    """The ids and column numbers that a file of these fields lists, depth first; a field with fields in it has -1."""
    ids, columns, at = [], [], [0, 0]

    def walk(field):
        ids.append(at[0])
        at[0] += 1
        inner = fields_in(field)
        columns.append(-1 if inner else at[1])
        at[1] += not inner
        for one in inner:
            walk(one)

    for field in fields:
        walk(field)
    return ids, columns


def file_message(path, ids, columns, version=(2, 1)):
    return part(2, part(1, path.encode()) + packed(2, ids) + packed(3, columns) + num(4, version[0])
                + num(5, version[1]))


def fragment(number, files, rows):
    return part(2, num(1, number) + b"".join(files) + num(4, rows))


def framed(message, before=b"", behind=b""):
    return (before + struct.pack("<I", len(message)) + message + behind
            + struct.pack("<QHH4s", len(before), 0, 2, b"LANC"))


def manifest(fields, fragments, version, greatest=None):
    """The object of a version; fragments are messages."""
    return framed(field_messages(fields, 1) + b"".join(fragments) + num(3, version)
                  + (b"" if greatest is None else present(11, greatest)))


def number_name(number):
    return f"{number:020}.lance"


# ---- rows in JSON

def value_of(field, value):
    """The stored value of a JSON value that fits."""
    kind = field["type"]
    if value is None:
        return None
    if kind == "list":
        return [value_of(field["item"], item) for item in value]
    if kind == "struct":
        return [value_of(inner, value.get(inner["name"])) for inner in field["fields"]]
    if kind == "string":
        return value.encode()
    if kind == "binary":
        return bytes.fromhex(value)
    if kind.startswith("fixed_size_list:"):
        inner = kind.split(":", 1)[1].rsplit(":", 1)[0]
        return b"".join(fixed(inner, item) for item in value)
    return fixed(kind, value)


def fixed(kind, value):
    if kind in FLOATS:
        return bytes.fromhex(value)[::-1]
    return (int(value) % (1 << WIDTHS[kind])).to_bytes((WIDTHS[kind] + 7) // 8, "little")


def row_of(fields, line):
    row = json.loads(line)
    return [value_of(field, row.get(field["name"])) for field in fields]
