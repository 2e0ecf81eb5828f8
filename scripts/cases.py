"""Cases of the program as text: files of cases/, read into words, input and what has to come of them.

docs/CASES.md has the format. It asks no program: what is wanted stands in the files. Python 3.8, standard library."""
import re

ESCAPED = re.compile(rb"\\(x[0-9a-fA-F]{2}|.)", re.S)
PLAIN = {b"n": b"\n", b"r": b"\r", b"t": b"\t", b"\\": b"\\"}
BRACED = re.compile(r"\{([^{}]*)\}")
REPEATED = re.compile(r"(\d+)\*(.*)", re.S)
SUM = re.compile(r"(\d+)([+-])(\d+)")
SLICE = re.compile(r"([0-9a-f]*) (\d+)\.\.(\d+)")
WAYS = {"stdin": ("folder", "unread", "closed", "terminal", "bytewise"), "stdout": ("full", "closed", "gone", "bytewise"),
        "stderr": ("full", "gone", "bytewise")}
# ways after which a number of bytes stands
AFTER = {"stdin": ("fails", "interrupted"), "stdout": ("fails", "interrupted", "idle"), "stderr": ("fails", "interrupted", "idle")}


class Bad(Exception):
    """A file that has none of the forms."""


class Case:
    """The program's words and input, and what has to come of them."""

    def __init__(self, name, block, values):
        self.name = expanded(name, values)
        words = [] if block.words is None else expanded(block.words, values).split(" ")
        self.words = [b"" if word == "''" else bytes_of(word) for word in words]
        self.input = b"".join(bytes_of(expanded(text, values)) + end for text, end in block.input)
        self.output = b"".join(bytes_of(expanded(text, values)) + end for text, end in block.output)
        self.faults = b"".join(bytes_of(expanded(text, values)) + end for text, end in block.faults)
        self.status = block.status
        self.ways = {name: expanded(way, values) for name, way in block.ways.items()}
        # by stream the number of bytes after which a call fails, where one does
        self.after = {name: count_of(way) for name, way in self.ways.items() if " " in way}
        self.output, self.faults = self.output[:self.after.get("stdout")], self.faults[:self.after.get("stderr")]


def count_of(way):
    """The number of bytes that follows a way."""
    count = way.partition(" ")[2]
    if not count.isdigit():
        raise Bad("no number of bytes: %s" % way)
    return int(count)


class Block:
    """A case as it is written, for each row of its tables."""

    def __init__(self, name):
        self.name, self.words, self.status = name, None, 0
        self.input, self.output, self.faults, self.tables, self.ways = [], [], [], [], {}


def clear_packet(payload):
    """The clear packet of a payload, by RFC 4253 section 6: the least padding of at least four bytes, zeros."""
    padding = next(p for p in range(4, 12) if (5 + len(payload) + p) % 8 == 0 and 5 + len(payload) + p >= 16)
    return (1 + len(payload) + padding).to_bytes(4, "big") + bytes([padding]) + payload + bytes(padding)


def value_of(text, values):
    """What stands for the text in braces."""
    if text in values:
        return values[text]
    first, _, rest = text.partition(" ")
    found = REPEATED.fullmatch(text)
    if found:
        return int(found[1]) * found[2]
    found = SUM.fullmatch(text)
    if found:
        return str(int(found[1]) + int(found[3]) * (1 if found[2] == "+" else -1))
    found = SLICE.fullmatch(text)
    if found:
        return found[1][2 * int(found[2]):2 * int(found[3])]
    if first == "packet":
        return clear_packet(bytes.fromhex(rest)).hex()
    if first == "byte":
        return "%02x" % int(rest)
    raise Bad("nothing is {%s}" % text)


def expanded(text, values):
    """The text without braces: the innermost first, names before what is made of them."""
    for _ in range(100):
        found = BRACED.search(text)
        if not found:
            return text
        text = text[:found.start()] + value_of(named(found[1], values), values) + text[found.end():]
    raise Bad("no end of {%s}" % found[1])


def named(text, values):
    """The text with the value of its first word, where that is a name and others stand after it."""
    found = re.match(r"([a-z_]+)(?=[ +-])", text)
    if found and found[1] in values:
        return values[found[1]] + text[found.end():]
    return text


def bytes_of(text):
    """The bytes that the text spells with its escapes."""
    def byte(found):
        escape = found[1]
        if escape[:1] == b"x" and len(escape) == 3:
            return bytes([int(escape[1:], 16)])
        if escape not in PLAIN:
            raise Bad("no escape: \\%s" % escape.decode())
        return PLAIN[escape]
    raw = text.encode()
    if b"\\\\" not in raw:
        raw = raw.replace(b"\\n", b"\n")  # what long texts are made of, at once
    return ESCAPED.sub(byte, raw)


def numbers(fields):
    """The numbers from one to another, without those after `but`."""
    low, high, but = int(fields[0]), int(fields[1]), fields[2:]
    if but and but[0] != "but":
        raise Bad("no range")
    without = {int(n) for n in but[1:]}
    return [[str(n)] for n in range(low, high + 1) if n not in without]


class Reader:
    """The lines of a file."""

    def __init__(self):
        self.values, self.tables, self.blocks, self.table = {}, {}, [], None

    def line(self, line):
        if self.table is not None and line.startswith("| "):
            self.row(line[2:])
            return
        self.table = None
        if not line or line.startswith("#"):
            return
        key, _, rest = line.partition(" ")
        if key == "let":
            name, _, text = rest.partition(" ")
            self.values[name] = expanded(text, self.values)
        elif key == "table":
            name, *columns = rest.split()
            self.table = self.tables[name] = (columns, [])
        elif key == "range":
            name, column, *fields = rest.split()
            self.tables[name] = ([column], numbers(fields))
        elif key == "case":
            self.blocks.append(Block(rest))
        elif self.blocks:
            self.of_case(self.blocks[-1], key, rest)
        else:
            raise Bad("stands before the first case")

    def row(self, text):
        """A row of the table that is open; a | between two fields."""
        columns, rows = self.table
        fields = text.split("|")
        if len(fields) != len(columns):
            raise Bad("%d fields for %d columns" % (len(fields), len(columns)))
        rows.append(fields)

    def of_case(self, block, key, rest):
        parts = {"in": block.input, "out": block.output, "err": block.faults}
        if key in parts:
            parts[key].append((rest, b"\n"))
        elif key[:-1] in parts and key[-1] == "-":
            parts[key[:-1]].append((rest, b""))
        elif key == "words":
            block.words = rest
        elif key == "status":
            block.status = int(rest)
        elif key == "each":
            block.tables.append(self.tables[rest])
        elif rest in WAYS.get(key, ()) or " " in rest and rest.split(" ")[0] in AFTER.get(key, ()):
            block.ways[key] = rest
        else:
            raise Bad("no line of a case")

    def cases(self):
        """All cases: of each block one for each row of its tables, or each pair of rows of two."""
        return [Case(block.name, block, values) for block in self.blocks for values in rows_of(block.tables, self.values)]


def rows_of(tables, values):
    """The values with those of each row of the first table, and so on with the others."""
    if not tables:
        return [values]
    columns, rows = tables[0]
    return [found for row in rows for found in rows_of(tables[1:], {**values, **dict(zip(columns, row))})]


def read(path):
    """The cases of a file."""
    reader = Reader()
    with open(path, encoding="utf-8", newline="\n") as file:
        for number, line in enumerate(file.read().split("\n"), 1):
            try:
                reader.line(line)
            except (Bad, KeyError, ValueError, IndexError) as bad:
                raise Bad("%s line %d: %s" % (path, number, bad))
    return reader.cases()
