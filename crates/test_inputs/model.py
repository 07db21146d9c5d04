#!/usr/bin/env python3
"""What the cases of `data/` must print, worked out in Python alone.

    python3 crates/test_inputs/model.py            compares it with `stdout`
    python3 crates/test_inputs/model.py --write    writes `stdout`

The formats are those of docs/FORMATS.md. Nothing here was taken from the crates: TOML is read by Python's tomllib, and
facts are read by going down the grammar byte by byte.
"""

import os
import re
import struct
import sys
import tomllib

HERE = os.path.dirname(os.path.abspath(__file__))


class Refused(Exception):
    """A refusal, with its text."""


def content(name):
    raw = open(f"{HERE}/data/{name}", "rb").read()
    if not name.endswith(".hex"):
        return raw
    return bytes.fromhex("".join(line.split("#")[0] for line in raw.decode().split("\n")))


# Cases


class Case:
    def __init__(self, base, paragraph):
        self.name, *edits = paragraph.split("\n")
        self.input, self.look, self.accesses, self.entry = base, [], [], None
        for line in edits:
            word, _, rest = line.partition(" ")
            self.edit(word, rest)

    def edit(self, word, rest):
        hexadecimal = lambda text: [int(each, 16) for each in text.split()]
        number, _, text = rest.partition(" ")
        if word == "look":
            self.look += hexadecimal(rest)
        elif word == "access":
            self.accesses += hexadecimal(rest)
        elif word == "entry":
            self.entry = int(rest, 16)
        elif word in ("text", "part"):
            self.input += rest.encode() + (b"\n" if word == "text" else b"")
        elif word == "bytes":
            self.input += bytes(hexadecimal(rest))
        elif word == "file":
            self.input += content(rest)
        elif word in ("repeat", "lines"):
            end = "\n" if word == "lines" else ""
            self.input += "".join(text.replace("%", str(copy)) + end for copy in range(int(number))).encode()
        elif word == "set":
            new = bytes(hexadecimal(text))
            self.input = self.input[: int(number)] + new + self.input[int(number) + len(new) :]
        elif word == "twice":
            self.input = self.input[: int(text)] + self.input[int(number) :]
        elif word in ("line", "above"):
            lines = self.input.split(b"\n")
            at = int(number) - 1
            lines[at : at + (word == "line")] = [text.encode()]
            self.input = b"\n".join(lines)
        elif word == "cut":
            self.input = self.input[: int(rest)]
        elif word == "pad":
            self.input = self.input.ljust(int(rest), b"\0")
        elif word != "#":
            raise SystemExit(f"no edit is called {word}")


def shown(name):
    if len(name) > 40:
        return f"(a name of {len(name)} bytes)"
    try:
        return name.decode()
    except UnicodeDecodeError:
        return "(no text)"


# Images


class Image:
    """The fields of the System V ABI; the causes of refusal in their order."""

    def __init__(self, data):
        size = len(data)
        if size < 52:
            raise Refused(f"the file ends within its header, after {size} bytes")
        if data[:4] != b"\x7fELF":
            raise Refused("the file is no ELF file")
        if data[4] != 1:
            raise Refused(f"class {data[4]} is not 1, 32 bit")
        if data[5] != 1:
            raise Refused(f"byte order {data[5]} is not 1, little-endian")
        kind, machine, _, self.entry, phoff, shoff, _, _, phentsize, phnum, shentsize, shnum, _ = struct.unpack(
            "<HHIIIIIHHHHHH", data[16:52]
        )
        if kind != 2:
            raise Refused(f"type {kind} is not 2, an executable")
        if machine != 40:
            raise Refused(f"machine {machine} is not 40, ARM")
        loads = self.load_headers(data, phoff, phentsize, phnum)
        pairs = [
            (i, j)
            for i, (a, n) in loads.items()
            for j, (b, m) in loads.items()
            if i < j and set_meets(a, n, b, m)
        ]
        if pairs:
            raise Refused("program headers %d and %d overlap" % min(pairs))
        if self.entry & 1:
            raise Refused("the entry is Thumb code")
        self.symbols = self.symbol_table(data, shoff, shentsize, shnum) if shoff and shnum else []
        if size > 1 << 24:
            raise Refused(f"the file has {size} bytes, more than 16777216")

    def load_headers(self, data, phoff, phentsize, phnum):
        loads, self.segments = {}, []
        for index in range(phnum):
            at = phoff + 32 * index
            fault = Refused(f"program header {index} cannot be loaded")
            if phentsize != 32 or at + 32 > len(data):
                raise fault
            kind, offset, vaddr, _, filesz, memsz, flags, _ = struct.unpack("<8I", data[at : at + 32])
            if kind != 1:
                continue
            if offset + filesz > len(data) or filesz > memsz or vaddr + memsz > 1 << 32:
                raise fault
            loads[index] = (vaddr, memsz)
            if memsz:
                self.segments.append((vaddr, memsz, flags & 1, data[offset : offset + filesz]))
        return loads

    def symbol_table(self, data, shoff, shentsize, shnum):
        refusal = lambda index: Refused(f"section header {index} has no readable symbols")
        if shentsize != 40:
            raise refusal(0)
        headers = []
        for index in range(shnum):
            at = shoff + 40 * index
            if at + 40 > len(data):
                raise refusal(index)
            headers.append(struct.unpack("<10I", data[at : at + 40]))
        symbols = None
        for index, (_, kind, _, _, offset, size, link, _, _, entsize) in enumerate(headers):
            if kind != 2:
                continue
            if entsize != 16 or size % 16 or offset + size > len(data) or link >= shnum:
                raise refusal(index)
            start, room = headers[link][4:6]
            if start + room > len(data):
                raise refusal(index)
            strings = data[start : start + room]
            table = []
            for at in range(offset, offset + size, 16):
                name, value, _, info, _, section = struct.unpack("<IIIBBH", data[at : at + 16])
                end = strings.find(b"\0", name)
                if name >= room or end < 0:
                    raise refusal(index)
                if section:
                    table.append((strings[name:end], value, info >> 4 in (1, 2)))
            symbols = table if symbols is None else symbols
        return symbols or []

    def byte(self, addr):
        addr %= 1 << 32
        for first, size, _, kept in self.segments:
            if first <= addr < first + size:
                return (kept + b"\0")[min(addr - first, len(kept))]
        return None

    def lines(self, case):
        yield f"read, entry {self.entry:08x}"
        for first, size, code, kept in self.segments:
            yield f"  {'code' if code else 'data'} {first:08x}, {size} bytes, {len(kept)} of them in the file"
        for name, value, seen in self.symbols:
            yield f"  {'global' if seen else 'local'} {shown(name)} {value:08x}"
        for addr in case.look:
            word = [self.byte(addr + i) for i in range(4)]
            text = f"  at {addr:08x} " + ("nothing" if word[0] is None else f"byte {word[0]:02x}")
            if None not in word:
                text += f" word {int.from_bytes(bytes(word), 'little'):08x}"
            if any(code and first <= addr < first + size for first, size, code, _ in self.segments):
                text += " code"
            yield text


def set_meets(a, n, b, m):
    return n > 0 and m > 0 and a < b + m and b < a + n


# Machines

UNITS = ["latency", "occupancy", "slow"]
KEYS = (
    [((), k, span) for k, span in [("width", (1, 2)), ("queue", (1, 8)), ("horizon", (1, 4095)), ("states", (1, 64))]]
    + [(("fetch",), "hit", (1, 1000)), (("fetch",), "miss", (0, 1000))]
    + [(("cache",), "sets", (1, 1024)), (("cache",), "ways", (1, 16)), (("cache",), "line", (4, 256))]
    + [(("alu",), k, (1, 1000)) for k in UNITS[:2]]
    + [((u,), k, (0 if k == "slow" else 1, 1000)) for u in ("mul", "mem") for k in UNITS]
)
REGION = ["name", "first", "last", "slow"]
MESSAGES = {
    "Unknown": "the description has a key that is not known",
    "Missing": "a key of the description is missing",
    "Kind": "a key of the description holds a value of another kind",
}


def is_number(value):
    return type(value) is int


class Machine:
    def __init__(self, data):
        try:
            text = data.decode()
            for number in re.findall(r"= (-?\d{19,})\n", text):
                if not -(1 << 63) <= int(number) < 1 << 63:
                    raise ValueError(number)
            document = tomllib.loads(text.replace("\r\n", "\n"))
        except ValueError:
            raise Refused("the description is no TOML document")
        unknown = sorted(self.unknown_keys(document), key=str.encode)
        if unknown:
            raise Refused(f"{MESSAGES['Unknown']}: {shown(unknown[0].encode())}")
        faults = list(self.faults(document))
        for kind in ("Missing", "Kind", "Range"):
            for found, key, value in faults:
                if found == kind == "Range":
                    raise Refused(f"a number of the description, {value}, lies outside its range: {key}")
                if found == kind:
                    raise Refused(f"{MESSAGES[kind]}: {key}")
        self.document = document
        self.regions = document.get("region", [])
        pairs = [
            (i, j)
            for j, b in enumerate(self.regions)
            for i, a in enumerate(self.regions[:j])
            if a["first"] <= b["last"] and b["first"] <= a["last"]
        ]
        if pairs:
            raise Refused("the regions %d and %d have an address in common" % min(pairs))

    def unknown_keys(self, document):
        known = {}
        for table, key, _ in KEYS:
            known.setdefault(table, set()).add(key)
        for name, value in document.items():
            if name not in known[()] and (name,) not in known and name != "region":
                yield name
            if (name,) in known and isinstance(value, dict):
                yield from (f"{name}.{key}" for key in value if key not in known[(name,)])
            if name == "region" and isinstance(value, list):
                for index, region in enumerate(value):
                    if isinstance(region, dict):
                        yield from (f"region.{index}.{key}" for key in region if key not in REGION)

    def faults(self, document):
        """Each fault with its key and number, in the order of the keys."""
        refused = set()
        for table, key, (least, most) in KEYS:
            holder = document.get(table[0], {}) if table else document
            name = ".".join(table + (key,))
            if not isinstance(holder, dict):
                if table[0] not in refused:
                    yield "Kind", table[0], None
                refused.add(table[0])
            elif key not in holder:
                yield "Missing", name, None
            elif not is_number(holder[key]):
                yield "Kind", name, None
            else:
                value = holder[key]
                power = key in ("sets", "line") and (value < 1 or value & (value - 1))
                if not least <= value <= most or power:
                    yield "Range", name, value
        regions = document.get("region", [])
        if not isinstance(regions, list):
            yield "Kind", "region", None
            return
        if len(regions) > 64:
            yield "Range", "region", len(regions)
        for index, region in enumerate(regions):
            yield from self.region_faults(f"region.{index}", region)

    def region_faults(self, name, region):
        if not isinstance(region, dict):
            yield "Kind", name, None
            return
        first = region.get("first")
        kinds = {"name": str, "first": int, "last": int, "slow": bool}
        for key in REGION:
            if key not in region:
                yield "Missing", f"{name}.{key}", None
            elif type(region[key]) is not kinds[key]:
                yield "Kind", f"{name}.{key}", None
            elif kinds[key] is int:
                least = first if key == "last" and is_number(first) else 0
                if not least <= region[key] < 1 << 32:
                    yield "Range", f"{name}.{key}", region[key]

    def lines(self, case):
        d = self.document
        text = " ".join(f"{key} {d[key]}" for key in ("width", "queue", "horizon", "states"))
        groups = [("fetch", ["hit", "miss"]), ("cache", ["sets", "ways", "line"])] + [(u, UNITS) for u in ("alu", "mul", "mem")]
        yield "read"
        yield "  " + ", ".join([text] + [f"{name} " + " ".join(str(d[name].get(k, 0)) for k in keys) for name, keys in groups])
        for r in self.regions:
            yield f"  {'slow' if r['slow'] else 'fast'} {shown(r['name'].encode())} {r['first']:08x} to {r['last']:08x}"


# Facts

LETTERS = b"abcdefghijklmnopqrstuvwxyzABCDEFGHIJKLMNOPQRSTUVWXYZ0123456789_-.:"
INSIDE = {name: ["function", "loop", "multibranch", "multicall"] for name in ("flowfacts", "function", "loop")}
INSIDE |= {"multibranch": ["target"], "multicall": ["target"], "target": []}
ADDRESSED = ("loop", "multibranch", "multicall", "target")


class Reading:
    """Goes down the grammar; `at` is where no file can go on."""

    def __init__(self, data):
        self.data, self.at, self.elements = data, 0, []
        self.mark()
        self.skip(True)
        open_tags = [self.element(["flowfacts"])]
        while open_tags:
            if open_tags[-1]["closed"]:
                open_tags.pop()
                continue
            self.skip(False)
            self.need(b"<")
            if self.next() == ord("/"):
                self.at += 1
                self.need(open_tags[-1]["kind"].encode())
                while self.next() == 32:
                    self.at += 1
                self.need(b">")
                open_tags[-1]["closed"] = True
            else:
                open_tags.append(self.element(INSIDE[open_tags[-1]["kind"]], begun=True))
        self.skip(False)
        # A comment could follow.
        if self.next() == ord("<"):
            self.at += 1
        if self.at < len(data):
            self.fail()

    def fail(self):
        raise Refused(f"no facts file can begin with more than the first {self.at} bytes")

    def next(self):
        return self.data[self.at] if self.at < len(self.data) else None

    def need(self, text):
        for byte in text:
            if self.next() != byte:
                self.fail()
            self.at += 1

    def ahead(self, text):
        return self.data.startswith(text, self.at)

    def mark(self):
        if self.next() == 0xEF:
            self.need(b"\xef\xbb\xbf")

    def until(self, stop):
        """Goes behind the next place of a text, or fails at the end of the bytes."""
        found = self.data.find(stop, self.at)
        if found < 0:
            self.at = len(self.data)
            self.fail()
        self.at = found + len(stop)

    def skip(self, heading):
        """White space and comments, and one `<?xml .. ?>` where it may stand; stops before the `<` of a tag."""
        while True:
            while self.next() in (9, 10, 13, 32):
                self.at += 1
            if self.ahead(b"<!"):
                self.need(b"<!--")
                self.until(b"--")
                # What stands in a comment may end in one dash.
                if self.next() == ord("-"):
                    self.at += 1
                self.need(b">")
            elif heading and self.ahead(b"<?"):
                self.need(b"<?xml")
                self.until(b"?>")
                heading = False
            else:
                return

    def element(self, kinds, begun=False):
        if not begun:
            self.need(b"<")
        start = self.at - 1
        kind = self.word_of(kinds)
        attributes, closed = self.attributes()
        element = {"at": start, "kind": kind, "attributes": attributes, "closed": closed}
        self.elements.append(element)
        return element

    def word_of(self, words):
        """One of some words, none of which may go on: a byte at a time, as long as one of them does."""
        begun = ""
        while True:
            byte = self.next()
            longer = [word for word in words if byte is not None and word.startswith(begun + chr(byte))]
            if longer:
                begun += chr(byte)
                self.at += 1
            elif begun in words and byte in (32, ord("/"), ord(">")):
                return begun
            else:
                self.fail()

    def attributes(self):
        found = {}
        while True:
            spaces = 0
            while self.next() == 32:
                self.at, spaces = self.at + 1, spaces + 1
            if self.next() == ord("/"):
                self.at += 1
                self.need(b">")
                return found, True
            if self.next() == ord(">"):
                self.at += 1
                return found, False
            if not spaces:
                self.fail()
            start = self.at
            while self.next() is not None and self.next() in LETTERS:
                self.at += 1
            name = self.data[start : self.at]
            # The second of two equal names fails at the byte that ends it.
            if not name or name in found:
                self.fail()
            while self.next() == 32:
                self.at += 1
            self.need(b"=")
            while self.next() == 32:
                self.at += 1
            quote = self.next()
            if quote not in (34, 39):
                self.fail()
            start = self.at = self.at + 1
            while self.next() not in (None, quote, ord("<")):
                self.at += 1
            if self.next() != quote:
                self.fail()
            found[name] = self.data[start : self.at]
            self.at += 1


def numeral(text):
    """A decimal number, or `0x` and hexadecimal digits, up to 32 bits; None where it is none."""
    if re.fullmatch(rb"[0-9]+", text):
        value = int(text)
    elif re.fullmatch(rb"0x[0-9a-fA-F]+", text):
        value = int(text, 16)
    else:
        return None
    return value if value < 1 << 32 else None


class Facts:
    def __init__(self, data, symbols):
        table = {}
        for name, value, seen in sorted(symbols, key=lambda s: not s[2]):
            table.setdefault(name, value)
        self.facts = {"loop": {}, "multibranch": {}, "multicall": {}}
        targets = None
        for element in Reading(data).elements:
            kind, at = element["kind"], element["at"]
            if kind not in ADDRESSED:
                continue
            address, counts = self.judged(element, at, table)
            if kind == "target":
                targets.add(address)
            elif kind != "loop" or counts != (None, None):
                if address in self.facts[kind]:
                    raise Refused(f"two facts of one kind at address {address:08x}")
                targets = set()
                self.facts[kind][address] = counts if kind == "loop" else targets

    def judged(self, element, at, table):
        attributes = element["attributes"]
        values = {}
        for name in (b"address", b"offset", b"maxcount", b"totalcount"):
            text = attributes.get(name)
            if name.endswith(b"count") and (element["kind"] != "loop" or text == b"NOCOMP"):
                text = None
            values[name] = None if text is None else numeral(text)
            if text is not None and values[name] is None:
                raise Refused(f"the element at byte {at} has a wrong number")
        counts = (values[b"maxcount"], values[b"totalcount"])
        if values[b"address"] is not None:
            return values[b"address"], counts
        if b"label" not in attributes:
            raise Refused(f"the element at byte {at} has no address")
        offset = values[b"offset"] or 0
        if attributes[b"label"] not in table:
            raise Refused(f"the element at byte {at} has the label of no symbol")
        if table[attributes[b"label"]] + offset >= 1 << 32:
            raise Refused(f"the element at byte {at} has a wrong number")
        return table[attributes[b"label"]] + offset, counts

    def lines(self, case):
        yield "read"
        for address, (count, total) in sorted(self.facts["loop"].items()):
            # A total alone bounds each stay too.
            yield f"  loop {address:08x} maxcount {total if count is None else count}" + (
                "" if total is None else f" totalcount {total}"
            )
        for word, kind in (("branch", "multibranch"), ("call", "multicall")):
            for address, targets in sorted(self.facts[kind].items()):
                yield f"  {word} {address:08x} to" + "".join(f" {target:08x}" for target in sorted(targets))


# Starts

NUMBER = "(0|[1-9][0-9]*)"
FORMS = [
    ("reg", re.compile(f"reg {NUMBER} ([0-9a-f]{{8}})")),
    ("flags", re.compile("flags ([01])([01])([01])([01])")),
    ("fill", re.compile("fill ([0-9a-f]{2})")),
    ("byte", re.compile("byte ([0-9a-f]{8}) ([0-9a-f]{2})")),
    ("set", re.compile(f"set {NUMBER}((?: [0-9a-f]{{8}})*)")),
    ("end", re.compile("end")),
]
RANKS = [word for word, _ in FORMS]


class Start:
    def __init__(self, data, image, entry, machine):
        self.registers, self.flags, self.fill, self.bytes, self.sets = [0] * 15 + [entry], [], 0, {}, {}
        self.shape = machine.document["cache"]
        *lines, rest = data.decode("latin-1").split("\n")
        last = None
        for index, line in enumerate(lines):
            if last == ("end", 0):
                raise self.refusal(index)
            last = self.take(index, line, last, image)
        if rest or last != ("end", 0):
            raise self.refusal(len(lines))
        for number in sorted(self.sets):
            listed = self.sets[number]
            wrong = [line for line in listed if line % self.shape["sets"] != number]
            if wrong or len(listed) > self.shape["ways"] or len(set(listed)) < len(listed):
                raise Refused(f"the lines of set {number} are no list of lines of that set")

    def refusal(self, index):
        return Refused(f"no line of a start text at line {index + 1}")

    def take(self, index, line, last, image):
        """Takes a line over, and gives its place in the order."""
        if index == 0:
            if line != "wx-start 1":
                raise self.refusal(0)
            return ("start", 0)
        for word, form in FORMS:
            found = form.fullmatch(line)
            if found:
                break
        else:
            raise self.refusal(index)
        key = 0
        if word == "reg":
            key = int(found[1])
        elif word == "byte":
            key = int(found[1], 16)
        elif word == "set":
            key = int(found[1])
        rank = lambda place: (-1 if place[0] == "start" else RANKS.index(place[0]), place[1])
        bad = word == "reg" and key > 14 or word == "set" and key >= self.shape["sets"]
        bad = bad or word == "byte" and image.byte(key) is not None
        if bad or not rank(last) < rank((word, key)):
            raise self.refusal(index)
        if word == "reg":
            self.registers[key] = int(found[2], 16)
        elif word == "flags":
            self.flags = [name for name, flag in zip("nzcv", found.groups()) if flag == "1"]
        elif word == "fill":
            self.fill = int(found[1], 16)
        elif word == "byte":
            self.bytes[key] = int(found[2], 16)
        elif word == "set":
            self.sets[key] = [int(each, 16) for each in found[2].split()]
        return (word, key)

    def access(self, line):
        lines = self.sets.setdefault(line % self.shape["sets"], [])
        hit = line in lines
        if hit:
            lines.remove(line)
        lines.insert(0, line)
        del lines[self.shape["ways"] :]
        return "hit" if hit else "miss"

    def lines(self, case):
        yield "read"
        registers = [f"r{n} {value:08x}" for n, value in enumerate(self.registers) if value]
        yield "  " + " ".join(registers + self.flags)
        for addr in case.look:
            written = addr in self.bytes
            yield f"  at {addr:08x} {'byte' if written else 'fill'} {self.bytes.get(addr, self.fill):02x}"
        for line in case.accesses:
            yield f"  access {line:08x} {self.access(line)}"


def read(kind, case, image, machine):
    if kind == "image":
        return Image(case.input)
    if kind == "machine":
        return Machine(case.input)
    if kind == "facts":
        return Facts(case.input, image.symbols)
    return Start(case.input, image, image.entry if case.entry is None else case.entry, machine)


def answers():
    for line in content("index").decode().split("\n"):
        if not line or line.startswith("#"):
            continue
        kind, cases, base, image, machine = line.split()
        image, machine = Image(content(image)), Machine(content(machine))
        yield f"== {line}"
        for paragraph in content(cases).decode().strip("\n").split("\n\n"):
            if paragraph.startswith("#"):
                continue
            case = Case(content(base), paragraph)
            try:
                first, *others = read(kind, case, image, machine).lines(case)
            except Refused as refusal:
                first, others = f"refused, {refusal}", []
            yield f"{case.name}: {first}"
            yield from others


def main():
    text = "".join(f"{line}\n" for line in answers())
    path = f"{HERE}/stdout"
    if "--write" in sys.argv:
        open(path, "w").write(text)
    elif open(path).read() != text:
        sys.exit("stdout is not what the cases must print")


main()
