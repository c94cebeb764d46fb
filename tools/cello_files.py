"""Reads what the program writes into numpy arrays, and says by name what is wrong with a file.

    fields = cello_files.read_fields("field-0010.bin")
    fields.places      leaves as rows of level, x, y, z
    fields.amounts     amounts, [leaf, field, z, y, x]
    fields.totals()    the total of each field
    fields.sample(0, 2)    field 0 as one array of level 2 over the domain, [z, y, x]

`read_mesh`, `read_checkpoint` and `read_report` read the other files, as docs/FORMATS.md has them. Each raises `Fault`,
whose text begins with the file's name. From the command line it tells of each file that is named what it holds:

    python3 tools/cello_files.py field-0010.bin mesh-0010.txt state-0010.cello report.txt
"""

import os
import re
import sys
from dataclasses import dataclass, field

try:
    import numpy
except ImportError:
    sys.exit("numpy is missing: apt-get install python3-numpy")

MOST_LEVELS = 6
MOST_TREES = 16
MOST_LEAVES = 8192
MOST_FIELDS = 4
MOST_CYCLES = 4096
LONGEST_TEXT = 65536
EDGES = range(4, 17, 2)


class Fault(Exception):
    """What is wrong with a file."""


def _demand(holds, path, what):
    if not holds:
        raise Fault(f"{path}: {what}")


# ---- places


def unpack(words, path):
    """Places as rows of level, x, y, z, from words of 64 bits: the level from bit 48 on, then z, y and x."""
    words = numpy.asarray(words, dtype=numpy.uint64)
    shifts = numpy.array([48, 0, 16, 32], dtype=numpy.uint64)
    places = ((words[:, None] >> shifts) & numpy.uint64(0xFFFF)).astype(numpy.int64)
    wrong = numpy.flatnonzero((places[:, 0] > MOST_LEVELS) | (words >> numpy.uint64(64 - 13) != 0))
    _demand(len(wrong) == 0, path, f"the word of leaf {wrong[0] if len(wrong) else 0} is no place")
    return places


def trees_of(places):
    """How many trees stand along x, y and z: the leaves reach to the last one."""
    ends = (places[:, 1:] + 1 + (1 << places[:, :1]) - 1) >> places[:, :1]
    return ends.max(axis=0)


def _check_places(places, path):
    _demand(len(places) > 0, path, "it has no leaf")
    _demand((places[:, 0] <= MOST_LEVELS).all(), path, f"a leaf is above level {MOST_LEVELS}")
    trees = trees_of(places)
    _demand((trees <= MOST_TREES).all(), path, f"more than {MOST_TREES} trees stand along an axis")
    finest = int(places[:, 0].max())
    volume = (1 << (3 * (finest - places[:, 0]))).sum()
    _demand(volume == int(trees.prod()) << (3 * finest), path, "the leaves don't fill the domain")


@dataclass
class Mesh:
    """The leaves of a mesh, in order: rows of level, x, y, z."""

    places: numpy.ndarray


def _read_leaf_lines(lines, path):
    """The leaves of `mesh N` and the N lines after it, and the lines that are left."""
    _demand(lines and re.fullmatch(r"mesh \d+", lines[0]), path, "the line 'mesh N' is missing")
    count = int(lines[0].split()[1])
    rows = lines[1:count + 1]
    _demand(len(rows) == count, path, f"it has {len(rows)} of {count} leaves")
    for number, row in enumerate(rows):
        _demand(re.fullmatch(r"\d+ \d+ \d+ \d+", row), path, f"line {number + 2} of the mesh is no leaf")
    places = numpy.array([[int(word) for word in row.split()] for row in rows], dtype=numpy.int64).reshape(-1, 4)
    _check_places(places, path)
    return places, lines[count + 1:]


def _lines(path):
    with open(path, "rb") as file:
        text = file.read()
    _demand(text.endswith(b"\n"), path, "it doesn't end with a line feed")
    _demand(text.isascii(), path, "it has bytes that are no text")
    return text.decode("ascii").split("\n")[:-1]


def read_mesh(path):
    """A mesh file: `mesh N`, then a line `L X Y Z` for each leaf."""
    places, left = _read_leaf_lines(_lines(path), path)
    _demand(not left, path, f"{len(left)} lines stand after the last leaf")
    return Mesh(places)


# ---- amounts


def part(amounts, child):
    """The part of amounts that a child gets: an eighth, and one more where its number is below the rest."""
    return amounts // 8 + (child < amounts % 8)


def _refined(amounts):
    """The amounts of the eight children of each cell, [2z, 2y, 2x]."""
    finer = numpy.empty([2 * size for size in amounts.shape], dtype=amounts.dtype)
    for child in range(8):
        finer[child // 4::2, child // 2 % 2::2, child % 2::2] = part(amounts, child)
    return finer


def _coarsened(amounts):
    """The sums over the eight children of each cell."""
    z, y, x = (size // 2 for size in amounts.shape)
    return amounts.reshape(z, 2, y, 2, x, 2).sum(axis=(1, 3, 5))


@dataclass
class Fields:
    """The amounts of a cycle: `places` as rows of level, x, y, z, `amounts` as [leaf, field, z, y, x]."""

    cycle: int
    places: numpy.ndarray
    amounts: numpy.ndarray
    names: list = field(default_factory=list)

    @property
    def edge(self):
        """How many cells stand along the edge of a block."""
        return self.amounts.shape[-1]

    @property
    def count(self):
        """How many fields there are."""
        return self.amounts.shape[1]

    def name(self, number):
        return self.names[number] if number < len(self.names) else f"field {number}"

    def totals(self):
        """The total of each field, in amounts."""
        return [int(total) for total in self.amounts.sum(axis=(0, 2, 3, 4), dtype=numpy.int64)]

    def sample(self, number, level):
        """A field as one array of a level over the domain, [z, y, x]. A finer cell has its part of the coarser one, a
        coarser cell the sum of the finer ones."""
        n, trees = self.edge, trees_of(self.places)
        finest = max(level, int(self.places[:, 0].max()))
        whole = numpy.zeros([int(count) * n << finest for count in trees[::-1]], dtype=numpy.int64)
        for (own, x, y, z), block in zip(self.places, self.amounts[:, number]):
            for _ in range(finest - own):
                block = _refined(block)
            size = block.shape[0]
            whole[z * size:(z + 1) * size, y * size:(y + 1) * size, x * size:(x + 1) * size] = block
        for _ in range(finest - level):
            whole = _coarsened(whole)
        return whole


class _Bytes:
    """The bytes of a file, taken from the front part by part."""

    def __init__(self, path):
        self.path = path
        with open(path, "rb") as file:
            self.bytes = file.read()
        self.at = 0

    def take(self, count, what):
        _demand(self.at + count <= len(self.bytes), self.path,
                f"it is truncated: {what} ends at {self.at + count}, and there are {len(self.bytes)} bytes")
        self.at += count
        return self.bytes[self.at - count:self.at]

    def number(self, count, what):
        return int.from_bytes(self.take(count, what), "big")

    def words(self, count, what):
        return numpy.frombuffer(self.take(8 * count, what), dtype=">u8").astype(numpy.uint64)

    def end(self):
        left = len(self.bytes) - self.at
        _demand(left == 0, self.path, f"{left} bytes stand after its end at {self.at}")


def read_fields(path, names=()):
    """A field file: u32 cycle, F, N, n; then for each leaf its packed place and n^3 amounts of each field."""
    data = _Bytes(path)
    cycle, fields, leaves, edge = (data.number(4, "the header") for _ in range(4))
    _demand(cycle <= MOST_CYCLES, path, f"the cycle {cycle} is above {MOST_CYCLES}")
    _demand(fields <= MOST_FIELDS, path, f"{fields} fields are more than {MOST_FIELDS}")
    _demand(1 <= leaves <= MOST_LEAVES, path, f"{leaves} leaves aren't 1 to {MOST_LEAVES}")
    _demand(edge in EDGES, path, f"an edge of {edge} cells isn't even, from 4 to 16")
    size = 1 + fields * edge ** 3
    words = data.words(leaves * size, "the last leaf").reshape(leaves, size)
    data.end()
    places = unpack(words[:, 0], path)
    _check_places(places, path)
    amounts = words[:, 1:].astype(numpy.int64).reshape(leaves, fields, edge, edge, edge)
    return Fields(cycle, places, amounts, list(names))


@dataclass
class Checkpoint:
    """A state of a run: the canonical text of its parameters, its fields, and for each field what is gone."""

    text: str
    fields: Fields
    totals: list
    gone: list


def _setting(text, group, key, default):
    """A setting of a group of a canonical text, as it is written."""
    lines = iter(text.split("\n"))
    for line in lines:
        if line == f"{group} {{":
            for setting in lines:
                if setting == "}":
                    return default
                if setting.startswith(f"  {key} = "):
                    return setting[len(f"  {key} = "):].rstrip(";")
    return default


def names_of(text):
    """The names of the fields of a canonical text."""
    return re.findall(r'"([^"]*)"', _setting(text, "Field", "names", ""))


def read_checkpoint(path):
    """A checkpoint: magic, version, text, cycle, places, amounts, totals, and what is gone."""
    data = _Bytes(path)
    _demand(data.take(8, "the magic") == b"CELLOAMR", path, "it doesn't begin with CELLOAMR")
    version = data.number(2, "the version")
    _demand(version == 1, path, f"the version is {version} and not 1")
    length = data.number(4, "the length of the text")
    _demand(length <= LONGEST_TEXT, path, f"a text of {length} bytes is longer than {LONGEST_TEXT}")
    text = data.take(length, "the text").decode("ascii", "replace")
    names, edge = names_of(text), int(_setting(text, "Mesh", "block", "0"))
    _demand(edge in EDGES, path, "its text has no block of 4 to 16 cells")
    cycle = data.number(4, "the cycle")
    _demand(cycle <= MOST_CYCLES, path, f"the cycle {cycle} is above {MOST_CYCLES}")
    leaves = data.number(4, "the number of leaves")
    _demand(1 <= leaves <= MOST_LEAVES, path, f"{leaves} leaves aren't 1 to {MOST_LEAVES}")
    places = unpack(data.words(leaves, "the places"), path)
    _check_places(places, path)
    amounts = data.words(leaves * len(names) * edge ** 3, "the amounts").astype(numpy.int64)
    fields = Fields(cycle, places, amounts.reshape(leaves, len(names), edge, edge, edge), names)
    totals = [int(total) for total in data.words(len(names), "the totals")]
    gone = [int(amount) for amount in data.words(len(names), "what is gone")]
    data.end()
    for name, stated, summed in zip(names, totals, fields.totals()):
        _demand(stated == summed, path, f"the total of {name} is stated as {stated} and adds up to {summed}")
    return Checkpoint(text, fields, totals, gone)


def read_amounts(path, names=()):
    """The fields of a field file, or of a checkpoint, which has their names."""
    if os.fspath(path).endswith(".cello"):
        return read_checkpoint(path).fields
    return read_fields(path, names)


# ---- reports


@dataclass
class FieldLine:
    """What a report says of a field at a cycle, in amounts."""

    name: str
    total: int
    out: int
    gone: int


@dataclass
class Cycle:
    """What a report says of a cycle."""

    cycle: int
    leaves: int
    fields: list


@dataclass
class Report:
    """A report: the leaves after each phase, the cycles in order, and the last mesh, if the run came to its end."""

    phases: dict
    cycles: list
    places: object


def read_report(path):
    """A report: its header, the lines of phases, cycles and fields, and the closing mesh."""
    lines = _lines(path)
    _demand(lines and lines[0] == "cello report 1", path, "it doesn't begin with 'cello report 1'")
    report, at = Report({}, [], None), 1
    while at < len(lines) and not lines[at].startswith("mesh "):
        line = lines[at]
        if match := re.fullmatch(r"phase (\d+) leaves (\d+)", line):
            report.phases[int(match[1])] = int(match[2])
        elif match := re.fullmatch(r"cycle (\d+) leaves (\d+)", line):
            report.cycles.append(Cycle(int(match[1]), int(match[2]), []))
        elif match := re.fullmatch(r"field (\S+) total (\d+) out (\d+) gone (\d+)", line):
            _demand(report.cycles, path, f"line {at + 1}: a field before the first cycle")
            report.cycles[-1].fields.append(FieldLine(match[1], int(match[2]), int(match[3]), int(match[4])))
        else:
            _demand(re.fullmatch(r"restart cycle \d+ leaves \d+", line), path, f"line {at + 1} is none of a report")
        at += 1
    if at < len(lines):
        report.places, left = _read_leaf_lines(lines[at:], path)
        _demand(left == ["end"], path, "it doesn't end with 'end'")
    return report


# ---- the command line


def _told(path):
    """What a file holds, in one line."""
    name = os.path.basename(path)
    if name.endswith(".bin"):
        fields = read_fields(path)
        return f"cycle {fields.cycle}, {len(fields.places)} leaves of {fields.edge}^3 cells, totals {fields.totals()}"
    if name.endswith(".cello"):
        kept = read_checkpoint(path)
        totals = dict(zip(kept.fields.names, kept.totals))
        leaves = len(kept.fields.places)
        return (f"checkpoint of cycle {kept.fields.cycle}, {leaves} leaves of {kept.fields.edge}^3 cells, "
                f"totals {totals}, gone {kept.gone}")
    if name.startswith("mesh-"):
        places = read_mesh(path).places
        return f"{len(places)} leaves, levels {places[:, 0].min()} to {places[:, 0].max()}"
    report = read_report(path)
    ended = "a last mesh" if report.places is not None else "no last mesh"
    return f"{len(report.phases)} phases, {len(report.cycles)} cycles, {ended}"


def main(paths):
    if not paths:
        print("usage: cello_files.py FILE..", file=sys.stderr)
        return 1
    status = 0
    for path in paths:
        try:
            print(f"{path}: {_told(path)}")
        except (Fault, OSError) as fault:
            print(fault, file=sys.stderr)
            status = 1
    return status


if __name__ == "__main__":
    sys.exit(main(sys.argv[1:]))
