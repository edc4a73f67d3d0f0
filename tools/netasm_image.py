"""The image of a net: its five bodies, their records and their bytes.

A record is read and written field by field, pads included, so that reading the
bodies of an image and writing them again gives the same bytes, sound or damaged.
"""

import struct
from dataclasses import dataclass, field
from typing import NamedTuple

EDITION = 1
ENTRIES = 5
HEADER_BYTES = 44
ENTRY = struct.Struct("<HHI")

VARIABLES = 8
MOST_FIELDS = 4
MOST_ACTIONS_PER_SITE = 16
MOST_ROWS_PER_SITE = 16
MOST_DEPTH = 8
TERMS = 8

CAPABILITIES = {1: "put", 2: "take", 3: "read"}
PUT, TAKE, READ = 1, 2, 3

NAME, VARIABLE, BINDS, ANY, BINDER = range(5)


class Operand(NamedTuple):
    tag: int
    value: int


UNUSED = Operand(0, 0)


class Site(NamedTuple):
    name: int
    clearance: int = 0
    current: int = 0
    store_class: int = 0
    process_history: int = 0
    store_history: int = 0
    position: int = 0
    lost: int = 0
    variables: tuple = (0,) * VARIABLES


class Node(NamedTuple):
    kind: int
    count: int = 0
    a: int = 0
    b: int = 0
    zero: int = 0
    operands: tuple = (UNUSED,) * MOST_FIELDS


class Aspect(NamedTuple):
    owner: int
    capability: int
    count: int
    zero: int
    source: Operand
    target: Operand
    fields: tuple
    condition: int
    recommendation: int


class Action(NamedTuple):
    owner: int
    zero: int
    capability: int
    count: int
    target: Operand
    fields: tuple


class Row(NamedTuple):
    owner: int
    count: int
    fields: tuple


def filled(parts, empty):
    """The parts used, then empty ones up to four."""
    return tuple(parts) + (empty,) * (MOST_FIELDS - len(parts))


def operands_of(words):
    """Tag, value, tag, value, ... as operands."""
    return tuple(Operand(*pair) for pair in zip(words[::2], words[1::2]))


def words_of(operands):
    return [word for operand in operands for word in operand]


def read_site(words):
    return Site(*words[:8], tuple(words[8:]))


def read_node(words):
    return Node(*words[:5], operands_of(words[5:]))


def read_aspect(words):
    source, target, *fields = operands_of(words[4:16])
    return Aspect(*words[:4], source, target, tuple(fields), *words[16:])


def read_action(words):
    target, *fields = operands_of(words[4:])
    return Action(*words[:4], target, tuple(fields))


def read_row(words):
    return Row(*words[:2], tuple(words[2:]))


def site_words(site):
    return [*site[:8], *site.variables]


def node_words(node):
    return [*node[:5], *words_of(node.operands)]


def aspect_words(aspect):
    cut = words_of((aspect.source, aspect.target, *aspect.fields))
    return [*aspect[:4], *cut, aspect.condition, aspect.recommendation]


def action_words(action):
    return [*action[:4], *words_of((action.target, *action.fields))]


def row_words(row):
    return [row.owner, row.count, *row.fields]


@dataclass(frozen=True)
class Kind:
    """One of the five bodies: its limits and its records' layout."""

    number: int
    body: str
    record: str
    least: int
    most: int
    layout: struct.Struct
    read: callable
    words: callable

    @property
    def width(self):
        return self.layout.size

    def unpack(self, part):
        return [self.read(words) for words in self.layout.iter_unpack(part)]

    def pack(self, records):
        return b"".join(self.layout.pack(*self.words(record)) for record in records)


KINDS = (
    Kind(1, "sites", "site", 1, 32, struct.Struct("<16H"), read_site, site_words),
    Kind(2, "nodes", "node", 0, 1024, struct.Struct("<BB11H"), read_node, node_words),
    Kind(3, "aspects", "aspect", 0, 256, struct.Struct("<4B14H"), read_aspect, aspect_words),
    Kind(4, "actions", "action", 0, 512, struct.Struct("<4B10H"), read_action, action_words),
    Kind(5, "rows", "row", 0, 512, struct.Struct("<BB4H"), read_row, row_words),
)
MOST_BYTES = HEADER_BYTES + sum(kind.width * kind.most for kind in KINDS)


@dataclass
class Net:
    sites: list = field(default_factory=list)
    nodes: list = field(default_factory=list)
    aspects: list = field(default_factory=list)
    actions: list = field(default_factory=list)
    rows: list = field(default_factory=list)

    def body(self, kind):
        return getattr(self, kind.body)


def owned(records, owner):
    """The records of one site, in order."""
    return [record for record in records if record.owner == owner]


def entries(image):
    """The contents of an image: kind, record count and offset of each entry."""
    return [ENTRY.unpack_from(image, 4 + ENTRY.size * place) for place in range(ENTRIES)]


def image_length(image):
    """Where the last body of an image ends, by its contents."""
    _, count, offset = entries(image)[-1]
    return offset + KINDS[-1].width * count


def read_net(image):
    """The net of an image whose contents are in order."""
    net = Net()
    for kind, (_, count, offset) in zip(KINDS, entries(image)):
        net.body(kind)[:] = kind.unpack(image[offset:offset + kind.width * count])
    return net


def write_net(net):
    """The image of a net: header, contents, bodies with no gap."""
    header = struct.pack("<HH", EDITION, ENTRIES)
    bodies = b""
    for kind in KINDS:
        records = net.body(kind)
        header += ENTRY.pack(kind.number, len(records), HEADER_BYTES + len(bodies))
        bodies += kind.pack(records)
    return header + bodies


# Node kinds ---------------------------------------------------------------

CONDITION, RECOMMENDATION = "condition", "recommendation"

ALWAYS, EQUAL, TEST, DOMINATES, CONSTANT = 1, 5, 6, 7, 16


class NodeKind(NamedTuple):
    """A kind of node: its word, its sort, and the number and sort of its children."""

    word: str
    sort: str
    children: int
    of: str


NODE_KINDS = {
    1: NodeKind("always", CONDITION, 0, ""),
    2: NodeKind("not", CONDITION, 1, CONDITION),
    3: NodeKind("and", CONDITION, 2, CONDITION),
    4: NodeKind("or", CONDITION, 2, CONDITION),
    5: NodeKind("equal", CONDITION, 0, ""),
    6: NodeKind("test", CONDITION, 0, ""),
    7: NodeKind("dominates", CONDITION, 0, ""),
    8: NodeKind("grants", CONDITION, 1, RECOMMENDATION),
    16: NodeKind("constant", RECOMMENDATION, 0, ""),
    17: NodeKind("of", RECOMMENDATION, 1, CONDITION),
    18: NodeKind("not", RECOMMENDATION, 1, RECOMMENDATION),
    19: NodeKind("and", RECOMMENDATION, 2, RECOMMENDATION),
    20: NodeKind("or", RECOMMENDATION, 2, RECOMMENDATION),
    21: NodeKind("consensus", RECOMMENDATION, 2, RECOMMENDATION),
    22: NodeKind("gather", RECOMMENDATION, 2, RECOMMENDATION),
    23: NodeKind("implies", RECOMMENDATION, 2, RECOMMENDATION),
    24: NodeKind("before", RECOMMENDATION, 2, RECOMMENDATION),
}


def children_of(node):
    """The numbers of the nodes that a node of a known kind refers to."""
    return (node.a, node.b)[:NODE_KINDS[node.kind].children]


# Levels -------------------------------------------------------------------

def rank(level):
    return level // 256


def categories(level):
    return {bit for bit in range(8) if level >> bit & 1}


def dominates(x, y):
    return rank(x) >= rank(y) and categories(x) >= categories(y)


def level_of(its_rank, its_categories):
    return 256 * its_rank + sum(1 << bit for bit in its_categories)


def join(x, y):
    return level_of(max(rank(x), rank(y)), categories(x) | categories(y))
