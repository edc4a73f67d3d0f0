"""Refused images, each with one rule of the format broken alone, and what refuses it.

`refused_images` yields cases in the order of the refusals' numbers. Most change one part
of one record of an accepted net; the record is named by its place in its body.
"""

from dataclasses import replace
from typing import NamedTuple

import netasm_image as im
from netasm_image import (ANY, BINDER, BINDS, NAME, NODE_KINDS, UNUSED, VARIABLE, Action, Node,
                          Operand, Row, Site)
from netasm_text import read_text

OTHER_TAG = 5
MOST_WORD = 65535

SOUND_TEXT = """
node c0 = always
node c1 = equal(v0, 7)
node c2 = test(v0, _)@20
node r3 = of(c1)
node c4 = grants(r3)
node r5 = gather(r3, r3)

site 10 clearance 2{0,1} current 1{1} class 3
    position 1
    x0 = 9
    row (5, 6)
    read(5, ?x0)@20
    put(x0, 8)@30
    rule r3 if put(v0, _)@v1 by v2 when c1

site 20 clearance 1{7} current 1{7} class 0
    lost 65535
    row (5, 9)
    take(?x7, ?x1)@30
    read(x7, x1, 4, ?x2)@x7
    rule r5 if read(_, v0, ?, 12)@20 by _ when c4

site 30 clearance 255{0,1,2,3,4,5,6,7} current 0 class 0{3}
    process-history 9{4}
    store-history 4{0,7}
    position 2
    x4 = 11
    row (1, 2, 3, 65535)
    take(5, ?x4)@20
    put(1)@x4
    rule r3 if take(7)@10 by v7 when c0
"""


class Case(NamedTuple):
    """What is broken, and the number and record that refuse the image."""

    broken: str
    number: int
    record: int
    image: bytes


def sound():
    return read_text(SOUND_TEXT).net


def changed(net, body, record, **parts):
    """A net with some parts of one record changed."""
    records = list(getattr(net, body))
    records[record] = records[record]._replace(**parts)
    return replace(net, **{body: records})


def with_part(parts, index, part):
    """Operands, fields or variables with one of them changed."""
    return (*parts[:index], part, *parts[index + 1:])


def patched(image, at, value, width=2):
    """An image with one little-endian number changed."""
    return image[:at] + value.to_bytes(width, "little") + image[at + width:]


def case(broken, number, record, net):
    return Case(broken, number, record, im.write_net(net))


# 10, 11, 12 -------------------------------------------------------------------------

def header_cases():
    image = im.write_net(sound())
    for length in (0, 1, 43):
        yield Case(f"{length} bytes", 10, 0, image[:length])
    for edition in (0, 2, 256, 257):
        yield Case(f"edition {edition}", 11, 0, patched(image, 0, edition))
    yield Case("edition 2 and entry count 4", 11, 0, patched(patched(image, 0, 2), 2, 4))
    for count in (0, 4, 6, 261, 1280):
        yield Case(f"entry count {count}", 12, 0, patched(image, 2, count))
    yield from entry_cases(image)
    yield from end_cases(image)
    yield Case("no site", 12, 0, im.write_net(im.Net()))
    yield from crowded_cases()


def entry_cases(image):
    """Kind, record count and offset of each entry changed."""
    for kind, (number, count, offset) in zip(im.KINDS, im.entries(image)):
        at = 4 + im.ENTRY.size * (kind.number - 1)
        for other in (0, number % 5 + 1, number + 256):
            yield Case(f"{kind.body}: kind {other}", 12, 0, patched(image, at, other))
        for other in (count - 1, count + 1, MOST_WORD):
            yield Case(f"{kind.body}: count {other}", 12, 0, patched(image, at + 2, other))
        for other in (0, offset - 1, offset + 1, offset + 65536, 2**32 - 1):
            yield Case(f"{kind.body}: offset {other}", 12, 0, patched(image, at + 4, other, 4))


def end_cases(image):
    """Gaps between bodies that every later offset allows for, an overlap, and a wrong end."""
    for kind, (_, _, offset) in zip(im.KINDS, im.entries(image)):
        gapped = image[:offset] + b"\0" + image[offset:]
        for later in im.KINDS[kind.number - 1:]:
            at = 8 + im.ENTRY.size * (later.number - 1)
            gapped = patched(gapped, at, int.from_bytes(image[at:at + 4], "little") + 1, 4)
        yield Case(f"{kind.body}: a gap before the body", 12, 0, gapped)
    _, _, offset = im.entries(image)[4]
    at = 8 + im.ENTRY.size * 4
    yield Case("rows begin inside the actions", 12, 0, patched(image, at, offset - 24, 4)[:-24])
    yield Case("a byte after the last body", 12, 0, image + b"\0")
    yield Case("the last byte missing", 12, 0, image[:-1])


def crowded_cases():
    """One record over the most, all offsets right."""
    samples = (Site(1), Node(im.ALWAYS), sound().aspects[0], plain_action(0), plain_row(0))
    for kind, sample in zip(im.KINDS, samples):
        records = [sample] * (kind.most + 1)
        net = replace(im.Net(sites=[Site(1)]), **{kind.body: records})
        yield case(f"{len(records)} {kind.body}", 12, 0, net)


# 13 ------------------------------------------------------------------------------------

def site_cases():
    net = sound()
    for record in (0, 1, 2):
        yield case("name 0", 13, record, changed(net, "sites", record, name=0))
        yield case("S below C in rank", 13, record,
                   changed(net, "sites", record, clearance=0, current=256))
        yield case("S without a category of C", 13, record,
                   changed(net, "sites", record, clearance=65533, current=2))
    for record, before in ((1, 10), (2, 20)):
        yield case("name equal to the one before", 13, record, changed(net, "sites", record, name=before))
        yield case("name below the one before", 13, record, changed(net, "sites", record, name=before - 1))
    yield case("names fall at the second", 13, 1, changed(net, "sites", 0, name=21))


# 14 ------------------------------------------------------------------------------------

def node_cases():
    net = sound()
    for record in (0, 2, 5):
        for kind in (0, 9, 15, 25, 255):
            yield case(f"kind {kind}", 14, record, changed(net, "nodes", record, kind=kind))
        yield case("pad not 0", 14, record, changed(net, "nodes", record, zero=1))
        yield case("pad's high byte not 0", 14, record, changed(net, "nodes", record, zero=256))
    for kind in NODE_KINDS:
        yield from unused_part_cases(kind)
        yield from child_cases(kind)
    yield from operand_node_cases()
    yield from depth_cases()


def lonely_net(*nodes):
    """One site, and nodes: 0 and 1 are 'always' and 'yes', then those given."""
    return im.Net(sites=[Site(7)], nodes=[Node(im.ALWAYS), Node(im.CONSTANT, a=1), *nodes])


def sound_node(kind):
    """A node of each kind that is accepted as node 2 of a lonely net."""
    if kind == im.TEST:
        return Node(kind, 1, 7, operands=im.filled([Operand(ANY, 0)], UNUSED))
    if kind == im.EQUAL:
        return Node(kind, operands=im.filled([Operand(NAME, 7), Operand(VARIABLE, 0)], UNUSED))
    child = 1 if NODE_KINDS[kind].of == im.RECOMMENDATION else 0
    return Node(kind, 0, *[child] * NODE_KINDS[kind].children)


def unused_part_cases(kind):
    """Every part that this kind of node does not use, set."""
    node = sound_node(kind)
    word = f"{kind} {NODE_KINDS[kind].word}"
    children = NODE_KINDS[kind].children
    if kind != im.TEST:
        yield case(f"{word}: count 1", 14, 2, lonely_net(node._replace(count=1)))
    if children == 0 and kind not in (im.TEST, im.DOMINATES, im.CONSTANT):
        yield case(f"{word}: a not used, not 0", 14, 2, lonely_net(node._replace(a=1)))
    if children < 2 and kind != im.DOMINATES:
        yield case(f"{word}: b not used, not 0", 14, 2, lonely_net(node._replace(b=1)))
    for index in range({im.EQUAL: 2, im.TEST: 1}.get(kind, 0), im.MOST_FIELDS):
        for operand in (Operand(NAME, 1), Operand(ANY, 0)):
            operands = with_part(node.operands, index, operand)
            yield case(f"{word}: operand {index} not used, {tuple(operand)}", 14, 2,
                       lonely_net(node._replace(operands=operands)))


def child_cases(kind):
    """Each child of this kind of node: not lower, or of the other sort."""
    node = sound_node(kind)
    word = f"{kind} {NODE_KINDS[kind].word}"
    other_sort = 0 if NODE_KINDS[kind].of == im.RECOMMENDATION else 1
    for part in "ab"[:NODE_KINDS[kind].children]:
        for child, broken in ((2, "is the node itself"), (3, "is a higher node"),
                              (MOST_WORD, "is past the table"), (other_sort, "is of the other sort")):
            changes = {part: child}
            yield case(f"{word}: child {part} {broken}", 14, 2,
                       lonely_net(node._replace(**changes), Node(im.ALWAYS)))


def operand_node_cases():
    """Operands of equal and test, a test's place and count, terms, the constant's value."""
    for kind, tags, places in ((im.EQUAL, (BINDS, ANY, BINDER, OTHER_TAG), (0, 1)),
                               (im.TEST, (BINDS, BINDER, OTHER_TAG), (0,))):
        node = sound_node(kind)
        bad = [Operand(tag, 0) for tag in tags]
        bad += [Operand(NAME, 0), Operand(VARIABLE, 8), Operand(VARIABLE, 256)]
        bad += [Operand(ANY, 1)] if kind == im.TEST else []
        for index in places:
            for operand in bad:
                operands = with_part(node.operands, index, operand)
                yield case(f"{NODE_KINDS[kind].word}: operand {index} is {tuple(operand)}", 14, 2,
                           lonely_net(node._replace(operands=operands)))
    test = sound_node(im.TEST)
    full = [Operand(ANY, 0)] * 4
    yield case("test: count 0", 14, 2, lonely_net(test._replace(count=0, operands=(UNUSED,) * 4)))
    yield case("test: count 5", 14, 2, lonely_net(test._replace(count=5, operands=tuple(full))))
    yield case("test: the last operand missing", 14, 2,
               lonely_net(test._replace(count=4, operands=(*full[:3], UNUSED))))
    for place in (0, 6, 8, MOST_WORD):
        yield case(f"test: place {place} is no site", 14, 2, lonely_net(test._replace(a=place)))
    for part in "ab":
        for term in (8, 256, MOST_WORD):
            yield case(f"dominates: {part} is term {term}", 14, 2,
                       lonely_net(Node(im.DOMINATES, **{part: term})))
    for value in (4, 256):
        yield case(f"constant {value}", 14, 2, lonely_net(Node(im.CONSTANT, a=value)))


def chain(depth, kinds=(2, 2)):
    """A chain of this depth above node 0, its kinds in turn, as nodes 2 and up of a lonely net."""
    return [Node(kinds[number % 2], a=0 if number == 2 else number - 1) for number in range(2, depth + 1)]


MIXED = (17, 8)


def depth_cases():
    over = im.MOST_DEPTH + 1
    yield case(f"depth {over}", 14, over, lonely_net(*chain(over)))
    yield case(f"depth {over} through both sorts", 14, over, lonely_net(*chain(over, MIXED)))
    for a, b in ((0, over - 1), (over - 1, 0)):
        nodes = *chain(over - 1), Node(3, 0, a, b)
        yield case(f"depth {over} by children {a} and {b}", 14, over, lonely_net(*nodes))


# 15, 16, 17 --------------------------------------------------------------------------

def plain():
    """Three sites with two records each of kinds 3 to 5, and no variables."""
    block = """
        row (5)
        row (6, 7)
        put(5)@10
        take(6, 7)@10
        rule yes if put(_)@10 by _
        rule yes if put(_)@20 by _
    """
    return read_text("".join(f"site {name} {block}" for name in (10, 20, 30))).net


def owner_cases(body, number):
    """Owners that are no sites, or fall."""
    net = plain()
    last = len(getattr(net, body)) - 1
    for record in (0, last // 2, last):
        for owner in (3, 255):
            yield case(f"{body}: owner {owner} is no site", number, record,
                       changed(net, body, record, owner=owner))
    yield case(f"{body}: owners fall at the second", number, 1, changed(net, body, 0, owner=2))
    yield case(f"{body}: owners fall at the last", number, last, changed(net, body, last, owner=0))


def number_cases(body, number, part, values):
    """A part with a value that is not allowed, in the first, middle and last record."""
    net = sound()
    last = len(getattr(net, body)) - 1
    for record in (0, last // 2, last):
        for value in values:
            yield case(f"{body}: {part} {value}", number, record, changed(net, body, record, **{part: value}))


def count_cases(body, number, used, unused):
    """Counts over the most with every field used, and count 0 with none."""
    net = sound()
    last = len(getattr(net, body)) - 1
    for record in (0, last // 2, last):
        for count, field in ((0, unused), (5, used), (255, used)):
            parts = {"count": count, "fields": (field,) * im.MOST_FIELDS}
            yield case(f"{body}: count {count}", number, record, changed(net, body, record, **parts))


def used_operand_cases(body, number, record, part, allowed):
    """A used operand of one record with each tag and value that is not allowed."""
    net = sound()
    bad = [Operand(BINDS, 6)] if BINDS not in allowed else [Operand(BINDS, 8)]
    bad += [Operand(tag, 0) for tag in (ANY, BINDER, OTHER_TAG, 256) if tag not in allowed]
    bad += [Operand(NAME, 0), Operand(VARIABLE, 8), Operand(VARIABLE, 256)]
    bad += [Operand(tag, 1) for tag in (ANY, BINDER) if tag in allowed]
    word = f"field {part}" if isinstance(part, int) else part
    for operand in bad:
        yield case(f"{body}: {word} is {tuple(operand)}", number, record,
                   changed(net, body, record, **operand_change(getattr(net, body)[record], part, operand)))


def operand_change(record, part, operand):
    """The change of a source, a target or the field of this number."""
    if isinstance(part, int):
        return {"fields": with_part(record.fields, part, operand)}
    return {part: operand}


def unused_field_cases(body, number, record):
    """Operands past the count, set."""
    net = sound()
    fields = getattr(net, body)[record].fields
    for index in range(getattr(net, body)[record].count, im.MOST_FIELDS):
        for operand in (Operand(NAME, 1), Operand(ANY, 0)):
            yield case(f"{body}: field {index} not used, {tuple(operand)}", number, record,
                       changed(net, body, record, fields=with_part(fields, index, operand)))


def aspect_cases():
    yield from owner_cases("aspects", 15)
    yield from number_cases("aspects", 15, "capability", (0, 4, 255))
    yield from count_cases("aspects", 15, Operand(ANY, 0), UNUSED)
    yield from number_cases("aspects", 15, "zero", (1,))
    for record, part in ((0, "source"), (1, "target")):
        yield from used_operand_cases("aspects", 15, record, part, (NAME, VARIABLE, ANY))
    for record, part in ((0, 0), (1, 3)):
        yield from used_operand_cases("aspects", 15, record, part, (NAME, VARIABLE, ANY, BINDER))
    yield from unused_field_cases("aspects", 15, 2)
    yield from twice_cases()
    yield from node_reference_cases()


def twice_cases():
    """One variable in two parts of a cut."""
    net = sound()
    fields = net.aspects[1].fields
    both = Operand(VARIABLE, 5)
    for broken, parts in (
            ("source and target", {"source": both, "target": both}),
            ("source and first field", {"source": both, "fields": with_part(fields, 0, both)}),
            ("target and last field", {"target": both, "fields": with_part(fields, 3, both)}),
            ("two fields", {"fields": with_part(with_part(fields, 0, both), 3, both)})):
        yield case(f"aspects: one variable in {broken}", 15, 1, changed(net, "aspects", 1, **parts))


def node_reference_cases():
    """Conditions and recommendations that are no such node."""
    net = sound()
    for record in (0, 1, 2):
        for part, other in (("condition", 3), ("recommendation", 0)):
            for value in (other, len(net.nodes), MOST_WORD):
                yield case(f"aspects: {part} is node {value}", 15, record,
                           changed(net, "aspects", record, **{part: value}))
    yield case("aspects: no nodes", 15, 0, replace(net, nodes=[]))


def action_cases():
    yield from owner_cases("actions", 16)
    yield from number_cases("actions", 16, "zero", (1,))
    yield from number_cases("actions", 16, "capability", (0, 4, 255))
    yield from count_cases("actions", 16, Operand(NAME, 1), UNUSED)
    for record, part, allowed in ((0, "target", (NAME, VARIABLE)), (0, 0, (NAME, VARIABLE, BINDS)),
                                  (1, 1, (NAME, VARIABLE)), (5, 0, (NAME, VARIABLE))):
        yield from used_operand_cases("actions", 16, record, part, allowed)
    yield from unused_field_cases("actions", 16, 5)
    yield from program_cases()
    yield from crowded_owner_cases("actions", 16, plain_action, im.MOST_ACTIONS_PER_SITE)


def program_cases():
    """Programs whose actions bind and use variables against the rules."""
    for broken, record, program in (
            ("put binds", 0, "put(?x0)@7"),
            ("put binds the second field", 1, "put(1)@7; put(1, ?x0)@7"),
            ("one variable bound twice", 0, "read(?x0, ?x0)@7"),
            ("one variable bound first and last", 0, "take(?x3, 1, 2, ?x3)@7"),
            ("used, then bound", 1, "read(?x0)@7; read(x0, ?x0)@7"),
            ("bound, then used", 1, "read(?x0)@7; read(?x0, x0)@7"),
            ("bound, and used as the target", 1, "read(?x0)@7; read(?x0)@x0"),
            ("used and never bound", 0, "put(x0)@7"),
            ("used as the target and never bound", 0, "put(1)@x0"),
            ("used before it is bound", 0, "put(x0)@7; read(?x0)@7"),
            ("another variable bound", 1, "read(?x1)@7; put(x0)@7"),
            ("unbound in the last field of the last action", 2, "put(1)@7; put(2)@7; read(1, 2, 3, x7)@7")):
        text = "site 7\n" + "\n".join(program.split(";"))
        yield case(f"actions: {broken}", 16, record, read_text(text).net)
    other = "site 7\n read(?x0)@7\nsite 8\n put(x0)@7"
    yield case("actions: bound by another site's program", 16, 1, read_text(other).net)


def plain_action(owner):
    return Action(owner, 0, 1, 1, Operand(NAME, 10), im.filled([Operand(NAME, 5)], UNUSED))


def plain_row(owner):
    return Row(owner, 1, im.filled([5], 0))


def crowded_owner_cases(body, number, plain_record, most):
    """One record over the most of one owner: the first or the last of three sites."""
    sites = [Site(10), Site(20), Site(30)]
    for before, owner in ((0, 0), (2, 2)):
        records = [plain_record(0)] * before + [plain_record(owner)] * (most + 1)
        yield case(f"{body}: {most + 1} of site {owner}", number, before + most,
                   replace(im.Net(sites=sites), **{body: records}))


def row_cases():
    net = sound()
    yield from owner_cases("rows", 17)
    yield from count_cases("rows", 17, 1, 0)
    for record in (0, 1, 2):
        row = net.rows[record]
        for index in (0, row.count - 1):
            yield case(f"rows: field {index} is 0", 17, record,
                       changed(net, "rows", record, fields=with_part(row.fields, index, 0)))
        yield case("rows: count below its fields", 17, record, changed(net, "rows", record, count=row.count - 1))
        for index in range(row.count, im.MOST_FIELDS):
            yield case(f"rows: field {index} not used, not 0", 17, record,
                       changed(net, "rows", record, fields=with_part(row.fields, index, 1)))
    yield from crowded_owner_cases("rows", 17, plain_row, im.MOST_ROWS_PER_SITE)


# 18 ------------------------------------------------------------------------------------

def state_cases():
    net = sound()
    at_end = (net.sites[0].variables, (0, 4, 5, 0, 0, 0, 0, 6), net.sites[2].variables)
    for record in (0, 1, 2):
        site = net.sites[record]
        for position in (3, MOST_WORD):
            yield case(f"position {position} past the end", 18, record,
                       changed(net, "sites", record, position=position, variables=at_end[record]))
        for index in (3, 7):
            yield case(f"variable {index} set, though not bound", 18, record,
                       changed(net, "sites", record, variables=with_part(site.variables, index, 1)))
    yield case("a variable unset, though bound", 18, 0, changed(net, "sites", 0, variables=(0,) * 8))
    yield case("the last site's variable unset", 18, 2, changed(net, "sites", 2, variables=(0,) * 8))
    yield case("bound before, position back at 0", 18, 0, changed(net, "sites", 0, position=0))
    yield case("position past a binding", 18, 1, changed(net, "sites", 1, position=1))
    yield case("bound by the action at the position only", 18, 1,
               changed(net, "sites", 1, variables=with_part((0,) * 8, 7, 5)))
    yield case("a position without a program", 18, 0, im.Net(sites=[Site(7, position=1)]))


# The order of the refusals ---------------------------------------------------------------

def order_cases():
    """Several kinds of record damaged in one image: the lowest number is given."""
    net = changed(sound(), "sites", 0, position=9)
    for body, record, part, number in (
            ("rows", 2, "count", 17), ("actions", 3, "capability", 16), ("aspects", 2, "capability", 15),
            ("nodes", 5, "kind", 14), ("sites", 2, "name", 13)):
        net = changed(net, body, record, **{part: 0})
        yield case(f"{number} before all later ones", number, record, net)
    image = im.write_net(net)
    yield Case("12 before all later ones", 12, 0, patched(image, 4, 2))
    yield Case("11 before all later ones", 11, 0, patched(patched(image, 4, 2), 0, 2))
    yield Case("the first of two bad nodes", 14, 1, im.write_net(
        changed(changed(sound(), "nodes", 5, kind=0), "nodes", 1, kind=0)))


def refused_images():
    yield from header_cases()
    yield from site_cases()
    yield from node_cases()
    yield from aspect_cases()
    yield from action_cases()
    yield from row_cases()
    yield from state_cases()
    yield from order_cases()
