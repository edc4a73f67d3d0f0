"""The check of an image: the first fault in the order of document 01, in words.

Every breach of a rule is a triple: the part of the record, what is wrong with it,
and the rule of the paper. The functions named `..._breaches` yield all breaches of
one record; a record with any breach is bad, and the first bad record refuses the image.
"""

from typing import NamedTuple

import netasm_image as im
from netasm_image import ANY, BINDER, BINDS, NAME, NODE_KINDS, PUT, UNUSED, VARIABLE

REFUSALS = {
    10: "SIZE", 11: "EDITION", 12: "CONTENTS", 13: "SITE", 14: "NODE",
    15: "ASPECT", 16: "ACTION", 17: "ROW", 18: "STATE",
}
BAD_KINDS = {**{12 + kind.number: kind for kind in im.KINDS}, 18: im.KINDS[0]}
TAG_WORDS = {NAME: "name", VARIABLE: "variable", BINDS: "binds variable", ANY: "any",
             BINDER: "binder"}


class Breach(NamedTuple):
    part: str
    wrong: str
    rule: str


class Fault(NamedTuple):
    """A refusal: its number, the bad record, the record's place and its breaches."""

    number: int
    record: int
    place: int
    breaches: list

    @property
    def kind(self):
        """The kind of the bad record; None where header or contents are at fault."""
        return BAD_KINDS.get(self.number)


def check(image):
    """The first fault of an image, or None if it is accepted."""
    for number, breaches in ((10, size_breaches), (11, edition_breaches), (12, contents_breaches)):
        found = list(breaches(image))
        if found:
            return Fault(number, 0, 0, found)
    return records_fault(image)


def records_fault(image):
    """The first bad record of an image whose contents are in order: 13 to 17, then 18."""
    net = im.read_net(image)
    judges = {13: site_judge, 14: node_judge, 15: aspect_judge, 16: action_judge,
              17: row_judge, 18: state_judge}
    for number, judge in judges.items():
        for record, breaches in enumerate(judge(net)):
            found = list(breaches)
            if found:
                kind = BAD_KINDS[number]
                offset = im.entries(image)[kind.number - 1][2]
                return Fault(number, record, offset + kind.width * record, found)
    return None


# Header and contents --------------------------------------------------------

def size_breaches(image):
    if not im.HEADER_BYTES <= len(image) <= im.MOST_BYTES:
        yield Breach("length", f"{len(image)} bytes",
                     f"under {im.HEADER_BYTES} or over {im.MOST_BYTES:,} bytes is SIZE")


def edition_breaches(image):
    edition = int.from_bytes(image[:2], "little")
    if edition != im.EDITION:
        yield Breach("edition", f"edition {edition}", f"edition u16 = {im.EDITION}")


def contents_breaches(image):
    count = int.from_bytes(image[2:4], "little")
    if count != im.ENTRIES:
        yield Breach("entry count", f"{count} entries", f"entry count u16 = {im.ENTRIES}")
    place = im.HEADER_BYTES
    for kind, (number, records, offset) in zip(im.KINDS, im.entries(image)):
        entry = f"entry {kind.number - 1} ({kind.body})"
        if number != kind.number:
            yield Breach(entry, f"kind {number} where {kind.number} stands", "kinds 1 to 5 in order")
        if not kind.least <= records <= kind.most:
            yield Breach(entry, f"{records} records",
                         f"{kind.body}: least {kind.least}, most {kind.most:,}")
        if offset != place:
            yield Breach(entry, f"offset {offset} where the body begins at {place}",
                         "bodies follow from byte 44 in that order with no gap")
        place += kind.width * records
    if place != len(image):
        yield Breach("end", f"the last body ends at {place}, the file at {len(image)}",
                     "the file ends with the last body")


# Parts that several kinds of record share -----------------------------------

def owner_breaches(net, records, index, most):
    """An owner is a site number, never falls, and owns at most so many records."""
    owner = records[index].owner
    if owner >= len(net.sites):
        yield Breach("owner", f"{owner}, but there are {len(net.sites)} sites",
                     "owners in kinds 3 to 5 are site numbers")
    if index > 0 and owner < records[index - 1].owner:
        yield Breach("owner", f"{owner} after {records[index - 1].owner}",
                     "owners in kinds 3 to 5 never fall")
    if most and index >= most and records[index - most].owner == owner:
        yield Breach("owner", f"one more than {most} of site {owner}", f"at most {most} per owner")


def capability_breaches(record):
    if record.capability not in im.CAPABILITIES:
        yield Breach("capability", str(record.capability), "put (1), take (2) or read (3)")


def count_breaches(count):
    if not 1 <= count <= im.MOST_FIELDS:
        yield Breach("count", str(count), "counts of fields are 1..4")


def zero_breaches(part, value):
    if value != 0:
        yield Breach(part, f"{value}, though it is not used", "parts not used are 0")


def operand_breaches(part, operand, allowed):
    """One used operand: its tag is allowed there, its value fits the tag."""
    tag, value = operand
    if tag not in allowed:
        words = ", ".join(f"{each} {TAG_WORDS[each]}" for each in allowed)
        yield Breach(part, f"tag {tag} ({TAG_WORDS.get(tag, 'unknown')})", f"tags allowed here: {words}")
    if tag == NAME and value == 0:
        yield Breach(part, "name 0", "names in operands are not 0")
    if tag in (VARIABLE, BINDS) and value >= im.VARIABLES:
        yield Breach(part, f"variable {value}", "variables are 0..7")
    if tag in (ANY, BINDER) and value != 0:
        yield Breach(part, f"tag {tag} with value {value}", "tags 3 and 4 have value 0")


def operands_breaches(operands, used, allowed):
    """The operands of a record: the first ones used, the others (0, 0)."""
    for index, operand in enumerate(operands):
        part = f"operand {index}"
        if index < used:
            yield from operand_breaches(part, operand, allowed)
        elif operand != UNUSED:
            yield Breach(part, f"{tuple(operand)}, though it is not used", "parts not used are 0")


def variables_with(tag, operands):
    return [operand.value for operand in operands if operand.tag == tag]


def repeated(values):
    return sorted({value for value in values if values.count(value) > 1})


# 13 SITE ----------------------------------------------------------------------

def site_judge(net):
    return (site_breaches(net.sites, index) for index in range(len(net.sites)))


def site_breaches(sites, index):
    site = sites[index]
    if site.name == 0:
        yield Breach("name", "name 0", "a site's name is 1..65,535")
    if index > 0 and site.name <= sites[index - 1].name:
        yield Breach("name", f"{site.name} after {sites[index - 1].name}", "site names rise strictly")
    if not im.dominates(site.clearance, site.current):
        yield Breach("S and C", f"clearance {site.clearance} does not dominate current {site.current}",
                     "S dominates C")


# 14 NODE ----------------------------------------------------------------------

def node_judge(net):
    """Judges the nodes lowest first, keeping the depth of those already judged."""
    names = {site.name for site in net.sites}
    depths = []
    for index, node in enumerate(net.nodes):
        found = list(node_breaches(net.nodes, index, names, depths))
        yield found
        depths.append(depth_above(node, depths))


def depth_above(node, depths):
    return 1 + max((depths[child] for child in im.children_of(node)), default=0)


def node_breaches(nodes, index, names, depths):
    node = nodes[index]
    if node.kind not in NODE_KINDS:
        yield Breach("kind", str(node.kind), "node kinds are 1 to 8 and 16 to 24")
        return
    yield from node_operand_breaches(node)
    yield from zero_breaches("zero", node.zero)
    yield from node_number_breaches(node, names)
    if NODE_KINDS[node.kind].children:
        yield from child_breaches(nodes, index, depths)


def node_operand_breaches(node):
    """Count and operands: a test has fields, equal two operands, other nodes none."""
    if node.kind == im.TEST:
        yield from count_breaches(node.count)
        yield from operands_breaches(node.operands, node.count, (NAME, VARIABLE, ANY))
    else:
        yield from zero_breaches("count", node.count)
        used = 2 if node.kind == im.EQUAL else 0
        yield from operands_breaches(node.operands, used, (NAME, VARIABLE))


def node_number_breaches(node, names):
    """The numbers a and b, where they are not children."""
    children = NODE_KINDS[node.kind].children
    if node.kind == im.DOMINATES:
        for part, term in (("a", node.a), ("b", node.b)):
            if term >= im.TERMS:
                yield Breach(part, f"term {term}", "terms are 0..7")
        return
    if node.kind == im.TEST:
        if node.a not in names:
            yield Breach("a", f"{node.a} is no site's name", "a test's place must be a site")
    elif node.kind == im.CONSTANT:
        if node.a > 3:
            yield Breach("a", f"value {node.a}", "16 keeps 0..3 in a")
    elif children == 0:
        yield from zero_breaches("a", node.a)
    if children < 2:
        yield from zero_breaches("b", node.b)


def child_breaches(nodes, index, depths):
    """Children are lower nodes of the right sort, and the chain is not too long."""
    node = nodes[index]
    of = NODE_KINDS[node.kind].of
    lower = True
    for part, child in zip("ab", im.children_of(node)):
        if child >= index:
            lower = False
            yield Breach(part, f"child {child} of node {index}", "a node refers only to lower nodes")
        elif NODE_KINDS[nodes[child].kind].sort != of:
            yield Breach(part, f"child {child} is no {of}",
                         "children of 2, 3, 4 and 17 are conditions, "
                         "those of 8 and 18 to 24 recommendations")
    if lower and depth_above(node, depths) > im.MOST_DEPTH:
        yield Breach("depth", str(depth_above(node, depths)), f"depth is at most {im.MOST_DEPTH}")


# 15 ASPECT --------------------------------------------------------------------

def aspect_judge(net):
    return (aspect_breaches(net, index) for index in range(len(net.aspects)))


def aspect_breaches(net, index):
    aspect = net.aspects[index]
    yield from owner_breaches(net, net.aspects, index, None)
    yield from capability_breaches(aspect)
    yield from count_breaches(aspect.count)
    yield from zero_breaches("zero", aspect.zero)
    yield from operand_breaches("source", aspect.source, (NAME, VARIABLE, ANY))
    yield from operand_breaches("target", aspect.target, (NAME, VARIABLE, ANY))
    yield from operands_breaches(aspect.fields, aspect.count, (NAME, VARIABLE, ANY, BINDER))
    cut = (aspect.source, aspect.target, *aspect.fields[:aspect.count])
    for variable in repeated(variables_with(VARIABLE, cut)):
        yield Breach("cut", f"variable {variable} twice", "an aspect's cut takes no variable twice")
    yield from sort_breaches(net.nodes, im.CONDITION, aspect.condition)
    yield from sort_breaches(net.nodes, im.RECOMMENDATION, aspect.recommendation)


def sort_breaches(nodes, sort, number):
    if number >= len(nodes):
        yield Breach(sort, f"node {number}, but there are {len(nodes)}", "an aspect names one of each sort")
    elif NODE_KINDS[nodes[number].kind].sort != sort:
        yield Breach(sort, f"node {number} is no {sort}", "an aspect names one of each sort")


# 16 ACTION --------------------------------------------------------------------

def action_judge(net):
    return (action_breaches(net, index) for index in range(len(net.actions)))


def action_breaches(net, index):
    action = net.actions[index]
    fields = action.fields[:action.count]
    allowed = (NAME, VARIABLE) if action.capability == PUT else (NAME, VARIABLE, BINDS)
    yield from owner_breaches(net, net.actions, index, im.MOST_ACTIONS_PER_SITE)
    yield from zero_breaches("zero", action.zero)
    yield from capability_breaches(action)
    yield from count_breaches(action.count)
    yield from operand_breaches("target", action.target, (NAME, VARIABLE))
    yield from operands_breaches(action.fields, action.count, allowed)
    earlier = im.owned(net.actions[:index], action.owner)
    yield from variable_breaches(action.target, fields, binds_of(earlier))


def binds_of(actions):
    """The variables that some of these actions bind."""
    return {variable for action in actions
            for variable in variables_with(BINDS, action.fields[:action.count])}


def variable_breaches(target, fields, bound_earlier):
    bound = variables_with(BINDS, fields)
    used = variables_with(VARIABLE, (target, *fields))
    for variable in repeated(bound):
        yield Breach("fields", f"variable {variable} is bound twice",
                     "in one action no variable is bound twice or both bound and used")
    for variable in sorted(set(bound) & set(used)):
        yield Breach("target and fields", f"variable {variable} is both bound and used",
                     "in one action no variable is bound twice or both bound and used")
    for variable in sorted(set(used) - bound_earlier):
        yield Breach("target and fields", f"variable {variable} is used, not bound before",
                     "a used variable is bound by an earlier action of that program")


# 17 ROW -----------------------------------------------------------------------

def row_judge(net):
    return (row_breaches(net, index) for index in range(len(net.rows)))


def row_breaches(net, index):
    row = net.rows[index]
    yield from owner_breaches(net, net.rows, index, im.MOST_ROWS_PER_SITE)
    yield from count_breaches(row.count)
    for place, value in enumerate(row.fields):
        if place >= row.count:
            yield from zero_breaches(f"field {place}", value)
        elif value == 0:
            yield Breach(f"field {place}", "0", "a row's fields are 1..65,535")


# 18 STATE ---------------------------------------------------------------------

def state_judge(net):
    return (state_breaches(net, number) for number in range(len(net.sites)))


def state_breaches(net, number):
    site = net.sites[number]
    program = im.owned(net.actions, number)
    if site.position > len(program):
        yield Breach("position", f"{site.position}, but the program has {len(program)} actions",
                     "a position does not exceed the action count")
    bound = binds_of(program[:site.position])
    for variable, value in enumerate(site.variables):
        if (value != 0) != (variable in bound):
            state = f"set to {value}, but no" if value else "unset, but an"
            yield Breach(f"variable {variable}", f"{state} action before position {site.position} binds it",
                         "a variable is set exactly when an action before the position binds it")
