"""A plain model of the monitor: what each call answers and leaves in lent memory.

It is written from document 01 alone, for the lessons' outputs and for the vectors'
expectations. Calls work on bytes; a step works on the records of a net.
"""

from typing import NamedTuple

import netasm_image as im
from netasm_check import check
from netasm_image import ANY, BINDER, BINDS, NAME, PUT, READ, TAKE, VARIABLE, Row

MEMORY_BYTES = 65536
MOST_STEPS = 4096
MOST_LOST = 65535
INPUT_BYTES = 60000

GRANTED, DONE, DENIED, NOMATCH, NOPLACE, NOSITE, NONET, LONG = range(8)
SMALL, ROOM = 19, 20


# The four values ------------------------------------------------------------------
# Bit 0 is evidence for, bit 1 evidence against.

UNDECIDED, YES, NO, CONFLICT = range(4)


def value_of(evidence_for, evidence_against):
    return (1 if evidence_for else 0) + (2 if evidence_against else 0)


def inverse(p):
    return value_of(p & 2, p & 1)


def both(p, q):
    return value_of(p & q & 1, (p | q) & 2)


def either(p, q):
    return value_of((p | q) & 1, p & q & 2)


def implies(p, q):
    return q if p in (UNDECIDED, YES) else YES


def before(p, q):
    return p if p != UNDECIDED else q


def consensus(p, q):
    return p & q


def gather(p, q):
    return p | q


def grants(p):
    return p in (UNDECIDED, YES)


OPERATORS = {19: both, 20: either, 21: consensus, 22: gather, 23: implies, 24: before}


# An action that is tried ------------------------------------------------------------

class Act(NamedTuple):
    """An action with its places found: site numbers, and its fields, None where one binds."""

    action: im.Action
    source: int
    target: int
    fields: list


MANDATORY = (
    (PUT, "target", "store_class", "source", "current"),
    (PUT, "target", "store_class", "source", "process_history"),
    (TAKE, "target", "store_class", "source", "current"),
    (TAKE, "target", "store_class", "source", "process_history"),
    (TAKE, "source", "clearance", "target", "store_class"),
    (TAKE, "source", "clearance", "target", "store_history"),
    (READ, "source", "clearance", "target", "store_class"),
    (READ, "source", "clearance", "target", "store_history"),
)
TERMS = (
    ("source", "clearance"), ("source", "current"), ("source", "store_class"),
    ("source", "process_history"), ("target", "store_class"), ("target", "store_history"),
    ("target", "clearance"), ("target", "current"),
)


def level_in(net, act, who, which):
    return getattr(net.sites[getattr(act, who)], which)


def mandatory(net, act):
    value = UNDECIDED
    for capability, *sides in MANDATORY:
        left, right = level_in(net, act, *sides[:2]), level_in(net, act, *sides[2:])
        if act.action.capability == capability and not im.dominates(left, right):
            value = gather(value, NO)
    return value


# Rules of the house -----------------------------------------------------------------

def trapped(net, aspect, act):
    """The variables that an aspect's cut takes, or None if it does not trap the action."""
    action = act.action
    if (aspect.capability, aspect.count) != (action.capability, action.count):
        return None
    taken = {}
    parts = [(aspect.source, net.sites[act.source].name), (aspect.target, net.sites[act.target].name)]
    for (tag, pattern), value in parts + list(zip(aspect.fields, act.fields)):
        binding = value is None
        fits = {NAME: not binding and pattern == value, VARIABLE: not binding,
                ANY: True, BINDER: binding}[tag]
        if not fits:
            return None
        if tag == VARIABLE:
            taken[pattern] = value
    return taken


def condition(net, act, taken, number):
    """The truth of a condition's node."""
    node = net.nodes[number]
    if node.kind == 1:
        return True
    if node.kind == 2:
        return not condition(net, act, taken, node.a)
    if node.kind in (3, 4):
        sides = [condition(net, act, taken, child) for child in (node.a, node.b)]
        return all(sides) if node.kind == 3 else any(sides)
    if node.kind == 5:
        left, right = (operand_value(operand, taken) for operand in node.operands[:2])
        return left is not None and left == right
    if node.kind == 6:
        return tested(net, taken, node)
    if node.kind == 7:
        return im.dominates(*(level_in(net, act, *TERMS[term]) for term in (node.a, node.b)))
    return grants(recommendation(net, act, taken, node.a))


def recommendation(net, act, taken, number):
    """The value of a recommendation's node."""
    node = net.nodes[number]
    if node.kind == 16:
        return node.a
    if node.kind == 17:
        return YES if condition(net, act, taken, node.a) else NO
    values = [recommendation(net, act, taken, child) for child in im.children_of(node)]
    return inverse(*values) if node.kind == 18 else OPERATORS[node.kind](*values)


def operand_value(operand, taken):
    """A name, or what the variable took; None where it is unset."""
    return operand.value if operand.tag == NAME else taken.get(operand.value)


def tested(net, taken, node):
    """Whether some row at the test's place has this count and fits."""
    place = [site.name for site in net.sites].index(node.a)
    operands = node.operands[:node.count]
    if any(operand.tag == VARIABLE and operand.value not in taken for operand in operands):
        return False
    return any(row.count == node.count
               and all(operand.tag == ANY or operand_value(operand, taken) == value
                       for operand, value in zip(operands, row.fields))
               for row in im.owned(net.rows, place))


def policy(net, owner, act):
    value = UNDECIDED
    for aspect in im.owned(net.aspects, owner):
        taken = trapped(net, aspect, act)
        if taken is not None and condition(net, act, taken, aspect.condition):
            value = gather(value, recommendation(net, act, taken, aspect.recommendation))
    return value


# One step -----------------------------------------------------------------------------

def step_net(net, number):
    """Tries a site's next action; changes the net if the answer is GRANTED."""
    if number >= len(net.sites):
        return NOSITE
    site = net.sites[number]
    program = im.owned(net.actions, number)
    if site.position == len(program):
        return DONE
    action = program[site.position]
    names = [each.name for each in net.sites]
    target = used_value(action.target, site)
    if target not in names:
        return NOPLACE
    fields = [used_value(operand, site) for operand in action.fields[:action.count]]
    act = Act(action, number, names.index(target), fields)
    value = mandatory(net, act)
    for owner in (act.source, act.target):
        value = gather(value, policy(net, owner, act))
    if not grants(value):
        return DENIED
    return put(net, act) if action.capability == PUT else take_or_read(net, act)


def used_value(operand, site):
    """A name's or a used variable's value; None for a binding field."""
    return {NAME: operand.value, VARIABLE: site.variables[operand.value % im.VARIABLES],
            BINDS: None}[operand.tag]


def advance(net, act, **changes):
    """The source with its position up by one, and other changes to it."""
    source = net.sites[act.source]
    net.sites[act.source] = source._replace(position=source.position + 1, **changes)


def put(net, act):
    held = im.owned(net.rows, act.target)
    source, target = net.sites[act.source], net.sites[act.target]
    if len(held) < im.MOST_ROWS_PER_SITE:
        history = im.join(target.store_history, im.join(source.current, source.process_history))
        net.sites[act.target] = target._replace(store_history=history)
        after = sum(row.owner <= act.target for row in net.rows)
        net.rows.insert(after, Row(act.target, len(act.fields), im.filled(act.fields, 0)))
    else:
        net.sites[act.target] = target._replace(lost=min(target.lost + 1, MOST_LOST))
    advance(net, act)
    return GRANTED


def take_or_read(net, act):
    place = oldest_fitting(net, act)
    if place is None:
        return NOMATCH
    row = net.rows[place]
    source, target = net.sites[act.source], net.sites[act.target]
    variables = list(source.variables)
    for operand, value in zip(act.action.fields, row.fields[:row.count]):
        if operand.tag == BINDS:
            variables[operand.value] = value
    history = im.join(source.process_history, im.join(target.store_class, target.store_history))
    advance(net, act, variables=tuple(variables), process_history=history)
    if act.action.capability == TAKE:
        del net.rows[place]
    return GRANTED


def oldest_fitting(net, act):
    """The place of the oldest row at the target that has the count and equals every field not binding."""
    for place, row in enumerate(net.rows):
        if row.owner == act.target and row.count == len(act.fields) and all(
                value is None or value == held for value, held in zip(act.fields, row.fields)):
            return place
    return None


# The calls ------------------------------------------------------------------------------

def verdict(image):
    """The number and record of `check`."""
    fault = check(image)
    return (fault.number, fault.record) if fault else (0, 0)


def memory_of(image):
    return image + bytes(MEMORY_BYTES - len(image))


def held_net(memory):
    """The net that memory holds, or None."""
    if len(memory) != MEMORY_BYTES:
        return None
    image = bytes(memory[:im.image_length(memory)])
    if check(image) or any(memory[len(image):]):
        return None
    return im.read_net(image)


def load(image, memory):
    if len(memory) != MEMORY_BYTES:
        return SMALL, 0
    answer = verdict(image)
    if answer == (0, 0):
        memory[:] = memory_of(image)
    return answer


def step(memory, number):
    net = held_net(memory)
    if net is None:
        return NONET
    answer = step_net(net, number)
    memory[:] = memory_of(im.write_net(net))
    return answer


def run(memory, steps, answers):
    if len(steps) > MOST_STEPS or len(answers) < len(steps):
        return LONG
    net = held_net(memory)
    if net is None:
        return NONET
    answers[:len(steps)] = bytes(step_net(net, number) for number in steps)
    memory[:] = memory_of(im.write_net(net))
    return 0


def save(memory, out):
    net = held_net(memory)
    if net is None:
        return NONET, 0
    image = im.write_net(net)
    if len(out) < len(image):
        return ROOM, 0
    out[:len(image)] = image
    return 0, len(image)


def body(image, kind):
    """Start and length of a body in the image; (0, 0) for the empty part."""
    if check(image) or not 1 <= kind <= im.ENTRIES:
        return 0, 0
    _, count, offset = im.entries(image)[kind - 1]
    return offset, im.KINDS[kind - 1].width * count


# The stepping program -------------------------------------------------------------------

def farmstep(data):
    """What farmstep prints for an input."""
    length = int.from_bytes(data[:4], "little")
    if not 4 <= len(data) <= INPUT_BYTES or 4 + length > len(data):
        return "input\n"
    image, steps = data[4:4 + length], data[4 + length:]
    memory, answers = bytearray(MEMORY_BYTES), bytearray(MOST_STEPS)
    number, record = load(image, memory)
    if number:
        return f"load {number} {record}\n"
    if run(memory, steps, answers) == LONG:
        return "run 7\n"
    net = held_net(memory)
    lines = [f"{index} {site} {answer}" for index, (site, answer) in enumerate(zip(steps, answers))]
    lines += [f"site {site.name} {site.process_history} {site.store_history}"
              f" {len(im.owned(net.rows, number))} {site.lost}" for number, site in enumerate(net.sites)]
    return "".join(f"{line}\n" for line in lines)
