"""Random nets that the check accepts, with every feature of the format.

Names, fields and levels come from small pools, so that targets are often sites, rows
often fit and levels often dominate one another; extremes are in the pools too.
"""

import netasm_image as im
from netasm_image import (ANY, BINDER, BINDS, NAME, NODE_KINDS, PUT, UNUSED, VARIABLE, Action, Aspect,
                          Net, Node, Operand, Row, Site)
from netasm_text import read_text, written_out

NAMES = (1, 2, 3, 7, 10, 20, 256, 40000, 65535)
VALUES = (1, 2, 3, 65535)
RANKS = (0, 0, 0, 1, 2, 255)
CATEGORY_SETS = ((), (), (), (0,), (3,), (0, 3), (7,), tuple(range(8)))
LOST = (0, 0, 1, 65534, 65535)


def random_level(rng):
    return im.level_of(rng.choice(RANKS), rng.choice(CATEGORY_SETS))


def low_level(rng):
    return rng.choice((0, 0, 0, random_level(rng)))


def random_site(rng, name):
    current = low_level(rng)
    clearance = im.join(current, rng.choice((65535, 65535, random_level(rng))))
    return Site(name, clearance, current, random_level(rng), low_level(rng), low_level(rng),
                0, rng.choice(LOST))


def random_sites(rng, count):
    names = set(rng.sample(NAMES, min(count, len(NAMES))))
    while len(names) < count:
        names.add(rng.randint(1, 65535))
    return [random_site(rng, name) for name in sorted(names)]


def random_operand(rng, tags):
    tag = rng.choice(tags)
    return Operand(tag, {NAME: rng.choice(VALUES), VARIABLE: rng.randrange(im.VARIABLES)}.get(tag, 0))


# Nodes ----------------------------------------------------------------------------------

def random_nodes(rng, count, names):
    """Nodes of every kind; a kind whose children are not there or too deep is passed over."""
    nodes, depths = [], []
    while len(nodes) < count:
        kind = rng.choice(list(NODE_KINDS))
        shallow = [number for number, node in enumerate(nodes)
                   if NODE_KINDS[node.kind].sort == NODE_KINDS[kind].of and depths[number] < im.MOST_DEPTH]
        if NODE_KINDS[kind].children and not shallow:
            continue
        recent = shallow[-6:] if rng.random() < 0.7 else shallow
        children = [rng.choice(recent) for _ in range(NODE_KINDS[kind].children)]
        nodes.append(Node(kind, 0, *children) if children else random_leaf(rng, kind, names))
        depths.append(1 + max((depths[child] for child in children), default=0))
    return nodes


def random_leaf(rng, kind, names):
    if kind == im.EQUAL:
        pair = [random_operand(rng, (NAME, VARIABLE)) for _ in range(2)]
        return Node(kind, operands=im.filled(pair, UNUSED))
    if kind == im.TEST:
        fields = [random_operand(rng, (NAME, VARIABLE, ANY, ANY)) for _ in range(rng.randint(1, 4))]
        return Node(kind, len(fields), rng.choice(names), operands=im.filled(fields, UNUSED))
    if kind == im.DOMINATES:
        return Node(kind, 0, rng.randrange(im.TERMS), rng.randrange(im.TERMS))
    return Node(kind, a=rng.choice((0, 1, 1, 1, 2, 3))) if kind == im.CONSTANT else Node(kind)


# Aspects, programs, rows ----------------------------------------------------------------

def random_aspect(rng, owner, conditions, recommendations):
    count = rng.choice((1, 1, 2, 3, 4))
    tags = [(NAME, VARIABLE, ANY, ANY)] * 2 + [(NAME, VARIABLE, VARIABLE, ANY, BINDER)] * count
    free = rng.sample(range(im.VARIABLES), len(tags))
    cut = [random_operand(rng, allowed) for allowed in tags]
    cut = [Operand(VARIABLE, free.pop()) if part.tag == VARIABLE else part for part in cut]
    source, target, *fields = cut
    return Aspect(owner, rng.choice((1, 2, 3)), count, 0, source, target, im.filled(fields, UNUSED),
                  rng.choice(conditions), rng.choice(recommendations))


def random_program(rng, owner, count, places):
    bound, program = set(), []
    for _ in range(count):
        action, binds = random_action(rng, owner, sorted(bound), places)
        program.append(action)
        bound |= binds
    return program


def used_operand(rng, names, bound):
    """A name, or a variable that an earlier action binds."""
    if bound and rng.random() < 0.3:
        return Operand(VARIABLE, rng.choice(bound))
    return Operand(NAME, rng.choice(names))


def random_action(rng, owner, bound, places):
    """An action that uses only bound variables, and the variables it binds."""
    capability = rng.choice((1, 1, 2, 3))
    target = used_operand(rng, (*places * 3, rng.choice(NAMES)), bound)
    fields = [used_operand(rng, VALUES, bound) for _ in range(rng.choice((1, 1, 2, 3, 4)))]
    taken = {part.value for part in (target, *fields) if part.tag == VARIABLE}
    free = [variable for variable in range(im.VARIABLES) if variable not in taken]
    binds = set()
    for index in range(len(fields)):
        if capability != PUT and fields[index].tag == NAME and rng.random() < 0.5:
            variable = free.pop(rng.randrange(len(free)))
            fields[index] = Operand(BINDS, variable)
            binds.add(variable)
    return Action(owner, 0, capability, len(fields), target, im.filled(fields, UNUSED)), binds


def placed(rng, site, program):
    """A site somewhere in its program, with the variables set that are bound before."""
    position = rng.choice((0, 0, len(program), rng.randint(0, len(program))))
    variables = list(site.variables)
    for action in program[:position]:
        for operand in action.fields[:action.count]:
            if operand.tag == BINDS:
                variables[operand.value] = rng.choice(NAMES)
    return site._replace(position=position, variables=tuple(variables))


def random_row(rng, owner):
    fields = [rng.choice(VALUES) for _ in range(rng.choice((1, 1, 2, 3, 4)))]
    return Row(owner, len(fields), im.filled(fields, 0))


def with_stores(rng, net, actions, rows):
    """A net whose sites have got programs and rows, so many at least and at most."""
    places = [site.name for site in net.sites]
    for number, site in enumerate(net.sites):
        program = random_program(rng, number, rng.randint(*actions), places)
        net.sites[number] = placed(rng, site, program)
        net.actions += program
        net.rows += [random_row(rng, number) for _ in range(rng.randint(*rows))]
    return net


def with_rules(rng, net, count):
    """A net with this many aspects, if its nodes are of both sorts."""
    by_sort = [[number for number, node in enumerate(net.nodes) if NODE_KINDS[node.kind].sort == sort]
               for sort in (im.CONDITION, im.RECOMMENDATION)]
    if all(by_sort):
        owners = sorted(rng.randrange(len(net.sites)) for _ in range(count))
        net.aspects = [random_aspect(rng, owner, *by_sort) for owner in owners]
    return net


def random_net(rng, sites=4, nodes=12, aspects=6, actions=6, rows=6):
    """A net with up to so many sites, nodes and aspects, and so many actions and rows per site."""
    net = Net(sites=random_sites(rng, rng.randint(1, sites)))
    net.nodes = random_nodes(rng, rng.randint(0, nodes), [site.name for site in net.sites])
    return with_stores(rng, with_rules(rng, net, rng.randint(0, aspects)), (0, actions), (0, rows))


def largest_net(rng):
    """A net with the most records of every kind: 51,244 bytes."""
    net = Net(sites=random_sites(rng, 32))
    net.nodes = random_nodes(rng, 1024, [site.name for site in net.sites])
    return with_stores(rng, with_rules(rng, net, 256), (16, 16), (16, 16))


def written_out_net(net):
    """The same rules with the node table that writing them out in the rules gives."""
    return read_text(written_out(net)).net
