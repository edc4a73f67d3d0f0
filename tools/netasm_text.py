"""The text of a net: reading it into records, and writing records as text.

`read_text` gives the net that a text says, checked or not, with the line of every
record. `write_text` gives the text of an accepted net; reading that text again gives
the same records in the same order. docs/NETASM.md has the grammar.
"""

import re
from dataclasses import dataclass

import netasm_image as im
from netasm_image import (ANY, BINDER, BINDS, CONDITION, NAME, RECOMMENDATION, UNUSED, VARIABLE,
                          Action, Aspect, Node, Operand, Row, Site)

LEVELS = {"clearance": "clearance", "current": "current", "class": "store_class",
          "process-history": "process_history", "store-history": "store_history"}
COUNTS = ("position", "lost")
CAPABILITY_NUMBERS = {word: number for number, word in im.CAPABILITIES.items()}
TERM_WORDS = ("source.clearance", "source.current", "source.class", "source.process-history",
              "target.class", "target.store-history", "target.clearance", "target.current")
VALUE_WORDS = ("undecided", "yes", "no", "conflict")
CHILDREN = {kind.word: kind.children for kind in im.NODE_KINDS.values() if kind.children}
PARENT_KINDS = {(kind.word, kind.of): number
                for number, kind in im.NODE_KINDS.items() if kind.children}
NO_LABELS = {kind.word for kind in im.NODE_KINDS.values()} | set(VALUE_WORDS)
RULE_COLUMNS = 100

TOKEN = re.compile(r"\s*(\d+|[A-Za-z_][\w.-]*|[(){},@=?])", re.ASCII)


class TextError(Exception):
    """What is wrong with a text, and in which line."""

    def __init__(self, line, message):
        super().__init__(f"line {line}: {message}")


# Tokens -----------------------------------------------------------------------

class Line:
    """One line of a text, taken token by token."""

    def __init__(self, number, text):
        self.number = number
        self.tokens = []
        self.at = 0
        text = text.split("#", 1)[0].rstrip()
        end = 0
        while end < len(text):
            token = TOKEN.match(text, end)
            if not token:
                raise self.error(f"cannot read '{text[end:].strip()}'")
            self.tokens.append(token.group(1))
            end = token.end()

    def error(self, message):
        return TextError(self.number, message)

    def peek(self):
        return self.tokens[self.at] if self.at < len(self.tokens) else ""

    def next(self, what):
        if self.at == len(self.tokens):
            raise self.error(f"expected {what} at the end of the line")
        self.at += 1
        return self.tokens[self.at - 1]

    def accept(self, token):
        """Takes this token if it comes next."""
        found = self.peek() == token
        self.at += found
        return found

    def expect(self, token):
        found = self.next(f"'{token}'")
        if found != token:
            raise self.error(f"expected '{token}', found '{found}'")

    def end(self):
        if self.peek():
            raise self.error(f"unexpected '{self.peek()}'")

    def number_up_to(self, what, most):
        token = self.next(what)
        if not token.isdigit():
            raise self.error(f"expected {what}, found '{token}'")
        if int(token) > most:
            raise self.error(f"{what} {token} is over {most}")
        return int(token)

    def listed(self, item, least, most):
        """So many items, with commas, in round brackets."""
        self.expect("(")
        items = [item()]
        while not self.accept(")"):
            self.expect(",")
            items.append(item())
        if not least <= len(items) <= most:
            raise self.error(f"{len(items)} in brackets, where {least} to {most} may stand")
        return items

    def level(self):
        """A rank, and categories in braces if there are any."""
        rank = self.number_up_to("rank", 255)
        categories = set()
        if self.accept("{") and not self.accept("}"):
            categories.add(self.number_up_to("category", 7))
            while not self.accept("}"):
                self.expect(",")
                categories.add(self.number_up_to("category", 7))
        return im.level_of(rank, categories)

    def name(self):
        return self.number_up_to("name", 65535)

    def capability(self):
        word = self.next("a capability")
        if word not in CAPABILITY_NUMBERS:
            raise self.error(f"expected put, take or read, found '{word}'")
        return CAPABILITY_NUMBERS[word]

    def operand(self, letter, tags):
        """A name, or what else is allowed: x0 or v0, ?x0, _ and ?."""
        if self.peek().isdigit():
            return Operand(NAME, self.name())
        if BINDER in tags and self.accept("?"):
            return Operand(BINDER, 0)
        if BINDS in tags and self.accept("?"):
            return Operand(BINDS, self.variable(letter))
        if ANY in tags and self.accept("_"):
            return Operand(ANY, 0)
        return Operand(VARIABLE, self.variable(letter))

    def variable(self, letter):
        token = self.next("a name or a variable")
        if not re.fullmatch(letter + "[0-7]", token):
            raise self.error(f"expected a name or a variable {letter}0 to {letter}7, found '{token}'")
        return int(token[1:])

    def program_value(self):
        return self.operand("x", (NAME, VARIABLE))

    def program_field(self):
        return self.operand("x", (NAME, VARIABLE, BINDS))

    def rule_value(self):
        return self.operand("v", (NAME, VARIABLE))

    def rule_place(self):
        return self.operand("v", (NAME, VARIABLE, ANY))

    def rule_field(self):
        return self.operand("v", (NAME, VARIABLE, ANY, BINDER))

    def term(self):
        token = self.next("a term")
        if token not in TERM_WORDS:
            raise self.error(f"no term '{token}'; the terms are {', '.join(TERM_WORDS)}")
        return TERM_WORDS.index(token)


# The node table -----------------------------------------------------------------

class NodeTable:
    """Nodes in the order in which a text says them, children before their node.

    A labelled node is always a new one. Any other is the first equal one that the table
    has already, or else a new one.
    """

    def __init__(self):
        self.nodes = []
        self.lines = []
        self.labels = {}
        self.first = {}

    def add(self, node, line):
        number = len(self.nodes)
        self.nodes.append(node)
        self.lines.append(line.number)
        self.first.setdefault(node, number)
        return number

    def define(self, line):
        """node LABEL = EXPRESSION"""
        label = line.next("a label")
        if label in self.labels:
            raise line.error(f"label '{label}' is defined twice")
        if not label[0].isalpha() or label in NO_LABELS:
            raise line.error(f"'{label}' is no label")
        line.expect("=")
        self.labels[label] = self.add(self.node(line), line)

    def expression(self, line):
        """The number of the node that an expression says."""
        if line.peek() in self.labels:
            return self.labels[line.next("a label")]
        node = self.node(line)
        return self.first[node] if node in self.first else self.add(node, line)

    def expression_of(self, sort, line):
        number = self.expression(line)
        if self.sort(number) != sort:
            raise line.error(f"a {sort} stands here, and this is a {self.sort(number)}")
        return number

    def sort(self, number):
        return im.NODE_KINDS[self.nodes[number].kind].sort

    def node(self, line):
        """The node that an expression says, its children already in the table."""
        word = line.next("an expression")
        if word == "always":
            return Node(im.ALWAYS)
        if word in VALUE_WORDS:
            return Node(im.CONSTANT, a=VALUE_WORDS.index(word))
        if word == "equal":
            return Node(im.EQUAL, operands=im.filled(line.listed(line.rule_value, 2, 2), UNUSED))
        if word == "test":
            fields = line.listed(line.rule_place, 1, im.MOST_FIELDS)
            line.expect("@")
            return Node(im.TEST, len(fields), line.name(), operands=im.filled(fields, UNUSED))
        if word == "dominates":
            return Node(im.DOMINATES, 0, *line.listed(line.term, 2, 2))
        if word in CHILDREN:
            return self.parent(word, line)
        raise line.error(f"'{word}' is no expression and no label of an earlier line")

    def parent(self, word, line):
        """A node with children; the sort of 'not', 'and' and 'or' is that of their children."""
        count = CHILDREN[word]
        children = line.listed(lambda: self.expression(line), count, count)
        sorts = {self.sort(child) for child in children}
        kind = PARENT_KINDS.get((word, *sorts))
        if kind is None:
            raise line.error(f"the parts of '{word}' are of the wrong sort")
        return Node(kind, 0, *children)


# Reading a text -----------------------------------------------------------------

@dataclass
class Assembly:
    """The net of a text, the line of each record by kind, and the text's steps."""

    net: im.Net
    lines: dict
    steps: list


class Reader:
    """Takes the statements of a text in order."""

    def __init__(self):
        self.table = NodeTable()
        self.net = im.Net(nodes=self.table.nodes)
        self.lines = {kind.number: [] for kind in im.KINDS}
        self.lines[2] = self.table.lines
        self.steps = []

    def read(self, text):
        for number, content in enumerate(text.splitlines(), 1):
            line = Line(number, content)
            if line.tokens:
                self.statement(line)
                line.end()
        return Assembly(self.net, self.lines, self.steps)

    def statement(self, line):
        if line.accept("site"):
            self.add(1, Site(line.name()), line)
            self.attributes(line)
        elif line.accept("node"):
            self.table.define(line)
        elif line.accept("steps"):
            while line.peek():
                self.steps.append(line.number_up_to("step", 255))
        elif not self.net.sites:
            raise line.error(f"'{line.peek()}' before the first site")
        else:
            self.site_statement(line)

    def site_statement(self, line):
        """A statement about the site that was opened last."""
        if line.accept("row"):
            fields = line.listed(line.name, 1, im.MOST_FIELDS)
            self.add(5, Row(self.owner(), len(fields), im.filled(fields, 0)), line)
        elif line.accept("rule"):
            self.rule(line)
        elif line.peek() in CAPABILITY_NUMBERS:
            self.action(line)
        else:
            self.attributes(line)

    def owner(self):
        return len(self.net.sites) - 1

    def add(self, kind, record, line):
        self.net.body(im.KINDS[kind - 1]).append(record)
        self.lines[kind].append(line.number)

    def attributes(self, line):
        """Levels, position, lost count and set variables, as many as stand in the line."""
        while line.peek():
            word = line.next("an attribute")
            site = self.net.sites[-1]
            if word in LEVELS:
                site = site._replace(**{LEVELS[word]: line.level()})
            elif word in COUNTS:
                site = site._replace(**{word: line.number_up_to(word, 65535)})
            elif re.fullmatch("x[0-7]", word):
                line.expect("=")
                variables = list(site.variables)
                variables[int(word[1:])] = line.name()
                site = site._replace(variables=tuple(variables))
            else:
                raise line.error(f"a site has no '{word}'")
            self.net.sites[-1] = site

    def action(self, line):
        """CAPABILITY(FIELDS)@TARGET"""
        capability = line.capability()
        fields = line.listed(line.program_field, 1, im.MOST_FIELDS)
        line.expect("@")
        target = line.program_value()
        self.add(4, Action(self.owner(), 0, capability, len(fields), target,
                           im.filled(fields, UNUSED)), line)

    def rule(self, line):
        """rule RECOMMENDATION if CAPABILITY(PATTERNS)@TARGET by SOURCE [when CONDITION]"""
        recommendation = self.table.expression_of(RECOMMENDATION, line)
        line.expect("if")
        capability = line.capability()
        fields = line.listed(line.rule_field, 1, im.MOST_FIELDS)
        line.expect("@")
        target = line.rule_place()
        line.expect("by")
        source = line.rule_place()
        when = line if line.accept("when") else Line(line.number, "always")
        condition = self.table.expression_of(CONDITION, when)
        self.add(3, Aspect(self.owner(), capability, len(fields), 0, source, target,
                           im.filled(fields, UNUSED), condition, recommendation), line)


def read_text(text):
    """The net that a text says, with the lines of its records and its steps."""
    return Reader().read(text)


# Writing a text -----------------------------------------------------------------

def level_text(level):
    bits = sorted(im.categories(level))
    return str(im.rank(level)) + ("{" + ",".join(map(str, bits)) + "}" if bits else "")


def operand_text(operand, letter):
    shapes = {NAME: "{1}", VARIABLE: "{0}{1}", BINDS: "?{0}{1}", ANY: "_", BINDER: "?"}
    return shapes[operand.tag].format(letter, operand.value)


def operands_text(operands, letter):
    return ", ".join(operand_text(operand, letter) for operand in operands)


def action_text(action):
    fields = operands_text(action.fields[:action.count], "x")
    return f"{im.CAPABILITIES[action.capability]}({fields})@{operand_text(action.target, 'x')}"


def node_text(node, child):
    """An expression of one node; `child` writes the nodes it refers to."""
    if node.kind == im.CONSTANT:
        return VALUE_WORDS[node.a]
    word = im.NODE_KINDS[node.kind].word
    if node.kind == im.EQUAL:
        return f"{word}({operands_text(node.operands[:2], 'v')})"
    if node.kind == im.TEST:
        return f"{word}({operands_text(node.operands[:node.count], 'v')})@{node.a}"
    if node.kind == im.DOMINATES:
        return f"{word}({TERM_WORDS[node.a]}, {TERM_WORDS[node.b]})"
    children = im.children_of(node)
    return f"{word}({', '.join(map(child, children))})" if children else word


def label(nodes, number):
    """c for a condition, r for a recommendation, and the node's number."""
    return im.NODE_KINDS[nodes[number].kind].sort[0] + str(number)


def rule_text(aspect, expression):
    fields = operands_text(aspect.fields[:aspect.count], "v")
    cut = (f"{im.CAPABILITIES[aspect.capability]}({fields})@{operand_text(aspect.target, 'v')}"
           f" by {operand_text(aspect.source, 'v')}")
    condition = expression(aspect.condition)
    when = "" if condition == "always" else f" when {condition}"
    return f"rule {expression(aspect.recommendation)} if {cut}{when}"


def site_lines(net, number, expression):
    """A site's block: its levels, its state where not 0, then rows, program and rules."""
    site = net.sites[number]
    yield (f"site {site.name} clearance {level_text(site.clearance)}"
           f" current {level_text(site.current)} class {level_text(site.store_class)}")
    for word in ("process-history", "store-history"):
        level = getattr(site, LEVELS[word])
        if level:
            yield f"    {word} {level_text(level)}"
    for word in COUNTS:
        if getattr(site, word):
            yield f"    {word} {getattr(site, word)}"
    for variable, value in enumerate(site.variables):
        if value:
            yield f"    x{variable} = {value}"
    for row in im.owned(net.rows, number):
        yield f"    row ({', '.join(map(str, row.fields[:row.count]))})"
    for action in im.owned(net.actions, number):
        yield f"    {action_text(action)}"
    for aspect in im.owned(net.aspects, number):
        yield f"    {rule_text(aspect, expression)}"


def node_lines(nodes):
    for number, node in enumerate(nodes):
        yield f"node {label(nodes, number)} = {node_text(node, lambda child: label(nodes, child))}"


def net_text(net, expression, head=()):
    """The head, if there is one, and the blocks of the sites, an empty line between them."""
    blocks = [head] if head else []
    blocks += [site_lines(net, number, expression) for number in range(len(net.sites))]
    return "\n".join("".join(f"{line}\n" for line in block) for block in blocks)


def written_out(net, most=None):
    """The text of a net with each rule's expressions written out in the rule.

    Expressions are cut after so many characters: one that is too long for a line stays so.
    """
    expressions = []
    for node in net.nodes:
        expressions.append(node_text(node, expressions.__getitem__)[:most])
    return net_text(net, expressions.__getitem__)


def numbered(net):
    """The text of a net with its node table, a line for each node."""
    return net_text(net, lambda number: label(net.nodes, number), list(node_lines(net.nodes)))


def write_text(net):
    """The text of an accepted net: rules written out where that says the same image
    in lines that a reader can take in, else with a line for each node."""
    text = written_out(net, RULE_COLUMNS + 1)
    if max(map(len, text.splitlines())) <= RULE_COLUMNS and read_text(text).net == net:
        return text
    return numbered(net)
