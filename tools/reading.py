"""Descriptions and stack code read as the program reads them: to their values, or to the first fault and the way it came.

`read_input` reads a whole input. A fault has its place, its kind, and the name of its way, which is a line of the table in
tools/explain. Lines and columns are counted from 1, columns in bytes. Bytes are held as Latin-1, so that a column is an index.
"""
import re
from typing import NamedTuple, Optional

MOST_BYTES, LINE_BYTES, NAME_BYTES = 4194304, 4096, 64
MOST_ENTRIES, MOST_REGS, MOST_UNITS, MOST_OPERATIONS, MOST_STACK = 512, 64, 65536, 65536, 64
TERM_NODES, TERM_DEPTH, MOST_TRANSFERS = 64, 16, 4
LOWEST, HIGHEST, HIGHEST_WORD = -2147483648, 2147483647, 4294967295
NAME = re.compile(r"[A-Za-z_][A-Za-z0-9_]*")
NUMBER = re.compile(r"-?[0-9]{1,10}")
BRANCHES = {"beq": "eq", "bne": "ne", "blt": "lt", "ble": "le", "bgt": "gt", "bge": "ge", "bltu": "ltu", "bgeu": "geu"}
BINARY = {"add": "+", "sub": "-", "mul": "*", "and": "&", "ior": "|", "xor": "^", "shl": "<<", "shr": ">>>", "sar": ">>"}
# ORDER: operations
# of each operation: the words behind it, what it pops and what it pushes
OPERATIONS = {
    "con": ("N", 0, 1), "adl": ("N", 0, 1), "adg": ("NAME", 0, 1), "lod": ("", 1, 1), "sto": ("", 2, 0),
    **{word: ("", 2, 1) for word in BINARY}, "neg": ("", 1, 1), "not": ("", 1, 1), "dup": ("", 1, 2), "pop": ("", 1, 0),
    "lab": ("NAME", 0, 0), "jmp": ("NAME", 0, 0), **{word: ("NAME", 2, 0) for word in BRANCHES},
    "arg": ("K", 1, 0), "call": ("NAME n", 0, 1), "ret": ("", 1, 0),
}
BOUNDARIES = {"lab", "jmp", "call", "ret", *BRANCHES}
RELATIONS = ("eq", "ne", "lt", "le", "gt", "ge", "ltu", "geu")
FIXED = ("fp", "rv", "arg0", "arg1", "arg2", "arg3")
HEAD = ("machine", "frame", "result", "args", "regs")
ORDER = {"set": 0, "cc": 1, "store": 2, "goto": 3, "if": 3, "call": 3, "ret": 3}


class Fault(Exception):
    """The first fault of a text: its column, kind and way, what the way's sentence tells of it, and its line once it is known."""

    def __init__(self, column, kind, way, line=None, **told):
        super().__init__(way)
        self.line, self.column, self.kind, self.way, self.told = line, column, kind, way, told


class Word(NamedTuple):
    """A word of a line, with the column of its first byte."""
    column: int
    text: str


class Entry(NamedTuple):
    """An entry: its line, its transfers, whether it clobbers cc, and its template. Terms are nested tuples (`Cursor.term`)."""
    line: int
    transfers: tuple
    clobbers: bool
    template: str


class Machine(NamedTuple):
    """A description: its names, its entries, and the number of the line behind its `end`."""
    names: dict
    entries: list
    behind: int


class Operation(NamedTuple):
    """An operation: its line, its word, and the words behind it; numbers are whole numbers."""
    line: int
    word: str
    rest: tuple


class Unit(NamedTuple):
    """A unit: its name, the line on which it begins, and its operations."""
    name: str
    line: int
    operations: list


def lines_of(text):
    """The lines of a text, without their line feeds and the carriage returns right before them."""
    parts = text.split("\n")
    ended = [part[:-1] if part.endswith("\r") else part for part in parts[:-1]]
    return ended + ([parts[-1]] if parts[-1] else [])


def words_of(line):
    """The words of a line of at most 4,096 bytes."""
    if len(line) > LINE_BYTES:
        raise Fault(LINE_BYTES + 1, "TooMany", "line")
    return [Word(match.start() + 1, match.group()) for match in re.finditer(r"[^ \t]+", line)]


def says_nothing(words):
    return not words or words[0].text.startswith("//")


def no_more(words, behind):
    if words:
        way = "comment behind" if words[0].text.startswith("//") else "further word"
        raise Fault(words[0].column, "Word", way, word=words[0].text, behind=behind)


def first_word(words, line, wanted, behind):
    if not words:
        raise Fault(len(line) + 1, "Word", "word missing", wanted=wanted, behind=behind)
    return words[0]


def name_in(word):
    text = word.text
    if NAME.fullmatch(text):
        if len(text) > NAME_BYTES:
            raise Fault(word.column + NAME_BYTES, "TooMany", "name", length=len(text))
        return text
    if text[0].isdigit() and NAME.fullmatch("_" + text):
        raise Fault(word.column, "Word", "name begins with a digit", word=text)
    bad = next((byte for byte in text if not re.match(r"[A-Za-z0-9_]", byte)), text[0])
    raise Fault(word.column, "Word", "no name", word=text, byte=bad)


def number_in(word, low, high, way):
    text = word.text
    if not NUMBER.fullmatch(text):
        form = "hexadecimal" if re.fullmatch(r"[-+]?0[xX][0-9a-fA-F]+", text) else \
            "plus sign" if re.fullmatch(r"\+[0-9]+", text) else \
            "digits" if re.fullmatch(r"-?[0-9]+", text) else "no number"
        mend = str(int(text, 16)) if form == "hexadecimal" else text.lstrip("+")
        raise Fault(word.column, "Word", form, word=text, mend=mend)
    if not low <= int(text) <= high:
        raise Fault(word.column, "Number", way, word=text, low=low, high=high)
    return int(text)


# Descriptions.

class Cursor:
    """A place in an entry's line, and the kinds of the operands that were met before it."""

    def __init__(self, line):
        self.line, self.at, self.kinds = line, 0, {}

    def rest(self):
        return self.line[self.at:]

    def wrong(self, way, **told):
        raise Fault(self.at + 1, "Word", way, found=self.word() or "the line's end", **told)

    def skip(self):
        self.at += len(self.rest()) - len(self.rest().lstrip(" \t"))

    def word(self):
        return re.match(r"[^ \t]*", self.rest()).group()

    def name(self):
        return re.match(r"[A-Za-z0-9_]*", self.rest()).group()

    def keyword(self, text, way, **told):
        if self.word() != text:
            self.wrong(way, wanted=text, **told)
        self.at += len(text)
        self.skip()

    def mark(self, byte, way="sign", **told):
        if not self.rest().startswith(byte):
            self.wrong(way, wanted=byte, **told)
        self.at += 1

    def ended(self, what):
        if self.rest() and self.rest()[0] not in " \t":
            self.wrong("blank", what=what, byte=self.rest()[0])
        self.skip()

    def operand(self, sign):
        """`%k` and the others, as their two bytes. A digit has one kind in an entry."""
        match = re.match(re.escape(sign) + r"([0-9])", self.rest())
        if not match:
            self.wrong("operand", wanted=sign + "0")
        digit = match.group(1)
        if self.kinds.setdefault(digit, sign) != sign:
            raise Fault(self.at + 1, "ListForm", "digit of another kind", operand=sign + digit, other=self.kinds[digit] + digit)
        self.at += 2
        return sign + digit

    def number(self):
        digits = re.match(r"-?[0-9]*", self.rest()).group()
        if not self.rest():
            self.wrong("term")
        if not NUMBER.fullmatch(digits):
            self.wrong("digits" if len(digits) > 10 else "term", word=digits, mend=digits)
        if not LOWEST <= int(digits) <= HIGHEST:
            raise Fault(self.at + 1, "Number", "number of a pattern", word=digits, low=LOWEST, high=HIGHEST)
        self.at += len(digits)
        return int(digits)

    def range(self):
        opened = self.at + 1
        self.mark("[")
        self.skip()
        low = self.number()
        self.skip()
        self.mark(",")
        self.skip()
        high = self.number()
        if low > high:
            raise Fault(opened, "Range", "range", low=low, high=high)
        self.skip()
        self.mark("]")
        return (low, high)

    def constant(self):
        column, new = self.at + 1, self.rest()[1:2] not in self.kinds
        operand = self.operand("#")
        blanks = len(self.rest()) - len(self.rest().lstrip(" \t"))
        if self.rest()[blanks:blanks + 1] != "[":
            return ("#", operand, None)
        if not new:
            raise Fault(column, "ListForm", "range again", operand=operand)
        self.skip()
        return ("#", operand, self.range())

    def fixed(self, way):
        if self.name() not in FIXED:
            self.wrong(way)
        name = self.name()
        self.at += len(name)
        return name

    def register(self):
        return self.operand("%") if self.rest().startswith("%") else self.fixed("left side")

    def wanted(self):
        """A part that is whole, or the beginning of one that others stand in."""
        self.skip()
        first, name = self.rest()[:1], self.name()
        if first == "(":
            self.at += 1
            return None, ("(", [])
        if first == "%":
            return self.operand("%"), None
        if first == "#":
            return self.constant(), None
        if first == "&":
            return self.operand("&"), None
        if first == "-" or first.isdigit():
            return self.number(), None
        if name in ("M", "neg", "not"):
            self.at += len(name)
            self.skip()
            self.mark("[" if name == "M" else "(")
            return None, (name, [])
        return self.fixed("term"), None

    def operator(self):
        for operator in (">>>", ">>", "<<", "+", "-", "*", "&", "|", "^"):
            if self.rest().startswith(operator):
                self.at += len(operator)
                return operator
        return self.wrong("operator")

    def term(self):
        """A term: a register's text, a number, ("#", operand, range or None), `&k`, ("M", t), ("neg", t), ("not", t) or (op, t, u)."""
        open_parts = []
        whole, opened = self.wanted()
        while opened or open_parts:
            if opened:
                open_parts.append(opened)
                whole, opened = self.wanted()
                continue
            self.skip()
            frame, parts = open_parts[-1]
            parts.append(whole)
            if frame == "(" and len(parts) == 1:
                parts.append(self.operator())
                whole, opened = self.wanted()
                continue
            self.mark("]" if frame == "M" else ")")
            open_parts.pop()
            whole = (frame, parts[0]) if frame != "(" else (parts[1], parts[0], parts[2])
        return whole

    def whole_term(self):
        term = self.term()
        self.ended("a term")
        return term

    def pair(self):
        left = self.whole_term()
        self.keyword("?", "comparison")
        return left, self.whole_term()

    def jump(self):
        self.keyword("goto", "goto")
        label = self.operand("@")
        self.ended("a label")
        return label

    def transfer(self):
        """A transfer: its kind, and its parts."""
        word = self.word()
        if word == "goto":
            return ("goto", self.jump())
        if word == "call":
            self.keyword("call", "goto")
            symbol = self.operand("&")
            self.ended("a symbol")
            return ("call", symbol)
        if word == "ret":
            self.keyword("ret", "goto")
            return ("ret",)
        if word == "if":
            return self.branch()
        if word == "cc":
            self.keyword("cc", "sets")
            self.keyword(":=", "sets")
            return ("cc", *self.pair())
        if self.name() == "M":
            self.at += 1
            self.skip()
            self.mark("[")
            address = self.term()
            self.skip()
            self.mark("]")
            self.ended("an address")
            self.keyword(":=", "sets")
            return ("store", address, self.whole_term())
        register = self.register()
        self.ended("a register")
        self.keyword(":=", "sets")
        return ("set", register, self.whole_term())

    def branch(self):
        self.keyword("if", "goto")
        if self.word() == "cc":
            self.keyword("cc", "goto")
            compared = ("cc",)
        else:
            compared = self.pair()
        if self.word() not in RELATIONS:
            self.wrong("relation")
        relation = self.word()
        self.at += len(relation)
        self.skip()
        return ("if", compared, relation, self.jump())


def nodes(term):
    """How many nodes a term has, and how deep it is."""
    if not isinstance(term, tuple) or term[0] == "#":
        return 1, 1
    parts = [nodes(part) for part in term[1:]]
    return 1 + sum(size for size, _ in parts), 1 + max(depth for _, depth in parts)


def terms_of(transfer):
    """The terms of a transfer, from left to right."""
    kind = transfer[0]
    if kind == "set":
        return [transfer[2]]
    if kind in ("cc", "store"):
        return list(transfer[1:3])
    return list(transfer[1]) if kind == "if" and transfer[1] != ("cc",) else []


def may_follow(before, transfer):
    """The way in which a transfer may not stand behind these, or None."""
    if len(before) == MOST_TRANSFERS:
        return "fifth transfer"
    if transfer[:2] == ("set", "fp"):
        return "fp set"
    for other in before:
        if other[:2] == transfer[:2] and transfer[0] == "set":
            return "set twice"
        if other[0] != "set" and ORDER[other[0]] >= ORDER[transfer[0]]:
            return "order"
    return None


def read_transfers(cursor):
    transfers = []
    while True:
        column = cursor.at + 1
        transfer = cursor.transfer()
        if any(size > TERM_NODES or depth > TERM_DEPTH for size, depth in map(nodes, terms_of(transfer))):
            raise Fault(column, "TooMany", "term size")
        if way := may_follow(transfers, transfer):
            raise Fault(column, "ListForm", way)
        transfers.append(transfer)
        if cursor.word() != ";" or len(transfers) > MOST_TRANSFERS:
            return tuple(transfers)
        cursor.keyword(";", "arrow")


def read_template(cursor):
    line, start = cursor.line, cursor.at
    at = start
    while at < len(line):
        byte = line[at]
        if byte in "%#@&":
            behind = line[at + 1:at + 2]
            if behind != byte and not (behind and behind in "0123456789" and cursor.kinds.get(behind) == byte):
                way = "mark alone" if not behind.isdigit() else "operand of the template"
                raise Fault(at + 1, "ListForm", way, mark=byte, operand=byte + behind, other=cursor.kinds.get(behind, ""))
            at += 1
        elif not " " <= byte <= "~":
            raise Fault(at + 1, "Word", "template byte", code=ord(byte))
        at += 1
    return line[start:]


def read_entry(line, number):
    """The entry of a line."""
    cursor = Cursor(line)
    cursor.skip()
    cursor.at += len("insn")            # by which the line is known for an entry's
    cursor.skip()
    transfers = read_transfers(cursor)
    clobbers = cursor.word() == "clobber"
    if clobbers:
        if any(transfer[0] == "cc" for transfer in transfers):
            raise Fault(cursor.at + 1, "NeverMatches", "clobbers its own")
        cursor.keyword("clobber", "arrow")
        cursor.keyword("cc", "clobber")
    if cursor.word() != "=>":
        cursor.wrong("arrow")
    cursor.at += 2
    cursor.mark(" ", "space behind the arrow")
    return Entry(number, transfers, clobbers, read_template(cursor))


def read_names(words, line, keyword):
    """The names of a head line, in the order in which the line is looked at."""
    least, most = {"args": (4, 4), "regs": (1, MOST_REGS)}.get(keyword, (1, 1))
    if keyword == "regs" and len(words) > most:
        raise Fault(words[most].column, "TooMany", "registers")
    if keyword != "args":
        first_word(words, line, "a name", keyword)
    names = [name_in(word) for word in words[:most]]
    if len(names) < least:
        raise Fault(len(line) + 1, "Word", "args missing", count=len(names))
    no_more(words[most:], "four names" if keyword == "args" else "its name")
    return names


def read_head(words, line, place, taken, names):
    """One of the five head lines."""
    keyword = HEAD[place]
    if words[0].text != keyword:
        raise Fault(words[0].column, "Word", "head word", word=words[0].text, wanted=keyword)
    names[keyword] = read_names(words[1:], line, keyword)
    for word in words[1:] if keyword != "machine" else []:
        if word.text in taken:
            raise Fault(word.column, "Duplicate", "register", word=word.text, first=taken[word.text])
        taken[word.text] = keyword


def read_machine(lines):
    """The machine that a text begins with."""
    names, entries, taken, place = {}, [], {}, 0
    for number, line in enumerate(lines, 1):
        try:
            words = words_of(line)
            if says_nothing(words):
                continue
            if place < len(HEAD):
                read_head(words, line, place, taken, names)
                place += 1
            elif words[0].text == "insn":
                if len(entries) == MOST_ENTRIES:
                    raise Fault(1, "TooMany", "entries")
                entries.append(read_entry(line, number))
            elif words[0].text == "end":
                no_more(words[1:], "end")
                return Machine(names, entries, number + 1)
            else:
                raise Fault(words[0].column, "Word", "entry or end", word=words[0].text)
        except Fault as fault:
            fault.line = number
            raise
    wanted = HEAD[place] if place < len(HEAD) else "end"
    raise Fault(1, "Word", "no description" if place == 0 else "description ends", line=len(lines) + 1, wanted=wanted)


# Stack code.

class Open:
    """A unit that has begun: its operations, what lies on the stack (the operation that pushed each value), its labels and jumps."""

    def __init__(self, name, line):
        self.unit = Unit(name, line, [])
        self.stack, self.labels, self.jumps, self.arguments = [], {}, [], set()

    def add(self, operation, column):
        word, rest = operation.word, operation.rest
        _, pops, pushes = OPERATIONS[word]
        depth = len(self.stack)
        if word == "lab" and rest[0] in self.labels:
            raise Fault(column, "Duplicate", "label", word=rest[0], first=self.labels[rest[0]])
        if depth < pops:
            raise Fault(1, "StackUnderflow", "underflow", word=word, pops=pops, depth=depth)
        if depth - pops + pushes > MOST_STACK:
            raise Fault(1, "TooMany", "stack")
        if word in BOUNDARIES and depth > pops:
            left = self.stack[:depth - pops]
            way = {"call": "left at a call", "ret": "left at ret", "lab": "left at a label"}.get(word, "left at a jump")
            raise Fault(1, "StackAtBoundary", way, word=word, left=left, count=len(left), pops=pops)
        missing = [k for k in range(rest[1])if k not in self.arguments] if word == "call" else []
        if missing:
            raise Fault(1, "ArgMissing", "argument", word=rest[0], missing=", ".join(map(str, missing)), count=rest[1])
        self.unit.operations.append(operation)
        self.stack = self.stack[:depth - pops] + [operation] * pushes
        self.note(operation, column)

    def note(self, operation, column):
        word, rest = operation.word, operation.rest
        if word == "lab":
            self.labels[rest[0]] = operation.line
        elif word == "jmp" or word in BRANCHES:
            self.jumps.append((operation, column))
        if word == "arg":
            self.arguments.add(rest[0])
        elif word in BOUNDARIES:
            self.arguments = set()

    def end(self, line):
        for operation, column in self.jumps:
            if operation.rest[0] not in self.labels:
                raise Fault(column, "NoLabel", "label missing", line=operation.line, word=operation.rest[0], labels=list(self.labels))
        operations = self.unit.operations
        if not operations:
            raise Fault(1, "FallsOff", "no operation", line=line, unit=self.unit.name)
        if operations[-1].word not in ("jmp", "ret"):
            raise Fault(1, "FallsOff", "end reached", line=line, unit=self.unit.name, word=operations[-1].word)
        return self.unit


def operation_words(word, words, line):
    """The words behind an operation's word."""
    form = OPERATIONS[word][0]
    if form == "":
        no_more(words, word)
        return ()
    if form == "NAME n":
        name = name_in(first_word(words, line, "a name", word))
        count = number_in(first_word(words[1:], line, "the number of arguments", f"{word} {name}"), 0, 4, "arguments of a call")
        no_more(words[2:], "call")
        return (name, count)
    first = first_word(words, line, "a name" if form == "NAME" else "a number", word)
    bounds = (0, 3, "argument's number") if form == "K" else (LOWEST, HIGHEST_WORD, "word's number")
    value = name_in(first) if form == "NAME" else number_in(first, *bounds)
    no_more(words[1:], word)
    return (value,)


def inside_line(begun, number, words, line):
    """A line of a unit that isn't `end`."""
    word = words[0].text
    if word not in OPERATIONS:
        way = "unit inside a unit" if word == "unit" else "description behind" if word in ("insn", "machine") else "no operation's word"
        raise Fault(words[0].column, "Word", way, word=word, unit=begun.unit.name)
    if len(begun.unit.operations) == MOST_OPERATIONS:
        raise Fault(1, "TooMany", "operations")
    rest = operation_words(word, words[1:], line)
    begun.add(Operation(number, word, rest), words[1].column if len(words) > 1 else 1)


def outside_line(units, number, words, line):
    """A line between units: a unit begins."""
    if words[0].text != "unit":
        way = "description behind" if words[0].text in ("insn", "machine") else "between units"
        raise Fault(words[0].column, "Word", way, word=words[0].text)
    if len(units) == MOST_UNITS:
        raise Fault(1, "TooMany", "units")
    name = name_in(first_word(words[1:], line, "a name", "unit"))
    no_more(words[2:], "unit")
    if name in units:
        raise Fault(words[1].column, "Duplicate", "unit", word=name, first=units[name].line)
    return Open(name, number)


def read_units(lines, behind=1):
    """The units of the lines from this number on."""
    units, begun = {}, None
    for number, line in enumerate(lines[behind - 1:], behind):
        try:
            words = words_of(line)
            if says_nothing(words):
                continue
            if begun is None:
                begun = outside_line(units, number, words, line)
            elif words[0].text == "end":
                no_more(words[1:], "end")
                units[begun.unit.name] = begun.end(number)
                begun = None
            else:
                inside_line(begun, number, words, line)
        except Fault as fault:
            fault.line = fault.line or number
            raise
    if begun is not None:
        raise Fault(1, "Word", "text ends in a unit", line=max(len(lines), behind - 1) + 1, unit=begun.unit.name, first=begun.unit.line)
    return list(units.values())


def place_of(text, offset):
    """The line and the column of a byte."""
    before = text[:offset]
    return before.count("\n") + 1, offset - before.rfind("\n")


def read_input(text):
    """The machine and the units of an input."""
    if len(text) > MOST_BYTES:
        line, column = place_of(text, MOST_BYTES)
        raise Fault(column, "TooMany", "input", line=line)
    lines = lines_of(text)
    machine = read_machine(lines)
    return machine, read_units(lines, machine.behind)


# Naive code, as far as places are told by it.

class Instruction(NamedTuple):
    """An instruction of naive code: its block, its number in it, its text, its operation, the values it reads and the one it makes."""
    block: int
    number: int
    text: str
    operation: Operation
    reads: tuple
    makes: Optional[int]


class Expansion:
    """The naive code of a unit."""

    def __init__(self, unit):
        self.code, self.block, self.in_block, self.named, self.stack, self.values = [], 0, 0, False, [], 0
        for operation in unit.operations:
            self.expand(operation)

    def put(self, text, operation, reads=(), makes=False):
        made = None
        if makes:
            made, self.values = self.values, self.values + 1
            self.stack.append(made)
            text = f"v{made} := {text}"
        self.code.append(Instruction(self.block, self.in_block, text, operation, tuple(reads), made))
        self.in_block += 1

    def next_block(self):
        self.block, self.in_block, self.named = self.block + 1, 0, False

    def take(self, count):
        taken = self.stack[len(self.stack) - count:]
        del self.stack[len(self.stack) - count:]
        return taken

    def expand(self, operation):
        word, rest = operation.word, operation.rest
        taken = self.take(OPERATIONS[word][1])
        names = [f"v{value}" for value in taken]
        if word in ("con", "adl", "adg"):
            number = rest[0] if word == "adg" else (rest[0] + 2 ** 31) % 2 ** 32 - 2 ** 31
            self.put({"con": f"{number}", "adl": f"(fp + {number})", "adg": f"&{number}"}[word], operation, (), True)
        elif word == "lod":
            self.put(f"M[{names[0]}]", operation, taken, True)
        elif word == "sto":
            self.put(f"M[{names[0]}] := {names[1]}", operation, taken)
        elif word in BINARY:
            self.put(f"({names[0]} {BINARY[word]} {names[1]})", operation, taken, True)
        elif word in ("neg", "not"):
            self.put(f"{word}({names[0]})", operation, taken, True)
        elif word == "dup":
            self.stack += taken * 2
        elif word == "lab":
            if self.named or self.in_block:
                self.next_block()
            self.named = True
        elif word == "arg":
            self.put(f"arg{rest[0]} := {names[0]}", operation, taken)
        elif word != "pop":
            self.control(operation, taken, names)

    def control(self, operation, taken, names):
        word, rest = operation.word, operation.rest
        if word in BRANCHES:
            self.put(f"cc := {names[0]} ? {names[1]}", operation, taken)
            self.put(f"if cc {BRANCHES[word]} goto {rest[0]}", operation)
        elif word == "jmp":
            self.put(f"goto {rest[0]}", operation)
        elif word == "ret":
            self.put(f"rv := {names[0]}", operation, taken)
            self.put("ret", operation)
        else:
            self.put(f"call {rest[0]} {rest[1]}", operation)
        self.next_block()
        if word == "call":
            self.put("rv", operation, (), True)

    def live_at(self, point):
        """The instructions whose values live at a point: from the point of the write to that of the last read."""
        last = {}
        for number, instruction in enumerate(self.code):
            for value in instruction.reads:
                last[value] = 2 * number
        return [instruction for number, instruction in enumerate(self.code)
                if instruction.makes is not None and 2 * number + 1 <= point <= last.get(instruction.makes, 2 * number + 1)]
