#!/usr/bin/env python3
"""A compiler of a tiny language into the stack code of po.

    front.py PROGRAM..          prints the stack code of the programs, taken as one
    front.py --lines PROGRAM..  likewise, with a comment line `// FILE:LINE` before each statement, which tools/explain shows
    front.py --data PROGRAM..   prints the assembler's lines for their global variables

A program is a list of `var a, b[N];` and `func name(p, q) { .. }`; globals stand before the routines that use them. The routine
that is run is `main`. A value is a word of 32 bits. What each construct becomes (offsets are bytes: word k of a frame is at 4 * k):

    func f(a, b) {S}   unit f; a and b are words 1 and 2 of its frame, where the runtime puts arguments; S; con 0; ret; end
    var x;             the next free word of the frame, up to the block's end; outside routines the symbol x
    var x[N];          the next N words, or the symbol x. The name alone means the address of the first
    17, 'c'            con 17, con 99
    x                  adl 4k or adg x; lod         (of an array no lod: its address)
    x[e]               x; e; con 2; shl; add; lod   (with a constant e: x; con 4e; add; lod). x may be a word with an address
    e + f, and so on   e; f; add                    (+ - * & | ^ << >> >>>, with the precedence of LEVELS)
    -e, ~e             e; neg and e; not
    x = e; x[e] = f;   the address, as above without the lod; the value; sto
    if (e < f) {S}     e; f; bge else; S; lab else  (with `else {T}`: S; jmp end; lab else; T; lab end)
    while (e < f) {S}  lab while; e; f; bge done; S; jmp while; lab done
    return e;          e; ret
    f(e, g);           e; arg 0; g; arg 1; call f 2; pop

The stack must be empty where a block ends, and there is no operation that stores what already lies below an address. So calls
inside an expression are made first, from left to right: each result is taken from word 0 of the frame, where the runtime leaves
it (adl T; adl 0; lod; sto), into a word T of its own, and is read from there. Conditions compare signed numbers. Comments run
from `//` to the end of the line.
"""
import pathlib
import re
import sys

FRAME_WORDS, MOST_ARGUMENTS = 256, 4
TOKEN = re.compile(r"[ \t\r\n]+|//[^\n]*|(\d+|'.'|[A-Za-z_]\w*|>>>|<<|>>|==|!=|<=|>=|[-+*&|^~<>=(){}\[\],;])")
NAME, NUMBER = re.compile(r"(?!(func|var|if|else|while|return)$)[A-Za-z_]\w*"), re.compile(r"\d+")
LEVELS = [{"|": "ior"}, {"^": "xor"}, {"&": "and"}, {"<<": "shl", ">>": "sar", ">>>": "shr"}, {"+": "add", "-": "sub"}, {"*": "mul"}]
SIGNS = {"-": "neg", "~": "not"}
BRANCH_IF_NOT = {"==": "bne", "!=": "beq", "<": "bge", "<=": "bgt", ">": "ble", ">=": "blt"}


def tokens_of(path):
    """The pairs (token, file and line) of a file."""
    text, found, place, line = pathlib.Path(path).read_text("ascii"), [], 0, 1
    while place < len(text):
        match = TOKEN.match(text, place)
        if not match:
            sys.exit(f"front: {path}:{line}: unknown mark {text[place]!r}")
        if match.group(1):
            found.append((match.group(1), f"{path}:{line}"))
        line += match.group(0).count("\n")
        place = match.end()
    return found


class Reader:
    """Takes tokens, and reads expressions into tuples with their kind first."""

    def __init__(self, paths):
        self.tokens, self.place = [token for path in paths for token in tokens_of(path)] + [("", "the end")], 0

    def peek(self):
        return self.tokens[self.place][0]

    def next(self):
        self.place += 1
        return self.tokens[self.place - 1][0]

    def refuse(self, message):
        sys.exit(f"front: {self.tokens[self.place][1]}: {message}")

    def take(self, token):
        if not self.accept(token):
            self.refuse(f"`{token}` expected, `{self.peek()}` found")

    def accept(self, token):
        return self.peek() == token and bool(self.next())

    def word(self, pattern, what):
        if not pattern.fullmatch(self.peek()):
            self.refuse(f"{what} expected, `{self.peek()}` found")
        return self.next()

    def list_of(self, item, end):
        """What stands between here and `end`, with commas between."""
        items = []
        while not self.accept(end):
            if items:
                self.take(",")
            items.append(item())
        return items

    def expression(self, level=0):
        if level == len(LEVELS):
            return self.factor()
        left = self.expression(level + 1)
        while self.peek() in LEVELS[level]:
            operation = LEVELS[level][self.next()]
            left = ("operation", operation, left, self.expression(level + 1))
        return left

    def factor(self):
        token = self.peek()
        if token in SIGNS:
            return ("operation", SIGNS[self.next()], self.factor())
        if self.accept("("):
            inside = self.expression()
            self.take(")")
            return inside
        if token.startswith("'"):
            return ("number", ord(self.next()[1]))
        if NUMBER.fullmatch(token):
            return ("number", int(self.next()))
        return self.named("a value")

    def named(self, what):
        """A call, an element or a variable."""
        name = self.word(NAME, what)
        if self.accept("("):
            return ("call", name, self.list_of(self.expression, ")"))
        if self.accept("["):
            index = self.expression()
            self.take("]")
            return ("element", name, index)
        return ("variable", name)


class Compiler(Reader):
    """Makes the lines of stack code while it reads a program."""

    def __init__(self, paths, tells_lines=False):
        super().__init__(paths)
        self.lines, self.globals, self.tells_lines = [], [], tells_lines
        self.labels, self.words = 0, 0      # how many labels there are; how many words of the frame are taken
        self.places = {}                    # by name: the operation that gives the address, and the size of an array

    def program(self):
        while self.peek():
            if self.accept("func"):
                self.routine()
            else:
                self.take("var")
                self.globals += self.list_of(self.new_variable, ";")
                self.places.update({name: (f"adg {name}", size) for name, size in self.globals})

    def data(self):
        return [f"    .comm {name},{4 * (1 if size is None else size)},4" for name, size in self.globals]

    def routine(self):
        name, outside = self.word(NAME, "a name"), dict(self.places)
        self.take("(")
        parameters = self.list_of(lambda: self.word(NAME, "a name"), ")")
        if len(parameters) > MOST_ARGUMENTS:
            self.refuse(f"more than {MOST_ARGUMENTS} parameters")
        self.words = 1
        for parameter in parameters:
            self.declare(parameter)
        self.words = 1 + MOST_ARGUMENTS
        self.emit(f"unit {name}")
        self.block()
        self.emit("con 0", "ret", "end")
        self.places = outside

    def new_variable(self):
        name, size = self.word(NAME, "a name"), None
        if self.accept("["):
            size = int(self.word(NUMBER, "a number"))
            self.take("]")
        return name, size

    def declare(self, name, size=None):
        """Gives a variable its words of the frame, and answers its place."""
        place = f"adl {4 * self.words}"
        self.places[name] = (place, size)
        self.words += 1 if size is None else size
        if self.words > FRAME_WORDS:
            self.refuse(f"a frame has {FRAME_WORDS} words")
        return place

    def emit(self, *lines):
        self.lines += lines

    def block(self):
        places, words = dict(self.places), self.words
        self.take("{")
        while not self.accept("}"):
            self.statement()
        self.places, self.words = places, words

    def statement(self):
        if self.tells_lines:
            self.emit(f"// {self.tokens[self.place][1]}")
        if self.accept("var"):
            for variable in self.list_of(self.new_variable, ";"):
                self.declare(*variable)
        elif self.accept("while"):
            self.while_()
        elif self.accept("if"):
            self.if_()
        elif self.accept("return"):
            self.value(self.without_calls(self.expression()))
            self.take(";")
            self.emit("ret")
        else:
            self.call_or_assignment()

    def new_labels(self, *names):
        self.labels += 1
        return [f"{name}{self.labels}" for name in names]

    def while_(self):
        again, done = self.new_labels("while", "done")
        self.emit(f"lab {again}")
        self.branch_if_not(done)
        self.block()
        self.emit(f"jmp {again}", f"lab {done}")

    def if_(self):
        other, end = self.new_labels("else", "end")
        self.branch_if_not(other)
        self.block()
        if self.accept("else"):
            self.emit(f"jmp {end}", f"lab {other}")
            self.block()
            other = end
        self.emit(f"lab {other}")

    def branch_if_not(self, label):
        self.take("(")
        left, relation = self.expression(), self.peek()
        if relation not in BRANCH_IF_NOT:
            self.refuse(f"a relation expected, `{relation}` found")
        self.place += 1
        for side in self.without_calls((left, self.expression())):
            self.value(side)
        self.take(")")
        self.emit(f"{BRANCH_IF_NOT[relation]} {label}")

    def call_or_assignment(self):
        target = self.named("a statement")
        if target[0] == "call":
            self.call(*target[1:])
        else:
            self.take("=")
            target, value = self.without_calls((target, self.expression()))
            self.address(target)
            self.value(value)
            self.emit("sto")
        self.take(";")

    def call(self, name, arguments):
        if len(arguments) > MOST_ARGUMENTS:
            self.refuse(f"more than {MOST_ARGUMENTS} arguments")
        for place, argument in enumerate(self.without_calls(tuple(arguments))):
            self.value(argument)
            self.emit(f"arg {place}")
        self.emit(f"call {name} {len(arguments)}", "pop")

    def without_calls(self, expression):
        """Makes the calls of an expression, and gives it with the results' words in their places."""
        if expression[:1] == ("call",):
            self.call(*expression[1:])
            result = self.declare("")
            self.emit(result, "adl 0", "lod", "sto")
            return ("result", result)
        return tuple(self.without_calls(part) if isinstance(part, tuple) else part for part in expression)

    def value(self, expression):
        kind = expression[0]
        if kind == "number":
            self.emit(f"con {expression[1]}")
        elif kind == "result":
            self.emit(expression[1], "lod")
        elif kind == "operation":
            for operand in expression[2:]:
                self.value(operand)
            self.emit(expression[1])
        else:
            self.address(expression)
            if kind == "element" or self.places[expression[1]][1] is None:
                self.emit("lod")

    def address(self, expression):
        kind, name, *index = expression
        if name not in self.places:
            self.refuse(f"`{name}` isn't declared")
        if kind == "variable":
            self.emit(self.places[name][0])
            return
        self.value(("variable", name))
        self.value(("number", 4 * index[0][1]) if index[0][0] == "number" else ("operation", "shl", index[0], ("number", 2)))
        self.emit("add")


def main(words):
    option = words[0] if words[:1] in (["--data"], ["--lines"]) else ""
    compiler = Compiler(words[bool(option):], option == "--lines")
    compiler.program()
    print("\n".join(compiler.data() if option == "--data" else compiler.lines))


if __name__ == "__main__":
    main(sys.argv[1:])
