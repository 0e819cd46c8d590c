#!/usr/bin/env python3
"""Sample units, as stack code, as C and as LLVM IR.

    samples.py {stack,c,llvm} --units N [--seed N] [--statements N]

A unit has so many statements on the words 1 to 8 of its frame, drawn from a generator of its own, and returns word 1:

    0  a = c           1  a = a + c           2  a = b + d           3  if (a != c) b = 1

In C and in LLVM IR the frame is a pointer parameter, so that no compiler may leave a store out.
"""
import argparse
from typing import NamedTuple

UNIT_STEP = 11400714819323198485
FACTOR, SUMMAND, MODULUS = 6364136223846793005, 1442695040888963407, 1 << 64
STATEMENTS = 8
NAIVE_OF_KIND = [3, 6, 7, 8]    # naive instructions of each kind of statement; a branch is two
NAIVE_OF_END = 4                # adl, lod, and ret as two


class Statement(NamedTuple):
    """The kind, 0 to 3, and the words and the constant that were drawn for it."""
    kind: int
    a: int
    b: int
    d: int
    c: int


class Draws:
    """The numbers that one unit is drawn from."""

    def __init__(self, seed, unit):
        self.state = (seed + unit * UNIT_STEP) % MODULUS

    def next(self):
        self.state = (self.state * FACTOR + SUMMAND) % MODULUS
        return self.state >> 33

    def word(self):
        return 1 + self.next() % 8


def draw_statement(draws):
    """Draws only what the kind uses, in the order a, b, d, c."""
    kind = draws.next() % 4
    a = draws.word()
    b = draws.word() if kind in (2, 3) else 0
    d = draws.word() if kind == 2 else 0
    c = draws.next() % 400 if kind != 2 else 0
    return Statement(kind, a, b, d, c)


def draw_units(seed, units, statements):
    """For each unit the list of its statements."""
    drawn = []
    for unit in range(units):
        draws = Draws(seed, unit)
        drawn.append([draw_statement(draws) for _ in range(statements)])
    return drawn


def naive_count(units):
    """How many naive instructions the units have."""
    return sum(NAIVE_OF_END + sum(NAIVE_OF_KIND[statement.kind] for statement in unit) for unit in units)


def stack_operations(place, statement):
    _, a, b, d, c = statement
    return [
        f"adl {a}, con {c}, sto",
        f"adl {a}, adl {a}, lod, con {c}, add, sto",
        f"adl {a}, adl {b}, lod, adl {d}, lod, add, sto",
        f"adl {a}, lod, con {c}, beq L{place}, adl {b}, con 1, sto, lab L{place}",
    ][statement.kind].split(", ")


def stack_code(units):
    lines = []
    for number, unit in enumerate(units):
        lines.append(f"unit u{number}")
        for place, statement in enumerate(unit):
            lines += stack_operations(place, statement)
        lines += ["adl 1", "lod", "ret", "end"]
    return "".join(line + "\n" for line in lines)


def c_statement(statement):
    _, a, b, d, c = statement
    return [
        f"fp[{a}] = {c};",
        f"fp[{a}] = fp[{a}] + {c};",
        f"fp[{a}] = fp[{b}] + fp[{d}];",
        f"if (fp[{a}] != {c}) fp[{b}] = 1;",
    ][statement.kind]


def c_code(units):
    lines = []
    for number, unit in enumerate(units):
        lines.append(f"unsigned u{number}(unsigned *fp) {{")
        lines += ["    " + c_statement(statement) for statement in unit]
        lines += ["    return fp[1];", "}"]
    return "".join(line + "\n" for line in lines)


class LlvmUnit:
    """Makes the LLVM IR of one unit, with a new name for each value."""

    def __init__(self, number, unit):
        self.values = 0
        self.lines = [f"define i32 @u{number}(ptr %fp) {{"]
        for place, statement in enumerate(unit):
            self.statement(place, statement)
        self.lines += [f"  ret i32 {self.load(1)}", "}"]

    def value(self, text):
        self.values += 1
        self.lines.append(f"  %t{self.values} = {text}")
        return f"%t{self.values}"

    def address(self, word):
        return self.value(f"getelementptr i32, ptr %fp, i32 {word}")

    def load(self, word):
        return self.value(f"load i32, ptr {self.address(word)}")

    def store(self, word, value):
        self.lines.append(f"  store i32 {value}, ptr {self.address(word)}")

    def statement(self, place, statement):
        kind, a, b, d, c = statement
        if kind == 0:
            self.store(a, c)
        elif kind == 1:
            self.store(a, self.value(f"add i32 {self.load(a)}, {c}"))
        elif kind == 2:
            self.store(a, self.value(f"add i32 {self.load(b)}, {self.load(d)}"))
        else:
            same = self.value(f"icmp eq i32 {self.load(a)}, {c}")
            self.lines += [f"  br i1 {same}, label %L{place}, label %N{place}", f"N{place}:"]
            self.store(b, 1)
            self.lines += [f"  br label %L{place}", f"L{place}:"]


def llvm_code(units):
    return "".join(line + "\n" for number, unit in enumerate(units) for line in LlvmUnit(number, unit).lines)


PRINTERS = {"stack": stack_code, "c": c_code, "llvm": llvm_code}


def main():
    parser = argparse.ArgumentParser(description="Print sample units.")
    parser.add_argument("form", choices=PRINTERS)
    parser.add_argument("--units", type=int, required=True)
    parser.add_argument("--seed", type=int, default=7)
    parser.add_argument("--statements", type=int, default=STATEMENTS)
    options = parser.parse_args()
    print(PRINTERS[options.form](draw_units(options.seed, options.units, options.statements)), end="")


if __name__ == "__main__":
    main()
