#!/usr/bin/env python3
"""Compares what random programs mean to `srmtrun --reference` with what they mean to others.

    bench/compare_meanings.py [--count N] [--seed S] [--jobs J] [--program FILE] [--other "COMMAND"] [--no-gcc] [--keep DIR]

Each seed from S on makes one program of the language: functions, bounded loops and recursion, arrays, pointers, texts,
volatile objects, conversions, one file or two, sometimes an input or few turns. It is run by the built program (--program;
crates/srmtrun/out/srmtrun, if it is left out) and by a command that takes the same words, if one is given: both must
write and tell the same bytes and have the same status.

Half of the programs are plain: no C compiler may order them in more than one way, and at most a sum, product, shift or
quotient of theirs is undefined. gcc with its sanitizers must write the same as srmtrun, with the same status, where the
run ends by itself, and must report an error at the same line where it ends as undefined; gcc -O2 must write the same too,
where it ends by itself. Where gcc's sanitizers see something else, clang's may see the same in their place, if it is there.

    bench/compare_meanings.py --print SEED         prints the program of a seed

With the counts each difference is printed with its seed. The status is 1 where there is one.
"""
import argparse
import collections
import os
import random
import re
import shlex
import shutil
import subprocess
import sys
import tempfile
from concurrent.futures import ThreadPoolExecutor
from dataclasses import dataclass

HERE = os.path.dirname(os.path.abspath(__file__))
BUILT = os.path.join(HERE, "..", "crates", "srmtrun", "out", "srmtrun")

INTEGERS = ["_Bool", "char", "signed char", "unsigned char", "short", "unsigned short"] + ["int"] * 5 + ["unsigned"] * 4
ELEMENTS = ["int", "int", "unsigned", "char", "unsigned char", "short"]
UNSIGNED = ("_Bool", "unsigned char", "unsigned short", "unsigned")
EDGES = [127, 128, 255, 256, 32767, 32768, 65535, 65536, 2147483647, 1000000007]
# The binding of operators, tightest last.
COMMA, ASSIGN, CHOICE, OR, AND, UNARY, POSTFIX, PRIMARY = 0, 1, 2, 3, 4, 13, 14, 15
LEVELS = {"|": 5, "^": 6, "&": 7, "==": 8, "!=": 8, "<": 9, ">": 9, "<=": 9, ">=": 9, "<<": 10, ">>": 10, "+": 11, "-": 11,
          "*": 12, "/": 12, "%": 12}
# The most turns that a function takes in one call, roughly.
MOST_TURNS = 3000

HELPERS = """void digits(int n) {
  if (n <= -10) digits(n / 10);
  putchar('0' - n % 10);
}
void print(int n) {
  if (n < 0) putchar('-');
  digits(n < 0 ? n : -n);
  putchar(' ');
}
"""
# What every source may use without declaring it; and output without a buffer, so that none is lost where gcc's run is cut off.
PRELUDE = """#include <stdio.h>
#include <stdlib.h>
__attribute__((constructor)) static void unbuffered(void) { setvbuf(stdout, NULL, _IONBF, 0); }
"""


@dataclass
class Variable:
    """An object, or a pointer into an object of at least `extent` elements."""
    name: str
    element: str
    dims: tuple = ()
    pointer: bool = False
    extent: int = 0
    const: bool = False
    volatile: bool = False
    fixed: bool = False         # the counter of a loop, which nothing else sets
    part: int = 0
    shared: bool = True         # of file scope: both files see it
    start: str = ""             # of file scope: what a pointer begins with


@dataclass
class Function:
    name: str
    result: str                 # a type, or "" for none
    params: list                # of (type, extent): extent 0 for a number, else a pointer to so many elements
    pure: bool
    part: int
    cost: int = 1
    bounded: bool = False       # its first argument counts its calls of itself
    body: str = ""

    def head(self, names=None):
        each = []
        for i, (type_, extent) in enumerate(self.params):
            name = names[i] if names else ""
            each.append(f"{type_} *{name}" if extent else f"{type_} {name}".rstrip())
        return f"{self.result or 'void'} {self.name}({', '.join(each) or 'void'})"


@dataclass
class Made:
    """A program: the texts of its files, its input, and how many turns it may take, if that is given."""
    main: str
    binary: str
    input: bytes
    turns: int
    plain: bool


class Maker:
    def __init__(self, seed):
        self.random = random.Random(seed)
        self.plain = self.chance(0.5)
        self.two = self.chance(0.25)
        self.globals = []
        self.functions = []
        self.scopes = []
        self.made = 0
        self.part = 0
        self.weight = 1         # how often the place that is made runs in one call, at most
        self.cost = 1
        self.loops = 0
        self.pure = False       # nothing but locals may be changed
        self.result = ""
        self.family = []        # functions of one type, which a table and a pointer hold
        self.has_table = False  # they are all there

    def chance(self, p):
        return self.random.random() < p

    def pick(self, items):
        return self.random.choice(items)

    def below(self, n):
        return self.random.randrange(n)

    def name(self, letter):
        self.made += 1
        return f"{letter}{self.made}"

    # What is in sight.

    def seen(self):
        found = {v.name: v for v in self.globals if v.shared or v.part == self.part}
        for scope in self.scopes:
            found.update(scope)
        return list(found.values())

    def is_local(self, variable):
        return any(scope.get(variable.name) is variable for scope in self.scopes)

    def sees(self, test):
        return [v for v in self.seen() if test(v)]

    def may_set(self, v):
        return not v.const and not v.fixed and (not self.pure or (self.is_local(v) and not v.pointer))

    # Expressions: each is a text and how tightly it binds.

    def tight(self, made, least):
        text, level = made
        if level < least or self.chance(0.04):
            return f"({text})"
        return text

    def text(self, depth, least=ASSIGN):
        return self.tight(self.value(depth), least)

    def literal(self):
        kind = self.below(12)
        if kind < 6:
            return str(self.below(10)), PRIMARY
        if kind == 6:
            return f"{self.below(300)}u", PRIMARY
        if kind == 7:
            return self.pick([f"0x{self.below(4096):x}", f"0{self.below(64):o}", "0xffffffff", "0x80000000", "4294967295u"]), PRIMARY
        if kind == 8:
            return self.pick(["'a'", "'\\n'", "'\\377'", "'\\x7f'", "'0'", "'\\\\'"]), PRIMARY
        if kind == 9:
            return f"-{self.below(200)}", UNARY
        if kind == 10:
            return self.pick(["EOF", "NULL == 0", "-2147483647 - 1"]), OR
        return str(self.pick(EDGES)), PRIMARY

    def index(self, length, depth):
        """An index of an array of this length, nearly always within it."""
        counters = self.sees(lambda v: v.fixed and not v.pointer and 0 < v.extent <= length)
        if counters and self.chance(0.5):
            return self.pick(counters).name
        if self.chance(0.4):
            return str(self.below(length))
        if not self.plain and self.chance(0.03):
            return self.text(1)
        made = self.value(depth - 1)
        if self.chance(0.5):
            return f"(unsigned){self.tight(made, UNARY)} % {length}"
        return f"{self.tight(made, 8)} & {self.pick([m for m in (0, 1, 3, 7) if m < length])}"

    def place(self, depth, settable=False):
        """An lvalue of an integer type, and that type; or None."""
        found = self.sees(lambda v: not settable or self.may_set(v))
        if self.pure and settable:
            found = [v for v in found if not v.pointer]
        if not found:
            return None
        v = self.pick(found)
        if v.pointer:
            if self.chance(0.3):
                return f"*{v.name}", UNARY, v.element
            if self.chance(0.3):
                return f"*({v.name} + {self.paren_index(v.extent, depth)})", UNARY, v.element
            return f"{v.name}[{self.index(v.extent, depth)}]", POSTFIX, v.element
        if len(v.dims) == 2:
            row = f"{v.name}[{self.index(v.dims[0], depth)}]"
            if self.chance(0.2):
                return f"*({row} + {self.paren_index(v.dims[1], depth)})", UNARY, v.element
            return f"{row}[{self.index(v.dims[1], depth)}]", POSTFIX, v.element
        if v.dims:
            if self.chance(0.1):
                return f"({self.index(v.dims[0], depth)})[{v.name}]", POSTFIX, v.element
            return f"{v.name}[{self.index(v.dims[0], depth)}]", POSTFIX, v.element
        if self.chance(0.03):
            return f"*&{v.name}", UNARY, v.element
        return v.name, PRIMARY, v.element

    def paren_index(self, length, depth):
        return f"({self.index(length, depth)})"

    def value(self, depth):
        """An expression with an integer value."""
        if depth <= 0 or self.chance(0.1):
            if self.chance(0.4):
                return self.literal()
            found = self.place(0)
            return found[:2] if found else self.literal()
        kind = self.below(100)
        if kind < 22:
            found = self.place(depth)
            return found[:2] if found else self.literal()
        if kind < 56:
            return self.binary(depth)
        if kind < 63:
            op = self.pick(["-", "~", "!", "!", "+"])
            inner = self.text(depth - 1, UNARY)
            return f"{op}{' ' if inner[0] == op else ''}{inner}", UNARY
        if kind < 70:
            return f"({self.pick(INTEGERS)}){self.text(depth - 1, UNARY)}", UNARY
        if kind < 75:
            middle = self.text(depth - 1, COMMA)
            return f"{self.text(depth - 1, OR)} ? {middle} : {self.text(depth - 1, CHOICE)}", CHOICE
        if kind < 81:
            op, level = self.pick([("&&", AND), ("||", OR)])
            return f"{self.text(depth - 1, level)} {op} {self.text(depth - 1, level + 1)}", level
        if kind < 83:
            return f"({self.text(depth - 1)}, {self.text(depth - 1)})", PRIMARY
        if kind < 86:
            return self.size()
        if kind < 89:
            return self.pointers()
        if kind < 94:
            made = self.call(depth, True)
            return made if made else self.literal()
        if self.plain or self.pure:
            return self.literal()
        return self.effect(depth)

    def binary(self, depth):
        op = self.pick(["+", "+", "+", "-", "-", "-", "&", "|", "^", "*", "/", "%", "<<", ">>", "<", ">", "<=", ">=", "==", "!="])
        level = LEVELS[op]
        left, right = self.value(depth - 1), self.value(depth - 1)
        careful = self.chance(0.95 if self.plain else 0.85)
        if op in ("/", "%") and careful:
            right = f"({self.tight(right, 6)} | 1)", PRIMARY
        if op in ("<<", ">>") and careful:
            right = f"({self.tight(right, 8)} & {self.pick([3, 7, 15, 31])})", PRIMARY
        if op == "<<" and careful:
            left = self.pick([f"({self.tight(left, 8)} & 255)", f"(unsigned){self.tight(left, UNARY)}"]), UNARY
        if op in ("*", "+", "-") and careful and self.chance(0.6):
            left = self.small(left)
            right = self.small(right) if op == "*" else right
        return f"{self.tight(left, level)} {op} {self.tight(right, level + 1)}", level

    def small(self, made):
        """The same expression, as a small number or without a sign."""
        if self.chance(0.5):
            return f"({self.tight(made, 8)} & {self.pick([15, 255, 1023, 4095])})", PRIMARY
        return f"(unsigned){self.tight(made, UNARY)}", UNARY

    def size(self):
        found = self.sees(lambda v: not v.pointer and v.extent == 0)
        if found and self.chance(0.6):
            return f"(int)sizeof {self.pick(found).name}", UNARY
        return f"(int)sizeof({self.pick(INTEGERS)})", UNARY

    def pointers(self):
        """A comparison or a difference of pointers, or whether one is there."""
        found = self.sees(lambda v: v.dims and len(v.dims) == 1 and not v.volatile)
        if not found:
            return self.literal()
        v = self.pick(found)
        one, two = (f"{v.name} + {self.below(v.dims[0] + 1)}", f"&{v.name}[{self.below(v.dims[0])}]")
        if not self.plain and self.chance(0.1):
            others = [w for w in found if w.element == v.element and w is not v]
            if others:
                two = self.pick(others).name
        kind = self.below(3)
        if kind == 0:
            return f"(int)({one} - {two})", UNARY
        if kind == 1:
            return f"({one} {self.pick(['<', '>', '<=', '>=', '==', '!='])} {two})", PRIMARY
        return self.pick([f"!{v.name}", f"({one} && {two})", f"({two} != NULL)"]), UNARY

    def effect(self, depth):
        """An expression that changes something, where no C compiler must agree on the order."""
        kind = self.below(10)
        if kind == 0:
            return "getchar()", POSTFIX
        if kind == 1:
            return f"putchar({self.text(depth - 1)})", POSTFIX
        found = self.place(depth, True)
        if not found:
            return self.literal()
        text, level, element = found
        if kind < 4:
            return f"{self.pick(['++', '--'])}{self.tight((text, level), UNARY)}", UNARY
        if kind < 6:
            return f"{self.tight((text, level), POSTFIX)}{self.pick(['++', '--'])}", POSTFIX
        return self.assignment(text, level, element, depth), ASSIGN

    def assignment(self, text, level, element, depth, calls=True):
        left = self.tight((text, level), UNARY)
        made = self.value(depth - 1)
        if self.chance(0.55):
            if element == "int" and self.chance(0.6):
                return f"{left} = {self.tight(made, 8)} & {self.pick([255, 1023, 65535])}"
            return f"{left} = {self.tight(made, ASSIGN)}"
        op = self.pick(["+=", "-=", "+=", "-=", "*=", "/=", "%=", "<<=", ">>=", "&=", "|=", "^="])
        careful = self.chance(0.95 if self.plain else 0.85)
        if op in ("/=", "%=") and careful:
            return f"{left} {op} {self.tight(made, 6)} | 1"
        if op == "<<=" and careful and element not in UNSIGNED:
            op = ">>="
        if op in ("<<=", ">>="):
            return f"{left} {op} {self.tight(made, 8)} & {7 if careful else 63}"
        if op in ("+=", "-=", "*=") and careful and element == "int":
            return f"{left} {op} {self.tight(made, 8)} & {self.pick([3, 15, 255])}"
        return f"{left} {op} {self.tight(made, ASSIGN)}"

    # Calls.

    def argument(self, type_, extent, depth):
        if not extent:
            return self.text(depth - 1)
        found = self.sees(lambda v: v.element == type_ and not v.const and not v.volatile and not v.fixed
                          and (v.extent if v.pointer else v.dims[-1] if v.dims else 0) >= extent)
        if not found:
            return None
        v = self.pick(found)
        return f"{v.name}[{self.below(v.dims[0])}]" if len(v.dims) == 2 else v.name

    def arguments(self, f, depth):
        """The arguments of a call, or None where there is none for one of its parameters."""
        given = []
        for i, (type_, extent) in enumerate(f.params):
            if f.bounded and i == 0:
                given.append(str(self.below(12)) if self.plain or self.chance(0.97) else "1010")
                continue
            one = self.argument(type_, extent, depth)
            if one is None:
                return None
            given.append(one)
        return given

    def call(self, depth, in_expression):
        pure = self.pure or (in_expression and self.plain)
        found = [f for f in self.functions if (f.pure or not pure) and f.cost * self.weight <= MOST_TURNS and f.name != "main"
                 and (f.result or not in_expression)]
        if not found:
            return None
        f = self.pick(found)
        given = self.arguments(f, depth)
        if given is None:
            return None
        self.cost += self.weight * f.cost
        callee = f.name
        if f.params == [("int", 0), ("int", 0)] and f.result == "int" and self.has_table:
            pick = self.below(6)
            if pick == 0:
                callee = f"table[{self.index(3, depth)}]"
            elif pick == 1:
                callee = self.pick([f"(*{f.name})", f"(&{f.name})"])
            elif pick == 2 and not (self.plain and in_expression):
                callee = "chosen"
            self.cost += self.weight * max(g.cost for g in self.family)
        return f"{callee}({', '.join(given)})", POSTFIX

    # Statements.

    def indent(self, lines):
        return ["  " + line for line in lines]

    def declaration(self, depth):
        kind = self.below(10 if self.plain else 12)
        volatile = self.chance(0.06) and not self.pure
        word = "volatile " if volatile else ""
        shadowed = self.sees(lambda v: self.is_local(v) and not v.fixed and v.name not in self.scopes[-1])
        name = self.pick(shadowed).name if shadowed and self.chance(0.08) else self.name("v")
        if kind < 5:
            element = self.pick(INTEGERS)
            start = "" if not self.plain and self.chance(0.25) else f" = {self.text(depth)}"
            line, v = f"{word}{element} {name}{start};", Variable(name, element, volatile=volatile)
        elif kind < 7:
            element, n = self.pick(ELEMENTS), 1 + self.below(6)
            given = ", ".join(self.text(1) for _ in range(1 + self.below(n)))
            start = "" if not self.plain and self.chance(0.25) else f" = {{{given}}}"
            line, v = f"{word}{element} {name}[{n}]{start};", Variable(name, element, (n,), volatile=volatile)
        elif kind == 7:
            m, n = 1 + self.below(3), 1 + self.below(4)
            rows = ", ".join("{" + ", ".join(self.text(1) for _ in range(1 + self.below(n))) + "}" for _ in range(1 + self.below(m)))
            line, v = f"int {name}[{m}][{n}] = {{{rows}}};", Variable(name, "int", (m, n))
        elif kind == 8:
            text = self.pick(["abc", "a\\0b", "\\377x", "hello", ""])
            size = len(text.encode().decode("unicode_escape")) + 1
            element = self.pick(["char", "unsigned char"])
            line, v = f"{element} {name}[] = \"{text}\";", Variable(name, element, (size,))
        else:
            found = self.sees(lambda v: len(v.dims) == 1 and not v.const and not v.volatile)
            if not found or self.pure:
                return self.declaration(depth)
            to = self.pick(found)
            element = to.element
            skip = self.below(to.dims[0])
            line = f"{element} *{name} = {to.name} + {skip};"
            v = Variable(name, element, pointer=True, extent=to.dims[0] - skip)
        if len(re.findall(rf"\b{name}\b", line)) > 1:     # it would name itself, not what it hides
            v.name = self.name("v")
            line = re.sub(rf"\b{name}\b", v.name, line, count=1)
        self.scopes[-1][v.name] = v
        return [line]

    def block(self, depth, count):
        self.scopes.append({})
        lines = []
        if self.chance(0.5):
            lines += self.declaration(depth)
        for _ in range(count):
            lines += self.statement(depth)
        self.scopes.pop()
        return lines

    def braced(self, head, depth, count, tail=""):
        return [head + " {"] + self.indent(self.block(depth, count)) + ["}" + tail]

    def loop(self, depth):
        n = 1 + self.below(6)
        if self.weight * n > MOST_TURNS // 4:
            return ["putchar('+');"] if not self.pure else [";"]
        before, self.weight, self.loops = self.weight, self.weight * n, self.loops + 1
        self.cost += self.weight + 1
        counter = Variable(self.name("i"), "int", fixed=True, extent=n)
        self.scopes.append({counter.name: counter})
        kind = self.below(5)
        count = 1 + self.below(3)
        i = counter.name
        if kind < 2:
            step = self.pick([f"{i}++", f"++{i}", f"{i} += 1", f"{i} = {i} + 1"])
            lines = self.braced(f"for (int {i} = 0; {i} < {n}; {step})", depth - 1, count)
        elif kind == 2:
            lines = [f"int {i} = {n};"] + self.braced(f"while ({i}-- > 0)", depth - 1, count)
        elif kind == 3:
            lines = [f"int {i} = 0;"] + self.braced("do", depth - 1, count, f" while (++{i} < {n});")
        else:
            second, start = self.name("j"), self.text(1)
            self.scopes[-1][second] = Variable(second, "int")
            lines = self.braced(f"for (int {i} = {n - 1}, {second} = {start}; {i} >= 0; {i}--)", depth - 1, count)
        self.scopes.pop()
        self.weight, self.loops = before, self.loops - 1
        return ["{"] + self.indent(lines) + ["}"] if kind in (2, 3) else lines

    def walk(self, depth):
        """A loop of a pointer through an array."""
        found = self.sees(lambda v: len(v.dims) == 1 and not v.const and not v.volatile and (not self.pure or self.is_local(v)))
        if not found:
            return self.loop(depth)
        a = self.pick(found)
        n, p = a.dims[0], self.name("p")
        before, self.weight = self.weight, self.weight * n
        if self.weight > MOST_TURNS // 4:
            self.weight = before
            return [";"]
        self.cost += self.weight + 1
        made = self.text(depth - 1, 8)
        self.weight = before
        body = self.pick([f"*{p} = {made} & 127;", f"*{p} += {made} & 7;", f"if (*{p}) (*{p})--; else *{p} = {made} & 1;"])
        return [self.pick([
            f"for ({a.element} *{p} = {a.name}; {p} < {a.name} + {n}; {p}++) {body}",
            f"for ({a.element} *{p} = &{a.name}[{n - 1}]; {p} - {a.name} >= 1; --{p}) {body}",
        ])]

    def statement(self, depth):
        kind = self.below(100)
        if kind < 36 or depth <= 0:
            return self.simple(max(depth, 1))
        if kind < 48:
            lines = self.braced(f"if ({self.text(depth, COMMA)})", depth - 1, 1 + self.below(2))
            if self.chance(0.4):
                lines = lines[:-1] + self.braced("} else", depth - 1, 1 + self.below(2))
            return lines
        if kind < 60:
            return self.loop(depth)
        if kind < 65:
            return self.walk(depth)
        if kind < 70:
            return self.braced("", depth - 1, 2)
        if kind < 80:
            return self.declaration(depth)
        if kind < 84 and self.loops:
            return [f"if ({self.text(depth)}) {self.pick(['break', 'continue'])};"]
        if kind < 86:
            return [f"if ({self.text(depth)} && {self.text(1, 8)} == {self.below(9)}) {self.returning()}"]
        if kind < 87 and not self.pure:
            return [f"if ({self.text(1, 12)} % 8 == {self.below(8)}) exit({self.text(1)});"]
        if kind < 95 and not self.plain and not self.pure:
            return self.pointing(depth)
        return self.simple(depth)

    def returning(self):
        return f"return {self.text(2, COMMA)};" if self.result else "return;"

    def pointing(self, depth):
        """What a pointer may come to in a program that is not plain."""
        found = self.sees(lambda v: v.pointer and self.may_set(v))
        if not found:
            return self.declaration(depth)
        p = self.pick(found)
        to = [v for v in self.sees(lambda v: v.element == p.element and len(v.dims) == 1 and not v.const and not v.volatile)
              if v.dims[0] >= p.extent]
        back = [f"{p.name} = {self.pick(to).name};"] if to and self.chance(0.75) else []
        kind = self.below(7)
        if kind == 0:
            x = self.name("x")
            return ["{"] + self.indent([f"{p.element} {x} = {self.text(1)};", f"{p.name} = &{x};", f"*{p.name} += 1;"]) + ["}"] + back
        if kind == 1:
            return [f"{p.name} = NULL;", f"if ({p.name}) *{p.name} = 1;"] + back
        if kind == 2:
            return [f"{p.name} += {self.below(3)};", f"{p.name} -= {self.below(3)};"] + back
        if kind == 3:
            return [f"*{p.name}++ = {self.text(depth)};", f"print(*--{p.name});"] + back
        if kind == 4:
            return [f"{p.name} = {self.text(1, OR)} ? {p.name} : {self.pick(to).name if to else 'NULL'};"] + back
        if kind == 5 and p.element == "char":
            return [f"{p.name} = \"text\";", f"putchar({p.name}[{self.below(6)}]);"] + back
        return [f"print({p.name} == NULL);"]

    def simple(self, depth):
        kind = self.below(20)
        if kind < 2 and not self.pure:
            return [f"print({self.text(depth)});" if self.weight < 20 else f"putchar({self.text(depth)});"]
        if kind == 2 and not self.pure:
            return [f"putchar({self.text(depth)});"]
        if kind < 6:
            made = self.call(depth, False)
            if made:
                return [made[0] + ";"]
        found = self.place(depth, True)
        if not found:
            return [";"]
        text, level, element = found
        if kind == 6 and not self.pure:
            return [f"{text} = getchar();"]
        if kind < 10:
            made = self.call(depth, True) if not self.plain else self.assigned_call(depth) if level == PRIMARY else None
            if made:
                return [f"{text} = {made[0]};"]
        if kind < 13:
            op = self.pick(["++", "--"])
            return [f"{op}{self.tight((text, level), UNARY)};" if self.chance(0.5) else f"{self.tight((text, level), POSTFIX)}{op};"]
        if kind == 13 and self.has_table and not self.pure:
            if self.chance(0.1) and not self.plain:
                return ["chosen = NULL;"]
            return [f"chosen = {self.pick(self.family).name};"]
        if kind == 14:
            return [f"{self.text(depth, COMMA)}, {self.assignment(text, level, element, depth)};"]
        return [self.assignment(text, level, element, depth) + ";"]

    def assigned_call(self, depth):
        """A call that may change something, as the whole right side of an assignment: any C compiler makes it first."""
        found = [f for f in self.functions if f.result and not f.pure and f.cost * self.weight <= MOST_TURNS]
        if not found or self.pure:
            return None
        f = self.pick(found)
        given = self.arguments(f, depth)
        if given is None:
            return None
        self.cost += self.weight * f.cost
        return f"{f.name}({', '.join(given)})", POSTFIX

    # Functions and files.

    def make_global(self):
        name, part = self.name("g"), self.below(2) if self.two else 0
        shared = not self.two or self.chance(0.6)
        volatile, const = self.chance(0.12), self.chance(0.12)
        kind = self.below(10)
        v = Variable(name, self.pick(INTEGERS), const=const, volatile=volatile, part=part, shared=shared)
        if kind >= 5:
            v.element, v.dims = self.pick(ELEMENTS), (1 + self.below(7),)
        if kind == 9:
            v.element, v.dims = "int", (1 + self.below(3), 1 + self.below(4))
        return v

    def constant(self):
        return self.pick([str(self.below(100)), f"-{self.below(100)}", str(self.pick(EDGES)), "'x'", "1 << 4", "3 * 7 - 1", "sizeof(int)",
                          "1 ? 2 : 1 / 0", "~0u", "(char)200", "0"])

    def defined(self, v):
        words = ("static " if not v.shared else "") + ("const " if v.const else "") + ("volatile " if v.volatile else "")
        dims = "".join(f"[{n}]" for n in v.dims)
        if v.pointer:
            return f"{v.element} *{v.name} = {v.start};"
        if not v.dims:
            start = f" = {self.constant()}" if self.chance(0.8) else ""
        elif len(v.dims) == 1:
            start = f" = {{{', '.join(self.constant() for _ in range(1 + self.below(v.dims[0])))}}}" if self.chance(0.8) else ""
        else:
            rows = ", ".join("{" + ", ".join(self.constant() for _ in range(1 + self.below(v.dims[1]))) + "}" for _ in range(v.dims[0]))
            start = f" = {{{rows}}}" if self.chance(0.8) else ""
        return f"{words}{v.element} {v.name}{dims}{start};"

    def declared(self, v):
        words = ("const " if v.const else "") + ("volatile " if v.volatile else "")
        star = "*" if v.pointer else ""
        return f"extern {words}{v.element} {star}{v.name}{''.join(f'[{n}]' for n in v.dims)};"

    def make_function(self, kind):
        """kind: family, bounded, any, main."""
        part = self.below(2) if self.two and kind != "main" else 0
        pure = kind == "family" and (self.plain or self.chance(0.5)) or kind in ("any", "bounded") and self.chance(0.35)
        if kind == "family":
            params, result = [("int", 0), ("int", 0)], "int"
        elif kind == "main":
            params, result = [], "int"
        else:
            params = [("int", 0)] if kind == "bounded" else []
            for _ in range(self.below(4)):
                params.append((self.pick(ELEMENTS), 1 + self.below(3)) if self.chance(0.35) and not pure else (self.pick(INTEGERS), 0))
            result = "int" if kind == "bounded" else self.pick(INTEGERS + [""] * 3) if not pure else self.pick(INTEGERS)
        f = Function("main" if kind == "main" else self.name("f"), result, params, pure, part, bounded=kind == "bounded")
        self.part, self.pure, self.result, self.cost, self.weight, self.loops = part, pure, result, 1, 1, 0
        names = [self.name("a") for _ in params]
        scope = {}
        for i, (name, (type_, extent)) in enumerate(zip(names, params)):
            scope[name] = Variable(name, type_, pointer=bool(extent), extent=extent, fixed=f.bounded and i == 0)
        self.scopes = [scope]
        lines = []
        if kind == "bounded" and not self.plain and self.chance(0.1):
            lines += ["int big[65535];", f"big[{names[0]} & 1023]++;"]
        for _ in range(1 + self.below(3) if kind == "family" else 2 + self.below(5)):
            lines += self.statement(3 if kind != "family" else 1)
        if kind == "main":
            lines += self.ending()
        elif kind == "bounded":
            again = []
            for type_, extent in params[1:]:
                found = [n for n, p in zip(names, params) if extent and p[0] == type_ and p[1] >= extent]
                again.append(self.pick(found) if extent else self.text(1))
            lines.append(f"if ({names[0]} <= 0) return {self.text(1)};")
            call = f"{f.name}({', '.join([names[0] + ' - 1'] + again)})"
            lines.append(f"return {self.pick([f'{call} & 1023', f'({call} ^ {self.below(50)}) % 1000', call])};")
            self.cost *= 13
        elif result and (self.plain or self.chance(0.8)):
            lines.append(self.returning())
        self.scopes = []
        f.cost = self.cost + 1
        f.body = f.head(names) + " {\n" + "\n".join(self.indent(lines)) + "\n}\n"
        self.functions.append(f)
        return f

    def ending(self):
        """main prints all that it sees of file scope, and returns a number."""
        lines = ["putchar('\\n');"]
        for v in self.globals:
            if (v.shared or v.part == 0) and not v.pointer:
                if not v.dims:
                    lines.append(f"print((int){v.name});")
                elif len(v.dims) == 1:
                    lines.append(f"for (int k = 0; k < {v.dims[0]}; k++) print((int){v.name}[k]);")
                else:
                    lines.append(f"for (int k = 0; k < {v.dims[0] * v.dims[1]}; k++) print({v.name}[k / {v.dims[1]}][k % {v.dims[1]}]);")
        if self.chance(0.9):
            lines.append(f"return {self.text(2, COMMA)};")
        return lines

    def program(self):
        self.globals = [self.make_global() for _ in range(3 + self.below(5))]
        arrays = [v for v in self.globals if len(v.dims) == 1 and not v.const and not v.volatile and v.shared]
        if arrays:
            to = self.pick(arrays)
            self.globals.append(Variable(self.name("g"), to.element, pointer=True, extent=to.dims[0], part=to.part, start=to.name))
        self.family = [self.make_function("family") for _ in range(3)]
        self.has_table = True
        for _ in range(1 + self.below(4)):
            self.make_function(self.pick(["any", "any", "any", "bounded"]))
        self.make_function("main")
        table = f"int (*table[3])(int, int) = {{{', '.join(f.name for f in self.family)}}};\nint (*chosen)(int, int) = {self.family[0].name};\n"
        shown = "extern int (*table[3])(int, int);\nextern int (*chosen)(int, int);\n"
        prototypes = "".join(f.head() + ";\n" for f in self.functions if f.name != "main") + "void print(int n);\n"
        texts = []
        for part in (0, 1):
            objects = ""
            for v in self.globals:
                if v.part == part:
                    objects += self.defined(v) + "\n"
                elif v.shared:
                    objects += self.declared(v) + "\n"
            bodies = "".join(f.body for f in self.functions if f.part == part)
            texts.append(prototypes + (shown if part else table) + objects + (HELPERS if part == 0 else "") + bodies)
        length = self.below(20) if self.chance(0.5) else 0
        turns = 0
        if not self.plain and self.chance(0.15):
            turns = 1 + self.below(150)
        return Made(texts[0], texts[1] if self.two else "", bytes(self.below(256) for _ in range(length)), turns, self.plain)


def make(seed):
    return Maker(seed).program()


# Running.

def run(command, limit=60):
    try:
        done = subprocess.run(command, stdin=subprocess.DEVNULL, capture_output=True, timeout=limit)
    except subprocess.TimeoutExpired:
        return b"", b"no end in time", None
    return done.stdout, done.stderr, done.returncode


def written(folder, made):
    """Writes the files of a program; gives the words that run it."""
    words = [os.path.join(folder, "main.c"), "--reference"]
    files = {"main.c": made.main.encode()}
    if made.binary:
        files["binary.c"] = made.binary.encode()
        words += ["--binary", os.path.join(folder, "binary.c")]
    if made.input:
        words += ["--input", os.path.join(folder, "input")]
    files["input"] = made.input
    if made.turns:
        words += ["--turns", str(made.turns)]
    for name, content in files.items():
        with open(os.path.join(folder, name), "wb") as file:
            file.write(content)
    return words


def by_compiler(compiler, folder, made, options, prelude):
    """What a build by a C compiler writes, its errors and its status; nothing is written where it refuses the program."""
    program = os.path.join(folder, "program")
    built = subprocess.run([compiler, "-std=c11", "-w", "-include", prelude, *options, "-o", program, *sources_of(folder, made)],
                           capture_output=True)
    if built.returncode:
        return b"", b"refused: " + built.stderr, None
    with open(os.path.join(folder, "input"), "rb") as file:
        try:
            done = subprocess.run([program], stdin=file, capture_output=True, timeout=60)
        except subprocess.TimeoutExpired:
            return b"", b"no end in time", None
    return done.stdout, done.stderr, done.returncode


def sources_of(folder, made):
    return [os.path.join(folder, "main.c")] + ([os.path.join(folder, "binary.c")] if made.binary else [])


def folds(folder, made, prelude):
    """Whether gcc computes something undefined while it compiles: its sanitizers don't see that."""
    warnings = ["overflow", "div-by-zero", "shift-count-overflow", "shift-count-negative", "shift-negative-value", "shift-overflow=2"]
    command = ["gcc", "-std=c11", "-fsyntax-only", "-include", prelude, *["-W" + w for w in warnings], *sources_of(folder, made)]
    told = subprocess.run(command, capture_output=True).stderr.decode()
    return any(f"[-W{warning}" in told for warning in warnings)


def lines_of(notes):
    return [line for line in notes.decode("latin1").splitlines() if line.startswith("srmtrun: ")]


SANITIZERS = ["-O0", "-fsanitize=undefined,address", "-fno-sanitize-recover=all"]


def against_undefined(folder, made, output, told, prelude, kinds):
    """How a run that ended as undefined differs by gcc's sanitizers and clang's: nothing, where one of them sees the same."""
    differences = []
    for compiler in ("gcc", "clang"):
        if shutil.which(compiler) is None:
            continue
        out, errors, _ = by_compiler(compiler, folder, made, SANITIZERS, prelude)
        found = re.search(rb"(main|binary)\.c:(\d+):\d+: runtime error", errors)
        if not found:
            differences.append(f"{compiler}'s sanitizers report nothing, and here {told}")
            continue
        where = ("binary " if found[1] == b"binary" else "") + "line " + found[2].decode()
        if out == output and told.endswith(" at " + where):
            return []
        differences.append(f"{compiler}'s sanitizers: {where}, here {told}; output {'the same' if out == output else 'another'}")
    if folds(folder, made, prelude):
        kinds.append("by gcc only in part, since it folds constants")
        return []
    return differences


def against_gcc(folder, made, here, prelude, kinds):
    """How a plain program differs by gcc, as a list of texts."""
    output, notes, status = here
    told = lines_of(notes)
    if any(": exhausted: " in line for line in told):
        return []
    if told:
        return against_undefined(folder, made, output, told[0], prelude, kinds)
    for options in (SANITIZERS, ["-O2"]):
        out, errors, ended = by_compiler("gcc", folder, made, options, prelude)
        if b"internal compiler error" in errors and shutil.which("clang") is not None:
            kinds.append("by clang, since gcc breaks off")
            out, errors, ended = by_compiler("clang", folder, made, options, prelude)
        if errors or (out, ended) != (output, status):
            same = "the same" if out == output else "another"
            return [f"gcc {options[0]}: status {ended} {errors[:300]!r}, here {status}; output {same}"]
    return []


def compare(seed, arguments, prelude):
    """What a seed's program comes to: kinds to be counted, and differences."""
    made = make(seed)
    with tempfile.TemporaryDirectory() as folder:
        words = written(folder, made)
        here = run([arguments.program, *words])
        told = lines_of(here[1])
        kinds = ["plain" if made.plain else "free", "two files" if made.binary else "one file"]
        kinds.append(" ".join(told[0].split()[1:3]) if told else "ended by itself")
        differences = []
        if here[2] is None or any("refused" in line or "usage" in line or "fault" in line for line in told):
            differences.append(f"here: status {here[2]} {here[1][-200:]!r}")
        if arguments.other:
            other = run([*shlex.split(arguments.other), *words])
            if other != here:
                parts = [n for n, a, b in zip(("output", "notes", "status"), here, other) if a != b]
                differences.append(f"the other: {', '.join(parts)} differ: here {here[2]} {here[1][-200:]!r}, there {other[2]} {other[1][-200:]!r}")
        if made.plain and not arguments.no_gcc and not differences:
            kinds.append("by gcc")
            differences += against_gcc(folder, made, here, prelude, kinds)
        if differences and arguments.keep:
            kept = os.path.join(arguments.keep, str(seed))
            os.makedirs(kept, exist_ok=True)
            written(kept, made)
    return kinds, differences


def main():
    parser = argparse.ArgumentParser(description=__doc__.splitlines()[0])
    parser.add_argument("--count", type=int, default=100)
    parser.add_argument("--seed", type=int, default=1)
    parser.add_argument("--jobs", type=int, default=2)
    parser.add_argument("--program", default=BUILT)
    parser.add_argument("--other", help="a command that takes the words of srmtrun")
    parser.add_argument("--no-gcc", action="store_true")
    parser.add_argument("--keep", help="a folder for the programs that differ")
    parser.add_argument("--print", type=int, metavar="SEED")
    arguments = parser.parse_args()
    if arguments.print is not None:
        made = make(arguments.print)
        print(made.main + ("/* the binary file */\n" + made.binary if made.binary else "") + f"/* input {made.input!r}, turns {made.turns} */")
        return 0
    if not os.access(arguments.program, os.X_OK):
        print("bench/compare_meanings.py: nothing is built: cd crates/srmtrun && rt run -- --version", file=sys.stderr)
        return 1
    counts, different = collections.Counter(), 0
    with tempfile.TemporaryDirectory() as folder, ThreadPoolExecutor(arguments.jobs) as pool:
        prelude = os.path.join(folder, "prelude.h")
        with open(prelude, "w") as file:
            file.write(PRELUDE)
        seeds = range(arguments.seed, arguments.seed + arguments.count)
        for seed, (kinds, differences) in zip(seeds, pool.map(lambda s: compare(s, arguments, prelude), seeds)):
            counts.update(kinds)
            different += bool(differences)
            for line in differences:
                print(f"seed {seed}: {line}", flush=True)
    print(", ".join(f"{kind} {count}" for kind, count in sorted(counts.items())))
    print(f"{arguments.count} programs, {different} differ")
    return 1 if different else 0


if __name__ == "__main__":
    sys.exit(main())
