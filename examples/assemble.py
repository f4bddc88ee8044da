#!/usr/bin/env python3
"""Assembles a CRIL text into the files of a session.

    assemble.py FOLDER

reads FOLDER/program.text and writes FOLDER/prog.cril (the image) and FOLDER/first.mem (the first memory); if there is a
FOLDER/commands.text, it also writes FOLDER/commands, the bytes that `walk` reads on standard input.

program.text has one thing a line; # begins a comment.

    name last v0                          a name for a variable (v0 to v31) or a label (l0 to l255)
    first last 16                         the first value of a variable
    first 32 20 40                        the first values of cell 32 and those after it
    l1;l2 <- v0 == -5 | M[v3] <-> v1 | !v2 -> l4;l5
    begin l5 | last += v1 + 2 | end l5    a block: entry | instruction | exit

An entry is `begin l`, `l <-` or `l;l <- expression`; an exit is `end l`, `-> l` or `expression -> l;l`. The instructions are
`x += e`, `x -= e`, `x ^= e`, `x <-> y`, `V x`, `P x`, `assert e`, `skip` and `call l, l`, where x and y are a variable or a cell
M[variable]. An expression is an operand, `!` operand, or two operands with + - ^ == != < <= > >= && || between them; an operand is a
constant, a variable or a cell. The first condition label is the one for true. Blocks are numbered from 0 in the order they stand.

commands.text has words: F1 is a forward step of process 1, B12 an undo of process 12 (hexadecimal), F1*9 nine of them.
"""
import re
import sys
from pathlib import Path

OPERATORS = ["+", "-", "^", "==", "!=", "<", "<=", ">", ">=", "&&", "||"]
UPDATES = {"+=": 0x40, "-=": 0x41, "^=": 0x42}
FIRST_WORDS = 288
CELLS_AT = 32


class Fault(Exception):
    """What is wrong with a line."""


class Text:
    """The names and the first memory that a text gives, and the image of its blocks."""

    def __init__(self):
        self.names = {}
        self.first = [word_bytes(0)] * FIRST_WORDS
        self.image = bytearray()

    def line(self, line):
        """Takes in one line."""
        words = line.split()
        if words[0] == "name" and len(words) == 3:
            self.names[words[1]] = words[2]
        elif words[0] == "first" and len(words) >= 3:
            self.first_values(words[1], words[2:])
        else:
            self.image += self.block(line)

    def first_values(self, where, values):
        """Sets a variable, or a row of cells."""
        if not where.isdigit():
            at, room = self.variable(where), 1
        else:
            at, room = CELLS_AT + int(where), FIRST_WORDS - CELLS_AT - int(where)
        if len(values) > room:
            raise Fault("more values than there are places")
        for offset, value in enumerate(values):
            self.first[at + offset] = word_bytes(int(value))

    def number(self, word, letter, most):
        """The number of a variable (letter v) or a label (letter l), by name or as it is."""
        word = self.names.get(word, word)
        found = re.fullmatch(letter + r"(\d+)", word)
        if not found or int(found[1]) > most:
            raise Fault(f"'{word}' is no {'variable' if letter == 'v' else 'label'}")
        return int(found[1])

    def variable(self, word):
        return self.number(word.strip(), "v", 31)

    def label(self, word):
        return self.number(word.strip(), "l", 255)

    def block(self, line):
        """The bytes of `entry | instruction | exit`; two bars are the operator ||."""
        parts = re.split(r"(?<!\|)\|(?!\|)", line)
        if len(parts) != 3:
            raise Fault("a block is entry | instruction | exit")
        entry, instruction, exit_ = (part.strip() for part in parts)
        return self.entry(entry) + self.instruction(instruction) + self.exit(exit_)

    def entry(self, text):
        if text.startswith("begin "):
            return bytes([0x22, self.label(text[6:])])
        labels, arrow, condition = text.partition("<-")
        if not arrow:
            raise Fault(f"'{text}' is no entry")
        return self.point(0x20, labels, condition)

    def exit(self, text):
        if text.startswith("end "):
            return bytes([0x32, self.label(text[4:])])
        condition, arrow, labels = text.rpartition("->")
        if not arrow:
            raise Fault(f"'{text}' is no exit")
        return self.point(0x30, labels, condition)

    def point(self, kind, labels, condition):
        """A plain label, or two with their condition."""
        if ";" not in labels:
            if condition.strip():
                raise Fault("a condition needs two labels")
            return bytes([kind, self.label(labels)])
        one, other = labels.split(";")
        return bytes([kind + 1, self.label(one), self.label(other)]) + self.expression(condition)

    def instruction(self, text):
        word, _, rest = text.partition(" ")
        if text == "skip":
            return bytes([0x47])
        if word in ("V", "P"):
            return bytes([0x44 if word == "V" else 0x45, self.variable(rest)])
        if word == "assert":
            return bytes([0x46]) + self.expression(rest)
        if word == "call":
            labels = bytes(self.label(label) for label in rest.split(","))
            if len(labels) > 8:
                raise Fault("a call has at most 8 labels")
            return bytes([0x50 + len(labels)]) + labels
        return self.change(text)

    def change(self, text):
        left, exchange, right = text.partition("<->")
        if exchange:
            return bytes([0x43]) + self.place(left) + self.place(right)
        found = re.fullmatch(r"(.*?)(\+=|-=|\^=)(.*)", text)
        if not found:
            raise Fault(f"'{text}' is no instruction")
        return bytes([UPDATES[found[2]]]) + self.place(found[1]) + self.expression(found[3])

    def expression(self, text):
        text = text.strip()
        if text.startswith("!"):
            return bytes([0x11]) + self.operand(text[1:])
        # An operator has an operand on its left, so the sign of a constant is not taken for one.
        found = re.fullmatch(r"([\w\]\[-]+)\s*(==|!=|<=|>=|&&|\|\||<|>|\+|-|\^)\s*([\w\]\[-]+)", text)
        if found:
            kind = 0x12 + OPERATORS.index(found[2])
            return bytes([kind]) + self.operand(found[1]) + self.operand(found[3])
        return bytes([0x10]) + self.operand(text)

    def operand(self, text):
        text = text.strip()
        if re.fullmatch(r"-?\d+", text):
            return bytes([0x01]) + word_bytes(int(text))
        return self.place(text)

    def place(self, text):
        """A variable or a cell."""
        cell = re.fullmatch(r"\s*M\[(.*)\]\s*", text)
        return bytes([0x03, self.variable(cell[1])]) if cell else bytes([0x02, self.variable(text)])


def word_bytes(value):
    if not -(2**31) <= value < 2**31:
        raise Fault(f"{value} does not fit 32 bits")
    return (value % 2**32).to_bytes(4, "little")


def command_bytes(word):
    found = re.fullmatch(r"([FB])([0-9a-f]+)(?:\*(\d+))?", word)
    if not found:
        raise Fault(f"'{word}' is no command")
    one = bytes([1 if found[1] == "F" else 2]) + int(found[2], 16).to_bytes(4, "little")
    return one * int(found[3] or 1)


def each_line(path, take):
    """Hands on each line that says something; a fault ends the program with the line's number."""
    for number, line in enumerate(path.read_text().splitlines(), 1):
        line = line.partition("#")[0].strip()
        try:
            if line:
                take(line)
        except (Fault, ValueError) as fault:
            sys.exit(f"{path}, line {number}: {fault}")


def assemble(folder):
    text = Text()
    each_line(folder / "program.text", text.line)
    (folder / "prog.cril").write_bytes(bytes(text.image))
    (folder / "first.mem").write_bytes(b"".join(text.first))
    if (folder / "commands.text").exists():
        commands = bytearray()
        each_line(folder / "commands.text", lambda line: commands.extend(b"".join(map(command_bytes, line.split()))))
        (folder / "commands").write_bytes(bytes(commands))


if __name__ == "__main__":
    if len(sys.argv) != 2:
        sys.exit("assemble.py FOLDER")
    assemble(Path(sys.argv[1]))
