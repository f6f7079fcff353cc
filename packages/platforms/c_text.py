"""Writes C of a function of LLVM code: a variable for each value, and the statements of its instructions. An address is a number of 64
bits."""
import re
from collections import Counter

import llvm_text
from c_instructions import BINARY, CASTS, FLAGS, Instructions
from c_types import c_type, is_number, is_wide, number, width
from llvm_text import stop


class Writer(Instructions):
    """The C of one function."""

    def __init__(self, function, names, used):
        self.function, self.globals, self.used = function, names, used
        self.names, self.labels, self.variables, self.memory, self.lines = {}, {}, {}, [], []
        self.phis = {}

    # Names, types and operands.

    def variable(self, name, kind):
        """What stands for a value in C."""
        if name not in self.names:
            self.names[name] = f"r{len(self.names)}"
            self.variables[self.names[name]] = self.typed(kind)
        return self.names[name]

    def typed(self, kind):
        if kind.kind in ("struct", "vector"):
            self.used[c_type(kind)] = kind
        return c_type(kind)

    def label(self, name):
        return self.labels.setdefault(name, f"b{len(self.labels)}")

    def operand(self, kind, words, at="at"):
        """A value in C; of a vector the element at an index."""
        word = words[0]
        if kind.kind == "vector":
            return self.element(kind, words, at)
        if word[0] == "%":
            return self.variable(word, kind)
        if word == "ptrtoint" and words[1:3] + words[-3:] == ["(", "ptr", "to", "i64", ")"]:
            return self.address(words[3:-3])
        if word[0] == "@" or word == "getelementptr":
            return self.address(words)
        if not is_number(kind) and not is_wide(kind):
            return self.constant_struct(kind, words)
        if word in ("null", "undef", "poison", "zeroinitializer", "false"):
            return number(0, width(kind))
        return number(1 if word == "true" else int(word), width(kind))

    def element(self, kind, words, at):
        part = kind.parts[0]
        if words[0][0] == "%":
            return f"{self.variable(words[0], kind)}.at[{at}]"
        if words[0] == "splat":
            return self.operand(part, words[3:4])
        if words[0] in ("undef", "poison", "zeroinitializer"):
            return number(0, width(part))
        if words[0] != "<" or len(words) != 1 + 3 * kind.count:
            stop(f"the LLVM code has a constant that has no C here: {' '.join(words)}")
        numbers = [self.operand(part, [word]) for word in words[2::3]]
        if isinstance(at, int):
            return numbers[at]
        name = f"k{len(self.memory)}"
        self.memory.append(f"    static const {c_type(part)} {name}[{kind.count}] = {{{', '.join(numbers)}}};")
        return f"{name}[{at}]"

    def address(self, words):
        """The address of a constant, or one in it."""
        name, offset = llvm_text.address(words) or (words[0], 0)
        if name not in self.globals:
            stop(f"the LLVM code names what it does not have: {' '.join(words)}")
        return f"(AT({self.globals[name]}) + {number(offset, 64)})" if offset else f"AT({self.globals[name]})"

    def constant_struct(self, kind, words):
        """A constant of more than one number."""
        if words[0] in ("undef", "poison", "zeroinitializer"):
            return f"zero_{self.typed(kind)}"
        found = llvm_text.parts_of(words) if words[0] == "{" else stop(f"the LLVM code has a constant that has no C here: {' '.join(words)}")
        numbers = [self.operand(part, value) for part, value in found]
        name = f"k{len(self.memory)}"
        self.memory.append(f"    const {self.typed(kind)} {name} = {{{', '.join(numbers)}}};")
        return name

    # Statements.

    def say(self, text):
        self.lines.append(f"    {text}")

    def set(self, name, kind, text):
        """Sets a value; of a vector each element, by an expression on its index."""
        made = self.variable(name, kind)
        if kind.kind == "vector":
            self.say(f"for (at = 0; at < {kind.count}; at++) {made}.at[at] = {text};")
            self.variables["at"] = "unsigned"
        else:
            self.say(f"{made} = {text};")

    def goto(self, origin, target):
        """The statements of a jump: what the target's phis get, and the jump."""
        for into, kind, by_origin in self.phis.get(target, ()):
            words = by_origin[origin]
            made = self.variable(into, kind)
            if kind.kind == "vector":
                yield f"for (at = 0; at < {kind.count}; at++) n{made}.at[at] = {self.operand(kind, words)};"
                self.variables["at"] = "unsigned"
            else:
                yield f"n{made} = {self.operand(kind, words)};"
        yield f"goto {self.label(target)};"

    def jump(self, origin, target, before="", indent=""):
        if before:
            self.say(f"{before} {{ {' '.join(self.goto(origin, target))} }}")
        else:
            for statement in self.goto(origin, target):
                self.say(indent + statement)

    def write(self):
        """The lines of the function."""
        blocks = {name: lines for name, lines in self.function.blocks.items() if lines}
        parameters = [f"{self.typed(kind)} {self.variable(name, kind)}" for kind, name in self.function.parameters]
        given = set(self.names.values())
        for name, lines in blocks.items():
            self.phis[name] = [self.phi(line) for line in lines if " = phi " in line.text]
        for at, (name, lines) in enumerate(blocks.items()):
            if at:
                self.lines.append(f"{self.label(name)}:;")
            for into, kind, _ in self.phis[name]:
                made = self.variable(into, kind)
                self.say(f"{made} = n{made};")
                self.variables[f"n{made}"] = c_type(kind)
            for line in lines[len(self.phis[name]):]:
                self.instruction(name, line)
        self.drop_unused()
        head = f"static {self.typed(self.function.answer)} {self.globals[self.function.name]}({', '.join(parameters) or 'void'})"
        kinds = {}
        for variable, kind in self.variables.items():
            if variable not in given:
                kinds.setdefault(kind, []).append(variable)
        rows = [f"    {kind} {', '.join(variables)};" for kind, variables in kinds.items()]
        text = " ".join(self.lines)
        rows += [f"    (void){name};" for name in given if not re.search(rf"\b{name}\b", text)]
        return head, [head + " {", *rows, *self.memory, *self.lines, "}"]

    def drop_unused(self):
        """Drops values that only what is left out has used, and of calls what they answer."""
        is_done = False
        while not is_done:
            counts, kept, is_done = Counter(re.findall(r"\bn?r\d+\b", " ".join(self.lines))), [], True
            for line in self.lines:
                found = re.fullmatch(r"    (r\d+) = (.*);", line)
                if not found or counts[found[1]] > 1:
                    kept.append(line)
                    continue
                is_done = False
                self.variables.pop(found[1])
                if re.match(r"(?:f\d+|kit_\w+|rattle_\w+)\(", found[2]):
                    kept.append(f"    {found[2]};")
            self.lines = kept

    def phi(self, line):
        into, kind, found = line.take(), None, {}
        line.take("=")
        line.take("phi")
        kind = line.kind()
        while True:
            line.take("[")
            words = line.value()
            line.take(",")
            found[line.take()] = words
            line.take("]")
            if not line.may_take(","):
                return into, kind, found
            if line.look()[:1] == "!":
                return into, kind, found

    def instruction(self, block, line):
        into = None
        if line.look()[:1] == "%":
            into = line.take()
            line.take("=")
        line.skip(*FLAGS)
        word = line.take()
        if word in BINARY or word in ("ashr", "sdiv", "srem"):
            self.binary(into, word, line)
        elif word in CASTS:
            self.cast(into, word, line)
        elif word in ("br", "switch"):
            getattr(self, word)(block, line)
        elif hasattr(self, f"do_{word}"):
            getattr(self, f"do_{word}")(into, line)
        else:
            line.refuse()
        line.end()
