"""Reads LLVM's text: its constants, and its functions as blocks of instructions, whose types and operands a Line reads one after another."""
import re
import sys
from dataclasses import dataclass, field

TOKEN = re.compile(
    r"""\s*(?:(?P<word>[%@]"[^"]*"|[%@][\w.$-]+|c"[^"]*"|"[^"]*"|![\w.]*|\#\d+|-?\w[\w.]*|[(){}\[\]<>,=:])|(?P<end>;.*)?$)"""
)
# What stands before a type or between a type and a value, and says something of either that C has no words for.
VALUES = ("true", "false", "null", "undef", "poison", "zeroinitializer", "splat", "getelementptr", "ptrtoint", "inttoptr")


def stop(why):
    sys.exit(f"packages/platforms/source: {why[:300]}")


@dataclass(frozen=True)
class Type:
    """A number of so many bits, "int"; "ptr", "void"; a "struct" of parts, or a "packed" one; an "array" or a "vector" of so many of one
    part."""

    kind: str
    count: int = 0
    parts: tuple = ()

    def size(self):
        """In bytes, as in memory."""
        if self.kind == "int":
            return -(-self.count // 8)
        if self.kind == "ptr":
            return 8
        if self.kind == "struct":
            return struct_places(self)[1]
        if self.kind == "packed":
            return sum(part.size() for part in self.parts)
        bits = self.parts[0].count if self.parts[0].kind == "int" else 64
        return -(-self.count * bits // 8) if self.kind == "vector" else self.count * self.parts[0].size()

    def alignment(self):
        if self.kind in ("struct", "array"):
            return max([part.alignment() for part in self.parts], default=1)
        return min(8, 1 << (self.size() - 1).bit_length()) if self.size() else 1


def struct_places(kind):
    """Where each part of a struct stands, and its size."""
    places, at = [], 0
    for part in kind.parts:
        at = -(-at // part.alignment()) * part.alignment()
        places.append(at)
        at += part.size()
    return places, -(-at // kind.alignment()) * kind.alignment()


class Line:
    """An instruction as words, and how many of them have been read."""

    def __init__(self, text):
        self.text, self.words, self.at, at = text, [], 0, 0
        while at < len(text):
            found = TOKEN.match(text, at)
            if not found:
                stop(f"the LLVM code has what is not understood: {text}")
            if found["word"]:
                self.words.append(found["word"])
            at = found.end()

    def refuse(self):
        stop(f"the LLVM code has an instruction that has no C here: {self.text.strip()}")

    def look(self):
        return self.words[self.at] if self.at < len(self.words) else ""

    def take(self, *expected):
        """The next word, which is one of these."""
        word = self.look()
        if expected and word not in expected:
            self.refuse()
        self.at += 1
        return word

    def may_take(self, *words):
        """Whether the next word is one of these, and takes it."""
        is_there = self.look() in words
        self.at += is_there
        return is_there

    def skip(self, *words):
        """Passes over these words."""
        while self.look() in words:
            self.at += 1

    def skip_group(self):
        """Passes over a group in brackets."""
        depth = 0
        while True:
            depth += {"(": 1, ")": -1}.get(self.take(), 0)
            if depth == 0:
                return

    def skip_attributes(self, is_next):
        """Passes over attributes, up to what is next."""
        while not is_next(self.look()):
            if not re.fullmatch(r"[a-z]\w*", self.look()):
                self.refuse()
            word = self.take()
            if self.look() == "(":
                self.skip_group()
            elif word == "align":
                self.take()

    def kind(self):
        """A type, after its attributes."""
        self.skip_attributes(lambda word: word in ("ptr", "void", "{", "[", "<") or re.fullmatch(r"i\d+", word))
        word = self.take()
        if word in ("ptr", "void"):
            return Type(word)
        is_packed = word == "<" and self.may_take("{")
        if word == "{" or is_packed:
            parts = [self.kind()]
            while self.may_take(","):
                parts.append(self.kind())
            self.take("}")
            if is_packed:
                self.take(">")
            return Type("packed" if is_packed else "struct", 0, tuple(parts))
        if word in "[<":
            count = int(self.take())
            self.take("x")
            part = self.kind()
            self.take({"[": "]", "<": ">"}[word])
            return Type({"[": "array", "<": "vector"}[word], count, (part,))
        return Type("int", int(word[1:]))

    def value(self):
        """The words of a value, after its attributes."""
        self.skip_attributes(lambda word: word[:1] in ("%", "@", "<", "{", "[", "c") or word in VALUES or re.fullmatch(r"-?\d+", word))
        start = self.at
        word = self.take()
        if word in ("<", "{", "["):
            depth = 1
            while depth:
                depth += {"<": 1, "{": 1, "[": 1, ">": -1, "}": -1, "]": -1}.get(self.take(), 0)
        elif word in VALUES[-4:]:
            self.skip("inbounds", "nuw", "nusw")
            self.skip_group()
        return self.words[start:self.at]

    def operand(self):
        """A type and a value of it."""
        kind = self.kind()
        return kind, self.value()

    def label(self):
        self.take("label")
        return self.take()

    def end(self):
        """Nothing stands after what was read but what C has no words for."""
        rest = " ".join(self.words[self.at:])
        if not re.fullmatch(r"(#\d+ ?)?(, align \d+ ?)?(, ![\w.]+ !\d+ ?)*", rest):
            self.refuse()


@dataclass
class Function:
    name: str
    answer: Type
    parameters: list
    is_internal: bool
    blocks: dict = field(default_factory=dict)


def function_of(line):
    """A function without its blocks, as its first line has it."""
    line.take("define")
    is_internal = "internal" in line.words[:4] or "private" in line.words[:4]
    answer = line.kind()
    name = line.take()
    parameters = []
    line.take("(")
    while not line.may_take(")"):
        kind = line.kind()
        line.skip_attributes(lambda word: word[:1] == "%")
        parameters.append((kind, line.take()))
        line.may_take(",")
    return Function(name, answer, parameters, is_internal)


def joined(lines):
    """The lines of a function, of which a switch may have several."""
    whole = ""
    for text in lines:
        whole += text
        if not whole.lstrip().startswith("switch ") or whole[-1:] != "[" and text.lstrip().startswith("]"):
            yield whole
            whole = ""


def functions(text):
    """Each function of a module."""
    for found in re.finditer(r"^(define [^\n]*) \{\n(.*?)^\}$", text, re.M | re.S):
        made = function_of(Line(found[1]))
        block = made.blocks.setdefault("", [])
        for line in joined(found[2].splitlines()):
            if not line.strip():
                continue
            label = re.match(r'("[^"]*"|[\w.$-]+):', line)
            if label:
                block = made.blocks.setdefault("%" + label[1], [])
            else:
                block.append(Line(line))
        yield made


def address(words):
    """The constant of an address and how many bytes after its beginning it is: @constant, or getelementptr (i8, ptr @constant, i64 offset)."""
    found = re.fullmatch(r"(?:getelementptr (?:(?:inbounds|nuw|nusw) )*\( i8 , ptr )?(@\S+)(?: , i64 (-?\d+) \))?", " ".join(words))
    return found and (found[1], int(found[2] or 0))


def parts_of(words):
    """The types and values in a constant that is a packed struct or an array."""
    edge = 2 if words[0] == "<" else 1
    line = Line(" ".join(words[edge:-edge]))
    found = [line.operand()]
    while line.may_take(","):
        found.append(line.operand())
    line.end()
    return found


def constants(text):
    """Each constant of a module as (name, type, words of its value)."""
    for found in re.finditer(r"^(@\S+) = (?:private|internal) (?:unnamed_addr )?constant (.*)$", text, re.M):
        line = Line(found[2])
        kind, value = line.operand()
        line.end()
        yield found[1], kind, value
