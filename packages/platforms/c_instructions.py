"""Instructions of LLVM code as statements of C, each of which sets what stands for its value. One that is not here is refused."""
import re

from c_types import c_type, cut, is_number, is_wide, number, wide, width
from llvm_text import Type, stop, struct_places

ADDRESS = Type("int", 64)
# Instructions on two numbers, whose bits above are cleared where the second column says that there may be some.
BINARY = {"add": ("+", True), "sub": ("-", True), "mul": ("*", True), "shl": ("<<", True), "lshr": (">>", False), "udiv": ("/", False),
          "urem": ("%", False), "and": ("&", False), "or": ("|", False), "xor": ("^", False)}
COMPARED = {"eq": "==", "ne": "!=", "ugt": ">", "uge": ">=", "ult": "<", "ule": "<=", "sgt": ">", "sge": ">=", "slt": "<", "sle": "<="}
CASTS = ("zext", "sext", "trunc", "ptrtoint", "ptrtoaddr", "inttoptr", "bitcast", "freeze")
# Words of instructions that say what may be assumed.
FLAGS = ("nuw", "nsw", "exact", "disjoint", "inbounds", "nusw", "nneg", "samesign", "tail", "musttail", "notail", "fastcc", "ccc", "coldcc")
LEFT_OUT = ("llvm.assume", "llvm.lifetime.start", "llvm.lifetime.end", "llvm.experimental.noalias.scope.decl")
# Functions of LLVM that the prelude has for each width, by the letters after which the width stands there.
OF_WIDTHS = {"llvm.cttz": "zeros_below", "llvm.ctlz": "zeros_above", "llvm.ctpop": "ones", "llvm.bswap": "swapped"}
CHOSEN = {"llvm.umin": "<", "llvm.umax": ">", "llvm.smin": "<", "llvm.smax": ">"}
# Of numbers of 128 bits.
WIDE_COMPARED = {"eq": "same_128({0}, {1})", "ne": "!same_128({0}, {1})", "ult": "less_128({0}, {1})", "ugt": "less_128({1}, {0})",
                 "uge": "!less_128({0}, {1})", "ule": "!less_128({1}, {0})"}
MEMORY = {"llvm.memset": "fill", "llvm.memcpy": "copy", "llvm.memmove": "move"}


class Instructions:
    """The part of a Writer that has C for each instruction: its names, operands and lines are those of the Writer."""

    def binary(self, into, word, line):
        line.skip(*FLAGS)
        kind, one = line.operand()
        line.take(",")
        other = line.value()
        part = kind.parts[0] if kind.kind == "vector" else kind
        one, other = self.operand(kind, one), self.operand(kind, other)
        if is_wide(kind) and word in ("add", "sub"):
            return self.set(into, kind, f"{word}_128({one}, {other})")
        if not is_number(part) or word in ("sdiv", "srem"):
            line.refuse()
        if word == "ashr":
            other = f"({other} & {63 if width(part) > 32 else 31}u)"
            sign = number(1 << (width(part) - 1), width(part))
            return self.set(into, kind, cut(f"((({wide(one, part)} ^ {sign}) >> {other}) - ({sign} >> {other}))", part))
        sign, may_have_more = BINARY[word]
        if sign in ("<<", ">>") and not re.match(r"UINT64|\d", other):
            other = f"({other} & {63 if width(part) > 32 else 31}u)"  # more is of no meaning here, and must be none to C
        text = f"{wide(one, part)} {sign} {other}"
        self.set(into, kind, cut(text, part) if may_have_more or width(part) < 32 else text)

    def cast(self, into, word, line):
        line.skip(*FLAGS)
        kind, value = line.operand()
        if word == "freeze":
            return self.set(into, kind, self.operand(kind, value))
        line.take("to")
        made = line.kind()
        if word == "bitcast":
            return self.bitcast(into, kind, value, made, line)
        part, last = (kind.parts[0], made.parts[0]) if kind.kind == "vector" else (kind, made)
        text = self.operand(kind, value)
        if is_wide(last) and is_number(part):
            return self.set(into, made, self.wide_cast(word, part, text))
        if is_wide(part):
            return self.set(into, made, cut(f"{text}.low", last))
        if word == "sext":
            sign = 1 << (width(part) - 1)
            text = f"({wide(cut(text, last), last)} ^ {number(sign, width(last))}) - {number(sign, width(last))}"
        self.set(into, made, cut(text, last))

    def wide_cast(self, word, part, text):
        """A number in 128 bits, with its sign or without."""
        if word == "zext":
            return f"wide_128(0u, {text})"
        sign = number(1 << (width(part) - 1), 64)
        return f"wide_128(UINT64_C(0) - ((uint64_t){text} >> {width(part) - 1}), ((uint64_t){text} ^ {sign}) - {sign})"

    def bitcast(self, into, kind, value, made, line):
        if kind.kind == "vector" and kind.parts[0].count == 1 and made.kind == "int":
            name = self.variable(value[0], kind)
            return self.set(into, made, f"({c_type(made)})bits_of({name}.at, {kind.count})")
        if kind.kind == made.kind == "vector" and kind.parts[0].count == 1 and width(made.parts[0]) % 8 == 0:
            name, bits = self.variable(value[0], kind), width(made.parts[0])
            return self.set(into, made, f"({c_type(made.parts[0])})bits_of({name}.at + {bits} * at, {bits})")
        if kind.kind == "int" and made.kind == "vector" and made.parts[0].count == 1:
            return self.set(into, made, f"{self.operand(kind, value)} >> at & 1u")
        if value[0][0] != "%" or 1 in (kind.parts + made.parts and [part.count for part in kind.parts + made.parts if part.kind == "int"]):
            line.refuse()
        self.say(f"memcpy(&{self.variable(into, made)}, &{self.variable(value[0], kind)}, {kind.size()});")

    # Each instruction that has its own words.

    def do_alloca(self, into, line):
        kind = line.kind()
        name = f"m{len(self.memory)}"
        self.memory.append(f"    uint64_t {name}[{max(1, -(-kind.size() // 8))}];")
        self.set(into, ADDRESS, f"AT({name})")

    def do_load(self, into, line):
        if line.look() in ("atomic", "volatile"):
            line.refuse()
        kind = line.kind()
        line.take(",")
        address = self.operand(*line.operand())
        if is_number(kind) and width(kind) in (1, 8, 16, 32, 64):
            return self.set(into, kind, f"load_{max(8, width(kind))}({address})" + (" & 1u" if width(kind) == 1 else ""))
        if is_number(kind) and width(kind) % 8 == 0:
            return self.set(into, kind, f"load_part({address}, {kind.size()})")
        if is_number(kind) or kind.kind == "vector" and kind.parts[0].count == 1:
            line.refuse()
        self.say(f"memcpy(&{self.variable(into, kind)}, TO({address}), {kind.size()});")

    def do_store(self, _, line):
        if line.look() in ("atomic", "volatile"):
            line.refuse()
        kind, value = line.operand()
        line.take(",")
        address = self.operand(*line.operand())
        if is_number(kind) and width(kind) in (1, 8, 16, 32, 64):
            return self.say(f"store_{max(8, width(kind))}({address}, {self.operand(kind, value)});")
        if is_number(kind) and width(kind) % 8 == 0:
            return self.say(f"store_part({address}, {self.operand(kind, value)}, {kind.size()});")
        if is_number(kind) or kind.kind == "vector" and kind.parts[0].count == 1:
            line.refuse()
        if value[0][0] != "%":
            self.set(f"%stored{len(self.names)}", kind, self.operand(kind, value))
            value = [list(self.names)[-1]]
        self.say(f"memcpy(TO({address}), &{self.variable(value[0], kind)}, {kind.size()});")

    def do_getelementptr(self, into, line):
        line.skip(*FLAGS)
        kind = line.kind()
        line.take(",")
        text = self.operand(*line.operand())
        is_first = True
        while line.may_take(","):
            index, words = line.operand()
            offset = None
            if not is_first:
                kind, offset = self.inside(kind, words, line)
            text += self.times(index, words, kind.size()) if offset is None else f" + {number(offset, 64)}"
            is_first = False
        self.set(into, ADDRESS, text)

    def inside(self, kind, words, line):
        """The part of a type at an index, and of a struct its offset."""
        if kind.kind == "struct":
            return kind.parts[int(words[0])], struct_places(kind)[0][int(words[0])]
        if kind.kind != "array":
            line.refuse()
        return kind.parts[0], None

    def times(self, index, words, size):
        """An index times a size, added to an address."""
        if words[0][0] != "%":
            return f" + {number(int(words[0]) * size, 64)}"
        if width(index) != 64:
            stop("an index has fewer than 64 bits")
        text = self.operand(index, words)
        return f" + {text}" if size == 1 else f" + {text} * {number(size, 64)}"

    def do_icmp(self, into, line):
        line.skip(*FLAGS)
        word = line.take(*COMPARED)
        kind, one = line.operand()
        line.take(",")
        other = line.value()
        part = kind.parts[0] if kind.kind == "vector" else kind
        one, other = self.operand(kind, one), self.operand(kind, other)
        if is_wide(kind) and word in WIDE_COMPARED:
            return self.set(into, Type("int", 1), WIDE_COMPARED[word].format(one, other))
        if not is_number(part):
            line.refuse()
        if word[0] == "s":
            sign = number(1 << (width(part) - 1), width(part))
            one, other = f"({one} ^ {sign})", f"({other} ^ {sign})"
        made = Type("vector", kind.count, (Type("int", 1),)) if kind.kind == "vector" else Type("int", 1)
        self.set(into, made, f"{one} {COMPARED[word]} {other}")

    def do_select(self, into, line):
        asked = self.operand(*line.operand())
        line.take(",")
        kind, one = line.operand()
        line.take(",")
        other = line.operand()[1]
        self.set(into, kind, f"{asked} ? {self.operand(kind, one)} : {self.operand(kind, other)}")

    def do_extractvalue(self, into, line):
        kind, value = line.operand()
        line.take(",")
        at = int(line.take())
        self.set(into, kind.parts[at], f"{self.operand(kind, value)}.f{at}")

    def do_insertvalue(self, into, line):
        kind, value = line.operand()
        line.take(",")
        part = self.operand(*line.operand())
        line.take(",")
        at = int(line.take())
        self.set(into, kind, self.operand(kind, value))
        self.say(f"{self.variable(into, kind)}.f{at} = {part};")

    def do_extractelement(self, into, line):
        kind, value = line.operand()
        line.take(",")
        self.set(into, kind.parts[0], self.element(kind, value, self.operand(*line.operand())))

    def do_insertelement(self, into, line):
        kind, value = line.operand()
        line.take(",")
        part = self.operand(*line.operand())
        line.take(",")
        at = self.operand(*line.operand())
        self.set(into, kind, self.operand(kind, value))
        self.say(f"{self.variable(into, kind)}.at[{at}] = {part};")

    def do_shufflevector(self, into, line):
        kind, one = line.operand()
        line.take(",")
        other = line.operand()[1]
        line.take(",")
        mask, chosen = line.operand()
        numbers = ["0"] * mask.count if chosen == ["zeroinitializer"] else chosen[2::3]
        if len(numbers) != mask.count:
            line.refuse()
        made = Type("vector", mask.count, kind.parts)
        name = self.variable(into, made)
        for at, number_word in enumerate(numbers):
            index = 0 if number_word in ("poison", "undef") else int(number_word)
            words, index = (one, index) if index < kind.count else (other, index - kind.count)
            self.say(f"{name}.at[{at}] = {self.element(kind, words, index)};")

    def do_ret(self, _, line):
        kind = line.kind()
        self.say("return;" if kind.kind == "void" else f"return {self.operand(kind, line.value())};")

    def do_unreachable(self, _, line):
        self.say("abort();")

    def br(self, block, line):
        if line.look() == "label":
            return self.jump(block, line.label())
        asked = self.operand(*line.operand())
        line.take(",")
        one = line.label()
        line.take(",")
        self.jump(block, one, f"if ({asked})")
        self.jump(block, line.label())

    def switch(self, block, line):
        kind, value = line.operand()
        line.take(",")
        other = line.label()
        line.take("[")
        self.say(f"switch ({self.operand(kind, value)}) {{")
        while not line.may_take("]"):
            case = self.operand(*line.operand())
            line.take(",")
            self.jump(block, line.label(), f"case {case}:")
        self.jump(block, other, "default:")
        self.say("}")

    def do_call(self, into, line):
        line.skip(*FLAGS)
        answer = line.kind()
        name, given = line.take(), []
        line.take("(")
        while not line.may_take(")"):
            given.append(line.operand())
            line.may_take(",")
        if name[:6] == "@llvm.":
            return self.intrinsic(into, answer, name[1:], given, line)
        if name not in self.globals or any(kind.kind == "vector" for kind, _ in given) or answer.kind == "vector":
            line.refuse()
        text = f"{self.globals[name]}({', '.join(self.operand(*one) for one in given)})"
        return self.set(into, answer, text) if into and answer.kind != "void" else self.say(text + ";")

    def intrinsic(self, into, answer, name, given, line):
        """What LLVM's own functions do. Their names end in the types that they are for."""
        base = re.sub(r"(\.(p0|i\d+|v\d+i\d+))+$", "", name)
        if base in LEFT_OUT:
            return
        parts = [self.operand(*one) for one in given]
        part = answer.parts[0] if answer.kind in ("vector", "struct") else answer
        if is_wide(answer):
            self.wide_intrinsic(into, answer, base, parts, line)
        elif base == "llvm.trap":
            self.say("abort();")
        elif base in MEMORY:
            self.say(f"{MEMORY[base]}({', '.join(parts[:3])});")
        elif base in OF_WIDTHS and width(answer) in (8, 16, 32, 64):
            self.set(into, answer, f"{OF_WIDTHS[base]}({parts[0]}, {width(answer)})")
        elif base in CHOSEN:
            self.chosen(into, answer, part, base, parts)
        elif base in ("llvm.uadd.sat", "llvm.usub.sat") and width(part) >= 32:
            text = f"{parts[0]} + {parts[1]} < {parts[0]} ? {number(-1, width(part))} : {parts[0]} + {parts[1]}"
            self.set(into, answer, text if base == "llvm.uadd.sat" else f"{parts[0]} < {parts[1]} ? 0u : {parts[0]} - {parts[1]}")
        elif base in ("llvm.fshl", "llvm.fshr") and width(part) in (32, 64):
            self.set(into, answer, f"shifted_{base[-1]}{width(part)}({', '.join(parts)})")
        elif re.fullmatch(r"llvm\.u(add|sub|mul)\.with\.overflow", base) and width(part) == 64:
            self.overflow(into, answer, base.split(".")[1][1:], parts)
        elif re.fullmatch(r"llvm\.vector\.reduce\.(or|and)", base) and given[0][0].kind == "vector":
            self.reduced(into, answer, base[-2:], given[0])
        elif base == "llvm.ucmp":
            self.set(into, answer, cut(f"({parts[0]} > {parts[1]}) - ({parts[0]} < {parts[1]})", answer))
        else:
            line.refuse()

    def wide_intrinsic(self, into, answer, base, parts, line):
        """The same, of numbers of 128 bits."""
        one, other = parts[:2]
        found = {"llvm.usub.sat": f"wide_128(0u, 0u) : sub_128({one}, {other})", "llvm.umin": f"{one} : {other}", "llvm.umax": f"{other} : {one}"}
        if base not in found:
            line.refuse()
        self.set(into, answer, f"less_128({one}, {other}) ? {found[base]}")

    def chosen(self, into, answer, part, base, parts):
        sign = f" ^ {number(1 << (width(part) - 1), width(part))}" if base[5] == "s" else ""
        self.set(into, answer, f"({parts[0]}{sign}) {CHOSEN[base]} ({parts[1]}{sign}) ? {parts[0]} : {parts[1]}")

    def overflow(self, into, answer, word, parts):
        one, other = parts
        made = self.variable(into, answer)
        self.typed(answer)
        self.say(f"{made}.f0 = {one} {BINARY[word][0]} {other};")
        said = {"add": f"{made}.f0 < {one}", "sub": f"{one} < {other}", "mul": f"{one} != 0 && {made}.f0 / {one} != {other}"}
        self.say(f"{made}.f1 = {said[word]};")

    def reduced(self, into, answer, word, vector):
        kind, words = vector
        made, sign = self.variable(into, answer), "|" if word == "or" else "&"
        self.say(f"{made} = {self.element(kind, words, 0)};")
        self.say(f"for (at = 1; at < {kind.count}; at++) {made} {sign}= {self.element(kind, words, 'at')};")
        self.variables["at"] = "unsigned"
