"""What stands for the types and numbers of LLVM code in C: a number in the smallest type that has room for it, with zeros above."""
from llvm_text import stop


def width(kind):
    return 64 if kind.kind == "ptr" else kind.count


def is_number(kind):
    return kind.kind in ("int", "ptr") and width(kind) <= 64


def is_wide(kind):
    """Whether it is a number of two words, for which the prelude has a struct and functions."""
    return kind.kind == "int" and kind.count == 128


def c_type(kind):
    """The name in C; of structs and vectors it says what they have, and `declared` declares it."""
    if is_wide(kind):
        return "n128"
    if is_number(kind):
        return next(f"uint{bits}_t" for bits in (8, 16, 32, 64) if width(kind) <= bits)
    if kind.kind == "vector" and is_number(kind.parts[0]):
        return f"v{kind.count}_{width(kind.parts[0])}"
    if kind.kind == "struct" and all(map(is_number, kind.parts)):
        return "s_" + "_".join(str(width(part)) for part in kind.parts)
    return stop(f"the LLVM code has a type that has no C here: {kind}") if kind.kind != "void" else "void"


def declared(kind):
    """The declaration of a struct or vector in C."""
    if kind.kind == "vector":
        return f"typedef struct {{ {c_type(kind.parts[0])} at[{kind.count}]; }} {c_type(kind)};"
    fields = " ".join(f"{c_type(part)} f{at};" for at, part in enumerate(kind.parts))
    return f"typedef struct {{ {fields} }} {c_type(kind)};"


def number(value, bits):
    value %= 1 << bits
    if bits == 128:
        return f"wide_128({number(value >> 64, 64)}, {number(value, 64)})"
    return f"UINT64_C({value})" if bits > 32 else f"{value}u"


def cut(text, kind):
    """An expression with zeros above its bits."""
    bits = width(kind)
    return f"({c_type(kind)})({text})" if bits in (8, 16, 32, 64) else f"({c_type(kind)})(({text}) & {number(-1, bits)})"


def wide(text, kind):
    """An operand in a type in which C computes without a sign."""
    return f"(uint32_t){text}" if width(kind) < 32 else text
