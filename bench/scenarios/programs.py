"""Programs of nodes: assembler text and bytecode, both read into one form.

A program is a list of instructions and a list of ten handler entries (boot, recv, timer 0 to timer 7), each the index of an
instruction or None. An instruction is a tuple: its name, and then its operands as numbers, in the order of the text.
Only programs that are accepted are read here; of any other one it is said that it is refused, and not why.
"""

import re

HANDLERS = ["boot", "recv"] + ["timer%d" % k for k in range(8)]
NO_HANDLER = 65535
MOST_INSTRUCTIONS = 4096

OPERATORS = ["add", "sub", "mul", "and", "or", "xor", "shl", "shr", "sar", "udiv", "urem", "eq", "ult", "slt"]

# The kinds of operands of each instruction. R is a register, L a label, all others are numbers:
# N any word, M a place in memory, S the length of a span, W a width, K a timer, D a delay, C a count of words, P a word of a packet.
SHAPES = {
    "const": "RN", "mov": "RR", "not": "RR", "ld": "RM", "st": "MR", "ldx": "RRMS", "stx": "RRMS",
    "jmp": "L", "brz": "RL", "input": "RW", "timer": "KD", "cancel": "K", "send": "NRC", "bcast": "RC", "recvw": "RP",
}
for operator in OPERATORS:
    SHAPES[operator] = "RRR"
for name in ["rlen", "rfrom", "assert", "node", "now"]:
    SHAPES[name] = "R"
for name in ["ret", "halt"]:
    SHAPES[name] = ""

CODES = {code + 1: name for code, name in enumerate(
    ["const", "mov", "not", "ld", "st", "ldx", "stx", "jmp", "brz", "input", "timer", "cancel", "send", "bcast", "recvw"]
    + OPERATORS + ["rlen", "rfrom", "assert", "node", "now", "ret", "halt"])}

# Which fields of an instruction's eight bytes hold the operands, in the order of the text.
FIELDS = {
    "const": "ap", "mov": "ab", "not": "ab", "ld": "ap", "st": "pa", "ldx": "abpq", "stx": "abpq",
    "jmp": "p", "brz": "ap", "input": "ap", "timer": "ap", "cancel": "a", "send": "pba", "bcast": "ba", "recvw": "ap",
    "rlen": "a", "rfrom": "a", "assert": "a", "node": "a", "now": "a", "ret": "", "halt": "",
}
for operator in OPERATORS:
    FIELDS[operator] = "abc"

RANGES = {"R": (0, 15), "N": (0, 65535), "M": (0, 63), "S": (1, 16), "W": (1, 16), "K": (0, 7), "D": (1, 65535), "C": (0, 8), "P": (0, 7)}
ENDS = ["jmp", "ret", "halt"]


class Refused(Exception):
    """The program or the file is not one that is accepted."""


class Program:
    """Instructions and handlers, as this module's first lines say."""

    def __init__(self, instructions, handlers):
        self.instructions = instructions
        self.handlers = handlers


def check_instruction(name, operands, count):
    """Refuses operands that are out of range; a jump's target is below the number of instructions."""
    for kind, value in zip(SHAPES[name], operands):
        low, high = (0, count - 1) if kind == "L" else RANGES[kind]
        if not low <= value <= high:
            raise Refused("%s: %d is out of range" % (name, value))
    if name in ("ldx", "stx") and operands[2] + operands[3] > 64:
        raise Refused(name + ": the span ends behind the memory")
    if name == "send" and operands[1] + operands[2] > 16 or name == "bcast" and operands[0] + operands[1] > 16:
        raise Refused(name + ": not so many registers")


def check_program(instructions, handlers):
    """The program of these parts, where they are valid."""
    count = len(instructions)
    if not 1 <= count <= MOST_INSTRUCTIONS:
        raise Refused("the number of instructions")
    for name, *operands in instructions:
        check_instruction(name, operands, count)
    if instructions[-1][0] not in ENDS:
        raise Refused("the last instruction goes on")
    if any(entry is not None and entry >= count for entry in handlers):
        raise Refused("a handler without an instruction")
    return Program(instructions, handlers)


WORD = "[A-Za-z_][A-Za-z0-9_]*"
LINE = re.compile(r"[ \t]*(?:(?P<label>%s):)?[ \t]*(?:(?P<name>%s)(?:[ \t]+(?P<operands>[^;]*?))?)?[ \t]*(?:;.*)?" % (WORD, WORD), re.DOTALL)
REGISTER = re.compile("r(?:[0-9]|1[0-5])")
NUMBER = re.compile("0|[1-9][0-9]*|0x[0-9A-Fa-f]{1,4}")


def read_operand(text, kind, labels):
    """The number that an operand of this kind stands for."""
    if kind == "R":
        if not REGISTER.fullmatch(text):
            raise Refused("no register: " + text)
        return int(text[1:])
    if kind == "L":
        if REGISTER.fullmatch(text) or text not in labels:
            raise Refused("no label: " + text)
        return labels[text]
    if not NUMBER.fullmatch(text):
        raise Refused("no number: " + text)
    return int(text, 0)


def assemble(text):
    """The program that an assembler text gives."""
    labels = {}
    written = []
    for line in text.split("\n"):
        found = LINE.fullmatch(line)
        if not found:
            raise Refused("no line: " + line)
        label, name, operands = found["label"], found["name"], found["operands"]
        for word in (label, name):
            if word is not None and len(word) > 32:
                raise Refused("too long a word")
        if label is not None:
            if label in labels:
                raise Refused("a label that stands twice: " + label)
            labels[label] = len(written)
        if name is not None:
            if name not in SHAPES:
                raise Refused("no instruction: " + name)
            written.append((name, [part.strip(" \t") for part in operands.split(",")] if operands else []))
    instructions = []
    for name, operands in written:
        if len(operands) != len(SHAPES[name]):
            raise Refused("the number of operands of " + name)
        instructions.append((name, *[read_operand(text, kind, labels) for text, kind in zip(operands, SHAPES[name])]))
    if any(place >= len(written) for place in labels.values()):
        raise Refused("a label without an instruction")
    return check_program(instructions, [labels.get(name) for name in HANDLERS])


def decode(code):
    """The program that bytes spell."""
    if len(code) < 22 or len(code) != 22 + 8 * int.from_bytes(code[:2], "big"):
        raise Refused("the length")
    entries = [int.from_bytes(code[2 + 2 * k:4 + 2 * k], "big") for k in range(10)]
    instructions = []
    for place in range(22, len(code), 8):
        part = code[place:place + 8]
        fields = {"a": part[1], "b": part[2], "c": part[3],
                  "p": int.from_bytes(part[4:6], "big"), "q": int.from_bytes(part[6:8], "big")}
        if part[0] not in CODES:
            raise Refused("no opcode: %d" % part[0])
        name = CODES[part[0]]
        if any(value != 0 for field, value in fields.items() if field not in FIELDS[name]):
            raise Refused("a field that is not used")
        instructions.append((name, *[fields[field] for field in FIELDS[name]]))
    return check_program(instructions, [None if entry == NO_HANDLER else entry for entry in entries])


def encode(program):
    """The bytes that spell a program."""
    codes = {name: code for code, name in CODES.items()}
    parts = [len(program.instructions).to_bytes(2, "big")]
    parts += [(NO_HANDLER if entry is None else entry).to_bytes(2, "big") for entry in program.handlers]
    for name, *operands in program.instructions:
        fields = dict.fromkeys("abcpq", 0)
        fields.update(zip(FIELDS[name], operands))
        parts.append(bytes([codes[name], fields["a"], fields["b"], fields["c"]]))
        parts.append(fields["p"].to_bytes(2, "big") + fields["q"].to_bytes(2, "big"))
    return b"".join(parts)
