"""What a network file's bytes are, written from the formats alone: `F<k> <place>`, or the network.
    checker.py FILE ...      prints one line each
    checker.py --print FILE  prints the canonical form of an accepted file"""
import re
import sys
import toml11

# ---------------------------------------------------------------- instructions
# name: (code, operand kinds); kinds are pairs (kind, field) in order of the text
R = "reg"
ROWS = {}


def row(code, name, shape):
    ROWS[name] = (code, shape)


for code_, name_, shape_ in (
    (0x01, "const", "RegWord"), (0x02, "mov", "RegReg"), (0x03, "not", "RegReg"), (0x04, "ld", "RegMem"), (0x05, "st", "MemReg"),
    (0x06, "ldx", "RegRegSpan"), (0x07, "stx", "RegRegSpan"), (0x08, "jmp", "Target"), (0x09, "brz", "RegTarget"), (0x0A, "input", "RegWidth"),
    (0x0B, "timer", "TimerDelay"), (0x0C, "cancel", "TimerOnly"), (0x0D, "send", "LinkRegCount"), (0x0E, "bcast", "RegCount"), (0x0F, "recvw", "RegIndex"),
    (0x1E, "rlen", "Reg"), (0x1F, "rfrom", "Reg"), (0x20, "assert", "Reg"), (0x21, "node", "Reg"), (0x22, "now", "Reg"), (0x23, "ret", "Bare"), (0x24, "halt", "Bare"),
):
    row(code_, name_, shape_)
for i_, name_ in enumerate("add sub mul and or xor shl shr sar udiv urem eq ult slt".split()):
    row(0x10 + i_, name_, "RegRegReg")
BY_CODE = {code: (name, shape) for name, (code, shape) in ROWS.items()}
ENDS = ("jmp", "ret", "halt")
HANDLERS = ["boot", "recv"] + [f"timer{k}" for k in range(8)]
NOT_YET = {"not", "ld", "st", "ldx", "stx"} | set("add sub mul and or xor shl shr sar udiv urem eq ult slt".split())

# for each shape: the operands in order of the text, each a kind and a field of a, b, c, p, q
SHAPES = {
    "RegWord": (("reg", "a"), ("num", "p")),
    "RegReg": (("reg", "a"), ("reg", "b")),
    "RegMem": (("reg", "a"), ("num", "p")),
    "MemReg": (("num", "p"), ("reg", "a")),
    "RegRegSpan": (("reg", "a"), ("reg", "b"), ("num", "p"), ("num", "q")),
    "Target": (("label", "p"),),
    "RegTarget": (("reg", "a"), ("label", "p")),
    "RegWidth": (("reg", "a"), ("num", "p")),
    "TimerDelay": (("num", "a"), ("num", "p")),
    "TimerOnly": (("num", "a"),),
    "LinkRegCount": (("num", "p"), ("reg", "b"), ("num", "a")),
    "RegCount": (("reg", "b"), ("num", "a")),
    "RegIndex": (("reg", "a"), ("num", "p")),
    "RegRegReg": (("reg", "a"), ("reg", "b"), ("reg", "c")),
    "Reg": (("reg", "a"),),
    "Bare": (),
}


def in_range(shape, f):
    """The fields a, b, c, p, q that a shape uses are in their ranges (targets apart)."""
    for kind, field in SHAPES[shape]:
        if kind == "reg" and not 0 <= f[field] <= 15:
            return False
        if kind == "num" and not 0 <= f[field] <= 65535:
            return False
    if shape in ("RegMem", "MemReg"):
        return f["p"] <= 63
    if shape == "RegRegSpan":
        return 1 <= f["q"] <= 16 and f["p"] + f["q"] <= 64
    if shape == "RegWidth":
        return 1 <= f["p"] <= 16
    if shape == "TimerDelay":
        return f["a"] <= 7 and 1 <= f["p"]
    if shape == "TimerOnly":
        return f["a"] <= 7
    if shape in ("LinkRegCount", "RegCount"):
        return f["a"] <= 8 and f["b"] + f["a"] <= 16
    if shape == "RegIndex":
        return f["p"] <= 7
    return True


# ---------------------------------------------------------------- bytecode
class Fault(Exception):
    pass


def decode(b):
    """The list of (name, fields) and the handlers; Fault(cause, place) for the first fault."""
    n = int.from_bytes(b[0:2], "big") if len(b) >= 2 else 0
    if len(b) < 22 or n == 0 or n > 4096 or len(b) != 22 + 8 * n:
        raise Fault("Length", len(b))
    handlers = []
    for k in range(10):
        e = int.from_bytes(b[2 + 2 * k:4 + 2 * k], "big")
        if e != 65535 and e >= n:
            raise Fault("Handler", 2 + 2 * k)
        handlers.append(None if e == 65535 else e)
    instrs = []
    for i in range(n):
        at = 22 + 8 * i
        code, a, bb, c = b[at:at + 4]
        f = {"a": a, "b": bb, "c": c, "p": int.from_bytes(b[at + 4:at + 6], "big"), "q": int.from_bytes(b[at + 6:at + 8], "big")}
        if code not in BY_CODE:
            raise Fault("Opcode", at)
        name, shape = BY_CODE[code]
        used = {field for _, field in SHAPES[shape]}
        if any(f[x] != 0 for x in f if x not in used) or not in_range(shape, f):
            raise Fault("Field", at)
        if any(kind == "label" and f[field] >= n for kind, field in SHAPES[shape]):
            raise Fault("Target", at)
        if i == n - 1 and name not in ENDS:
            raise Fault("Target", at)
        instrs.append((name, f))
    return instrs, handlers


def encode(instrs, handlers):
    out = bytearray(len(instrs).to_bytes(2, "big"))
    for h in handlers:
        out += (65535 if h is None else h).to_bytes(2, "big")
    for name, f in instrs:
        out += bytes([ROWS[name][0], f["a"], f["b"], f["c"]]) + f["p"].to_bytes(2, "big") + f["q"].to_bytes(2, "big")
    return bytes(out)


# ---------------------------------------------------------------- assembler
LABEL = re.compile(r"[A-Za-z_][A-Za-z0-9_]{0,31}(?![A-Za-z0-9_])")
REGISTER = re.compile(r"r(?:[0-9]|1[0-5])\Z")


def operand(text):
    """('reg', n), ('num', n) or ('label', s); None where it has no such form."""
    if REGISTER.match(text):
        return ("reg", int(text[1:]))
    m = LABEL.match(text)
    if m and m.end() == len(text):
        return ("label", text)
    if re.fullmatch(r"0x[0-9A-Fa-f]{1,4}", text):
        return ("num", int(text[2:], 16))
    if re.fullmatch(r"0|[1-9][0-9]{0,4}", text) and int(text) <= 65535:
        return ("num", int(text))
    return None


def line_form(line):
    """(label or None, (mnemonic, operands) or None); None where the line is not of the form."""
    i = 0

    def blanks(i):
        while i < len(line) and line[i] in " \t":
            i += 1
        return i

    i = blanks(i)
    label = None
    m = LABEL.match(line, i)
    if m and m.end() < len(line) and line[m.end()] == ":":
        label = m.group()
        i = blanks(m.end() + 1)
        m = LABEL.match(line, i)
    instr = None
    if m:
        word = m.group()
        j = m.end()
        end = line.find(";", j)
        rest = line[j:] if end < 0 else line[j:end]
        if rest.strip(" \t") == "":
            instr = (word, [])
        else:
            if rest[0] not in " \t":
                return None
            ops = [operand(x.strip(" \t")) for x in rest.split(",")]
            if any(o is None for o in ops):
                return None
            instr = (word, ops)
        return label, instr
    if i < len(line) and line[i] != ";":
        return None
    return label, None


def assemble(text):
    """(instrs, handlers), or Fault(cause, line) for the first line with a fault."""
    lines = text.split("\n")
    forms = [line_form(x) for x in lines]
    # labels and indices, of every line of the form
    index = 0
    places = {}
    first = []  # per line: index of its instruction, or None
    twice = set()
    for n, form in enumerate(forms):
        first.append(None)
        if form is None:
            continue
        label, instr = form
        if label is not None:
            if label in places:
                twice.add(n)
            else:
                places[label] = index
        if instr is not None:
            first[n] = index
            index += 1
    total = index
    instrs = []
    for n, form in enumerate(forms):
        if form is None:
            raise Fault("Syntax", n + 1)
        label, instr = form
        targets = []
        fields = {"a": 0, "b": 0, "c": 0, "p": 0, "q": 0}
        if instr is not None:
            word, ops = instr
            if word not in ROWS:
                raise Fault("Mnemonic", n + 1)
            shape = ROWS[word][1]
            wanted = SHAPES[shape]
            if len(ops) != len(wanted):
                raise Fault("Operand", n + 1)
            for (kind, value), (want, field) in zip(ops, wanted):
                if kind != want:
                    raise Fault("Operand", n + 1)
                if kind == "label":
                    targets.append((field, value))
                else:
                    fields[field] = value
            if not in_range(shape, fields):
                raise Fault("Operand", n + 1)
        if n in twice:
            raise Fault("Twice", n + 1)
        for field, name in targets:
            if name not in places:
                raise Fault("NoLabel", n + 1)
            fields[field] = places[name]
        if total == 0 and n == len(lines) - 1:
            raise Fault("Count", n + 1)
        if first[n] == 4096:
            raise Fault("Count", n + 1)
        if first[n] is not None and first[n] == total - 1 and instr[0] not in ENDS:
            raise Fault("End", n + 1)
        if label is not None and places[label] >= total:
            raise Fault("End", n + 1)
        if instr is not None:
            instrs.append((instr[0], fields))
    handlers = [places.get(h) for h in HANDLERS]
    return instrs, handlers


def disassemble(instrs, handlers):
    """The printed form of a program."""
    targets = {f[field] for name, f in instrs for kind, field in SHAPES[ROWS[name][1]] if kind == "label"}
    out = []
    for i, (name, f) in enumerate(instrs):
        out += [HANDLERS[k] + ":" for k in range(10) if handlers[k] == i]
        if i in targets:
            out.append(f"L{i}:")
        ops = [{"reg": f"r{f[x]}", "num": str(f[x]), "label": f"L{f[x]}"}[kind] for kind, x in SHAPES[ROWS[name][1]]]
        out.append("  " + name + (" " + ", ".join(ops) if ops else ""))
    return "".join(x + "\n" for x in out)


# ---------------------------------------------------------------- the file
TOP = ["version", "ticks", "fuel", "conflicts", "states", "dstates", "program", "node", "link", "input"]
LIMITS = {"ticks": (0, 4096, None), "fuel": (1, 4096, 512), "conflicts": (1, 1048576, 65536), "states": (1, 16384, 4096), "dstates": (1, 16384, 4096)}
COUNTS = {"program": (1, 64), "node": (1, 64), "link": (0, 1024), "input": (0, 65536)}
KEYS = {"program": ["name", "code", "asm"], "node": ["program", "loss", "duplicate", "reboot"], "link": ["from", "to", "delay"], "input": ["node", "index", "value"]}


def is_number(v):
    return isinstance(v, int) and not isinstance(v, bool)


def is_text(v):
    return isinstance(v, str)


class Net:
    pass


def check(data, detail=None):
    """('F', number, place) or ('OK', net). `detail` is a list that gets the causes of refused programs."""
    if len(data) > 1048576:
        return ("F", 1, "-")
    try:
        top = toml11.parse(data)
    except toml11.Refused:
        return ("F", 2, "-")
    faults = []

    def fault(number, place):
        faults.append((number, len(faults), place))

    if any(k not in TOP for k in top):
        fault(3, "top")
    net = Net()
    limits = {}
    net.limits = limits
    arrays = {}
    for k in COUNTS:
        v = top.get(k)
        arrays[k] = v if isinstance(v, list) and all(isinstance(x, dict) for x in v) else []
    nodes = len(arrays["node"])
    # the top table, key by key
    if "version" not in top:
        fault(4, "version")
    elif not is_number(top["version"]):
        fault(5, "version")
    elif top["version"] != 1:
        fault(6, "version")
    for k, (low, high, default) in LIMITS.items():
        v = top.get(k, default)
        if k not in top and default is None:
            fault(4, k)
        elif not is_number(v):
            fault(5, k)
        elif not low <= v <= high or (k == "states" and v < nodes):
            fault(7, k)
        limits[k] = v
    for k, (low, high) in COUNTS.items():
        if k not in top:
            if low > 0:
                fault(4, k)
        elif not isinstance(top[k], list) or not all(isinstance(x, dict) for x in top[k]):
            fault(5, k)
        elif not low <= len(top[k]) <= high:
            fault(7, k)

    def number_key(table, place, key, low, high, own, required):
        """The number at the key where all is well, else None."""
        if key not in table:
            if required:
                fault(4, place + "." + key)
            return None
        v = table[key]
        if not is_number(v):
            fault(5, place + "." + key)
            return None
        if not low <= v <= high:
            fault(own, place + "." + key)
            return None
        return v

    # programs
    net.programs = []
    names = []
    for i, t in enumerate(arrays["program"]):
        place = f"program[{i}]"
        if any(k not in KEYS["program"] for k in t):
            fault(3, place)
        name = t.get("name")
        if "name" not in t:
            fault(4, place + ".name")
        elif not is_text(name):
            fault(5, place + ".name")
        else:
            if not re.fullmatch(r"[A-Za-z0-9_-]{1,32}", name) or name in names:
                fault(8, place + ".name")
            names.append(name)
        if "code" not in t and "asm" not in t:
            fault(4, place + ".code")
        good_code = good_asm = False
        if "code" in t:
            if not is_text(t["code"]):
                fault(5, place + ".code")
            else:
                good_code = True
        if "code" in t and "asm" in t and good_code and is_text(t["asm"]):
            fault(8, place + ".code")
        program = None
        if good_code and "asm" not in t:
            try:
                if not re.fullmatch(r"(?:[0-9A-Fa-f]{2})*", t["code"]):
                    raise Fault("Hex", 0)
                program = decode(bytes.fromhex(t["code"]))
            except Fault as e:
                if detail is not None:
                    detail.append((place + ".code",) + e.args)
                fault(8, place + ".code")
        if "asm" in t:
            if not is_text(t["asm"]):
                fault(5, place + ".asm")
            elif "code" not in t:
                try:
                    program = assemble(t["asm"])
                except Fault as e:
                    if detail is not None:
                        detail.append((place + ".asm",) + e.args)
                    fault(8, place + ".asm")
        net.programs.append((name, program))
    # nodes
    net.nodes = []
    for i, t in enumerate(arrays["node"]):
        place = f"node[{i}]"
        if any(k not in KEYS["node"] for k in t):
            fault(3, place)
        name = t.get("program")
        if "program" not in t:
            fault(4, place + ".program")
        elif not is_text(name):
            fault(5, place + ".program")
        elif name not in names:
            fault(9, place + ".program")
        loss = number_key(t, place, "loss", 0, 15, 11, False)
        duplicate = number_key(t, place, "duplicate", 0, 15, 11, False)
        reboot = t.get("reboot", [])
        if not isinstance(reboot, list) or not all(is_number(x) for x in reboot):
            fault(5, place + ".reboot")
        elif len(reboot) > 16 or any(not 0 <= x <= 4095 for x in reboot) or any(x >= y for x, y in zip(reboot, reboot[1:])):
            fault(11, place + ".reboot")
        net.nodes.append((name, loss or 0, duplicate or 0, reboot))
    # links
    net.links = []
    counts = {}
    for i, t in enumerate(arrays["link"]):
        place = f"link[{i}]"
        if any(k not in KEYS["link"] for k in t):
            fault(3, place)
        a = number_key(t, place, "from", 0, nodes - 1, 10, True)
        if a is not None:
            counts[a] = counts.get(a, 0) + 1
            if counts[a] > 16:
                fault(10, place + ".from")
        b = number_key(t, place, "to", 0, nodes - 1, 10, True)
        if b is not None and a == b:
            fault(10, place + ".to")
        d = number_key(t, place, "delay", 1, 65535, 10, True)
        net.links.append((a, b, d))
    # inputs
    net.inputs = []
    before = None
    for i, t in enumerate(arrays["input"]):
        place = f"input[{i}]"
        if any(k not in KEYS["input"] for k in t):
            fault(3, place)
        n = number_key(t, place, "node", 0, nodes - 1, 12, True)
        k = number_key(t, place, "index", 0, 65535, 12, True)
        if n is not None and k is not None:
            if before is not None and (n, k) <= before:
                fault(12, place + ".index")
            before = (n, k)
        v = number_key(t, place, "value", 0, 65535, 12, True)
        if v:
            net.inputs.append((n, k, v))
    if faults:
        number, _, place = min(faults)
        return ("F", number, place)
    return ("OK", net)


def printed(net):
    out = ["version = 1"] + [f"{k} = {net.limits[k]}" for k in LIMITS]
    for name, (instrs, handlers) in net.programs:
        out += ["", "[[program]]", f'name = "{name}"', f'code = "{encode(instrs, handlers).hex()}"']
    for name, loss, duplicate, reboot in net.nodes:
        out += ["", "[[node]]", f'program = "{name}"', f"loss = {loss}", f"duplicate = {duplicate}", "reboot = [" + ", ".join(map(str, reboot)) + "]"]
    for a, b, d in net.links:
        out += ["", "[[link]]", f"from = {a}", f"to = {b}", f"delay = {d}"]
    for n, k, v in net.inputs:
        out += ["", "[[input]]", f"node = {n}", f"index = {k}", f"value = {v}"]
    return "".join(x + "\n" for x in out)


def runs(net):
    """Whether the program runs the network as it is: else it answers F0."""
    return all(loss == 0 and duplicate == 0 and not reboot for _, loss, duplicate, reboot in net.nodes)


def answer(data):
    r = check(data)
    return f"F{r[1]} {r[2]}" if r[0] == "F" else "OK"


if __name__ == "__main__":
    if sys.argv[1:2] == ["--print"]:
        r = check(open(sys.argv[2], "rb").read())
        sys.stdout.write(printed(r[1]) if r[0] == "OK" else f"F{r[1]} {r[2]}\n")
    else:
        for path in sys.argv[1:]:
            print(path, answer(open(path, "rb").read()))
