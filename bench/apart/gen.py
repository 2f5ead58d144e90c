"""Makes the files near to accepted ones, with what each is. Deterministic by the seed.
    gen.py [SEED]      writes files/NNNNN.toml, expected, expected_program, notes, causes and printed/NNNNN.toml"""
import copy
import os
import random
import sys
import checker
from checker import assemble, encode, disassemble, Fault, ROWS, SHAPES, NOT_YET

HERE = os.path.dirname(os.path.abspath(__file__))
SEED = int(sys.argv[1]) if len(sys.argv) > 1 else 15
rng = random.Random(SEED)


# ---------------------------------------------------------------- literals
def int_form(v, r):
    """An integer as TOML may write it."""
    forms = [str(v)] * 4
    if v >= 0:
        forms += [f"0x{v:x}", f"0x{v:X}", f"0o{v:o}", f"0b{v:b}", f"+{v}", f"0x00{v:x}"]
        if v == 0:
            forms += ["-0", "+0"]
    s = str(abs(v))
    if len(s) > 1:
        k = r.randrange(1, len(s))
        forms.append(("-" if v < 0 else "") + s[:k] + "_" + s[k:])
        forms.append(("-" if v < 0 else "") + "_".join(s))
    if v >= 256:
        h = f"{v:x}"
        forms.append("0x" + h[:1] + "_" + h[1:])
    return r.choice(forms)


def escaped(c, r, multi):
    n = ord(c)
    if c == "\n" and multi:
        return "\n"
    named = {"\b": "\\b", "\t": "\\t", "\n": "\\n", "\f": "\\f", "\r": "\\r", '"': '\\"', "\\": "\\\\"}
    if c in named:
        if c == "\t" and r.random() < 0.5:
            return c
        return named[c]
    if n < 32 or n == 127:
        return f"\\u{n:04x}"
    if r.random() < 0.03:
        return f"\\u{n:04X}" if n < 65536 else f"\\U{n:08x}"
    return c


def text_form(s, r, nl="\n", kind=None):
    """A text as TOML may write it; nl is the document's line end, used inside multi-line strings only for line feeds that were written so."""
    kinds = ["basic"] * 3
    printable = all(ord(c) >= 32 and ord(c) != 127 or c == "\t" for c in s)
    if printable and "'" not in s:
        kinds += ["literal"] * 2
    kinds.append("multibasic")
    if all(ord(c) >= 32 and ord(c) != 127 or c in "\t\n" for c in s) and "''" not in s and not s.endswith("'"):
        kinds += ["multiliteral"] * (4 if "\n" in s else 1)
    kind = kind if kind in kinds else r.choice(kinds)
    if kind == "literal":
        return "'" + s + "'"
    if kind == "multiliteral":
        return "'''" + ("\n" if s.startswith("\n") or r.random() < 0.7 else "") + s + "'''"
    if kind == "basic":
        return '"' + "".join(escaped(c, r, False) for c in s) + '"'
    body = "".join(escaped(c, r, r.random() < 0.7) for c in s)
    front = "\n" if body.startswith("\n") or r.random() < 0.5 else ""
    if r.random() < 0.2 and " " in body:
        i = body.index(" ")
        if (len(body[:i]) - len(body[:i].rstrip("\\"))) % 2 == 0:
            j = i
            while body[j:j + 1] == " ":
                j += 1
            body = body[:j] + "\\\n   \n  " + body[j:] if body[j:j + 1] not in ("\n", "") else body
    return '"""' + front + body + '"""'


def lit(v, r):
    """v is ('int', n), ('text', s), ('ints', [..]), ('raw', s)."""
    kind, x = v
    if kind == "int":
        return int_form(x, r)
    if kind == "text":
        return text_form(x, r)
    if kind == "ints":
        if not x:
            return r.choice(["[]", "[ ]", "[\n]", "[ # none\n ]"])
        sep = r.choice([", ", ",", " ,\n  ", ", # next\n"])
        return "[" + r.choice(["", " ", "\n"]) + sep.join(int_form(n, r) for n in x) + r.choice(["", ",", " ", "\n", " , "]) + "]"
    return x


def key_form(k, r):
    x = r.random()
    if x < 0.88 and k and all(c.isascii() and (c.isalnum() or c in "-_") for c in k):
        return k
    if x < 0.95 and "'" not in k and all(ord(c) >= 32 for c in k):
        return "'" + k + "'"
    return '"' + "".join(escaped(c, r, False) for c in k) + '"'


# ---------------------------------------------------------------- models
class Model:
    """top: list of (key, value); arrays: name -> list of tables, or None (absent), or ('raw', text)."""

    def __init__(self):
        self.top = []
        self.arrays = {"program": [], "node": [], "link": None, "input": None}
        self.tail = ""
        self.head = ""

    def set(self, key, value):
        self.drop(key)
        self.top.append((key, value))

    def drop(self, key):
        self.top = [(k, v) for k, v in self.top if k != key]


def put(table, key, value):
    drop(table, key)
    table.append((key, value))


def drop(table, key):
    table[:] = [(k, v) for k, v in table if k != key]


def blank(r):
    return r.choice(["", "", "", "", "", "\n", "# a comment: [[x]] = \"\n", "\t\n", "  # é ü 漢\n"])


def render(m, r, plain=False):
    out = [m.head]
    inline = []
    headers = []
    for name, tables in m.arrays.items():
        if tables is None:
            continue
        if isinstance(tables, tuple):
            inline.append((name, tables))
        elif not tables or (not plain and r.random() < 0.12):
            inline.append((name, tables))
        else:
            headers.append(name)
    items = [("kv", k, v) for k, v in m.top] + [("inline", k, v) for k, v in inline]
    if not plain and r.random() < 0.5:
        r.shuffle(items)

    def pair(k, v):
        e = r.choice([" = ", " = ", " = ", "=", "\t= "]) if not plain else " = "
        return (k if plain else key_form(k, r)) + e + lit(v, r)

    for what, k, v in items:
        if not plain:
            out.append(blank(r))
        if what == "kv":
            out.append((r.choice(["", "", "  ", "\t"]) if not plain else "") + pair(k, v) + ("" if plain else r.choice(["", "", "", " # c", "\t#"])) + "\n")
        elif isinstance(v, tuple):
            out.append(f"{k} = {v[1]}\n")
        else:
            rows = []
            for t in v:
                ps = list(t)
                r.shuffle(ps)
                rows.append("{" + ", ".join(pair(a, b) if b[0] != "ints" else a + " = [" + ", ".join(map(str, b[1])) + "]" for a, b in ps) + "}")
            out.append(k + " = [" + r.choice(["", "\n  ", " "]) + r.choice([", ", ",\n  ", ",\t"]).join(rows) + r.choice(["", ",", "\n", " # end\n"] if rows else ["", " ", "\n"]) + "]\n")
    # headers, in a random interleaving that keeps each array's order
    queue = []
    order = list(headers)
    if plain:
        for name in order:
            queue += [(name, t) for t in m.arrays[name]]
    else:
        if r.random() < 0.4:
            r.shuffle(order)
        if r.random() < 0.15:
            left = {n: list(m.arrays[n]) for n in order}
            while any(left.values()):
                n = r.choice([x for x in left if left[x]])
                queue.append((n, left[n].pop(0)))
        else:
            for n in order:
                queue += [(n, t) for t in m.arrays[n]]
    for name, t in queue:
        if not plain:
            out.append(blank(r))
        out.append(("[[" + name + "]]" if plain else r.choice(["[[%s]]"] * 6 + ["[[ %s ]]", "[[\"%s\"]]", "\t[[%s]] # c"]) % name) + "\n")
        ps = list(t)
        if not plain and r.random() < 0.4:
            r.shuffle(ps)
        for k, v in ps:
            if not plain:
                out.append(blank(r))
            out.append(pair(k, v) + ("" if plain else r.choice(["", "", "", " # c"])) + "\n")
    out.append(m.tail)
    text = "".join(out)
    if not plain and text.endswith("\n") and r.random() < 0.1:
        text = text[:-1]
    return text


# ---------------------------------------------------------------- programs
def operand_values(shape, r):
    """Random values in range, the borders often."""
    reg = lambda: r.choice([0, 1, 2, 3, 15, r.randrange(16)])
    edge = lambda low, high: r.choice([low, high, r.randrange(low, high + 1)])
    f = {}
    if shape == "RegRegSpan":
        q = edge(1, 16)
        return {"a": reg(), "b": reg(), "p": edge(0, 64 - q), "q": q}
    if shape in ("LinkRegCount", "RegCount"):
        b = reg()
        f = {"b": b, "a": edge(0, min(8, 16 - b))}
        if shape == "LinkRegCount":
            f["p"] = r.choice([0, 0, 0, 1, 15, 16, 65535])
        return f
    for kind, field in SHAPES[shape]:
        if kind == "reg":
            f[field] = reg()
    if shape == "RegWord":
        f["p"] = edge(0, 65535)
    if shape in ("RegMem", "MemReg"):
        f["p"] = edge(0, 63)
    if shape == "RegWidth":
        f["p"] = edge(1, 16)
    if shape == "TimerDelay":
        f["a"], f["p"] = edge(0, 7), edge(1, 65535)
    if shape == "TimerOnly":
        f["a"] = edge(0, 7)
    if shape == "RegIndex":
        f["p"] = edge(0, 7)
    return f


def make_program(r, running, longest=10):
    """(instrs, handlers), valid; running: only what runs yet, forward jumps, few inputs."""
    n = r.randrange(1, longest + 1)
    names = [x for x in ROWS if not (running and x in NOT_YET)]
    instrs = []
    splits = 0
    for i in range(n):
        name = r.choice(names) if i < n - 1 else r.choice(["jmp", "ret", "halt", "ret", "ret"])
        if running and i == n - 1 and name == "jmp":
            name = "ret"
        if running and name in ("brz", "assert", "input"):
            splits += 1
            if splits > 4:
                name = "node"
        shape = ROWS[name][1]
        f = {"a": 0, "b": 0, "c": 0, "p": 0, "q": 0}
        f.update(operand_values(shape, r))
        if shape in ("Target", "RegTarget"):
            f["p"] = r.randrange(i + 1, n) if running and i + 1 < n else r.randrange(n)
        if running and name == "input":
            f["p"] = 1
        instrs.append((name, f))
    handlers = [r.randrange(n) if r.random() < p else None for p in [0.9, 0.5] + [0.25] * 8]
    return instrs, handlers


def asm_text(program, r):
    """The program as a writer may write it."""
    instrs, handlers = program
    targets = {}
    for name, f in instrs:
        for kind, field in SHAPES[ROWS[name][1]]:
            if kind == "label":
                targets.setdefault(f[field], [])
    words = ["a", "b", "loop", "out", "done", "next_1", "_x", "L0", "Boot", "r16", "x" * 32, "ret", "timer8", "wait", "z9", "r0_", "add"]
    r.shuffle(words)
    for i, t in enumerate(targets):
        targets[t] = words[i % len(words)] + ("" if i < len(words) else f"_{i}")
        if len(targets[t]) > 32:
            targets[t] = f"q{i}"
    out = []
    for i, (name, f) in enumerate(instrs):
        labels = [checker.HANDLERS[k] for k in range(10) if handlers[k] == i]
        if i in targets:
            labels.append(targets[i])
        r.shuffle(labels)
        while len(labels) > 1 or (labels and r.random() < 0.2):
            out.append(r.choice(["", " "]) + labels.pop(0) + ":" + r.choice(["", " ", " ; c"]))
        if r.random() < 0.1:
            out.append(r.choice(["", "; only a comment", "  ", "\t; é"]))
        ops = []
        for kind, x in SHAPES[ROWS[name][1]]:
            if kind == "reg":
                ops.append(f"r{f[x]}")
            elif kind == "num":
                ops.append(r.choice([str(f[x]), str(f[x]), f"0x{f[x]:x}", f"0x{f[x]:04X}"]))
            else:
                # a jump to a place that a handler names may use its label
                hs = [checker.HANDLERS[k] for k in range(10) if handlers[k] == f[x]]
                ops.append(r.choice([targets[f[x]]] * 3 + hs))
        sep = r.choice([", ", ", ", ",", " ,\t"])
        line = (labels[0] + ":" + r.choice(["", " ", "  "]) if labels else r.choice(["", "  ", "\t"])) + name
        line += (r.choice([" ", "  ", "\t"]) + sep.join(ops) if ops else "") + r.choice(["", "", " ", " ; comment", ";x, y"])
        out.append(line)
    text = "\n".join(out) + r.choice(["", "\n", "\n\n; end\n"])
    assert assemble(text) == program, text
    return text


def program_value(program, r):
    """The key and value that hold a program."""
    if r.random() < 0.5:
        h = encode(*program).hex()
        return "code", ("text", r.choice([h, h, h.upper(), "".join(r.choice([c, c.upper()]) for c in h)]))
    return "asm", ("text", asm_text(program, r) if r.random() < 0.7 else disassemble(*program))


NAMES = ["a", "sink", "relay", "node-1", "x_y", "0", "-", "_", "A", "Z9", "n" * 32, "program", "leaf", "2b"]


def base(r, running=True, rich=False):
    """A valid model."""
    m = Model()
    m.top = [("version", ("int", 1)), ("ticks", ("int", r.choice([0, 1, 2, 3])))]
    for k, choices in (("fuel", [1, 9, 512, 4096]), ("conflicts", [1, 8, 1000, 1048576]), ("states", [64, 200, 4096, 16384]), ("dstates", [1, 50, 4096, 16384])):
        if rich or r.random() < 0.3:
            m.top.append((k, ("int", r.choice(choices))))
    np = r.choice([3, 4]) if rich else r.choice([1, 1, 2, 3])
    nn = r.choice([4, 5]) if rich else r.choice([1, 2, 2, 3, 4])
    names = r.sample(NAMES, np)
    for name in names:
        k, v = program_value(make_program(r, running), r)
        m.arrays["program"].append([("name", ("text", name)), (k, v)])
    for i in range(nn):
        t = [("program", ("text", r.choice(names)))]
        if rich or (not running and r.random() < 0.5):
            t.append(("loss", ("int", r.choice([0, 1, 15]) if not running else 0)))
            t.append(("duplicate", ("int", r.choice([0, 1, 15]) if not running else 0)))
            t.append(("reboot", ("ints", sorted(r.sample([0, 1, 2, 3, 7, 100, 4095], r.randrange(0, 4))) if not running else [])))
        m.arrays["node"].append(t)
    nl = (r.choice([4, 5]) if rich else r.choice([0, 1, 2])) if nn > 1 else 0
    if nl or r.random() < 0.1:
        m.arrays["link"] = []
        for _ in range(nl):
            a, b = r.sample(range(nn), 2)
            m.arrays["link"].append([("from", ("int", a)), ("to", ("int", b)), ("delay", ("int", r.choice([1, 1, 2, 65535])))])
    ni = r.choice([3, 4]) if rich else r.choice([0, 0, 1, 2])
    if ni or r.random() < 0.1:
        pairs = sorted(r.sample([(n, k) for n in range(nn) for k in (0, 1, 2, 9, 65535)], ni))
        m.arrays["input"] = [[("node", ("int", n)), ("index", ("int", k)), ("value", ("int", r.choice([0, 1, 2, 65535])))] for n, k in pairs]
    return m


# ---------------------------------------------------------------- mutations
WRONG_FOR_NUMBER = ['"1"', "'0'", "1.0", "1e0", "0.0", "inf", "nan", "-inf", "true", "false", "1979-05-27", "07:32:00", "1979-05-27T07:32:00Z", "1979-05-27 07:32:00.5", "[1]", "[]", "{}", "{a = 1}", '""']
WRONG_FOR_TEXT = ["1", "0", "1.5", "true", "1979-05-27", "07:32:00", '["a"]', "[]", "{}", '{name = "a"}', "nan"]
WRONG_FOR_TABLES = ["1", '"a"', "1.5", "false", "1979-05-27", "{}", "{a = 1}", "[1]", '["a"]', "[[]]", "[{}, 1]", "[1, {}]", "[{}, [{}]]", "[true]", "[1979-05-27]", "[{}, {}, \"x\"]"]
WRONG_FOR_INTS = ["1", '"1"', "1.5", "true", "{}", "1979-05-27", '["1"]', "[1.0]", "[1, 2.0]", "[true]", "[[1]]", "[{}]", '[1, "2"]', '["1", 2]', "[1979-05-27]", "[0, false, 2]", "[nan]"]
TEXT_KEYS = [("program", "name"), ("program", "code"), ("program", "asm"), ("node", "program")]
NUMBER_KEYS = [("node", "loss"), ("node", "duplicate"), ("link", "from"), ("link", "to"), ("link", "delay"), ("input", "node"), ("input", "index"), ("input", "value")]
TOP_NUMBERS = {"ticks": (0, 4096), "fuel": (1, 4096), "conflicts": (1, 1048576), "states": (1, 16384), "dstates": (1, 16384)}
RANGES = {("node", "loss"): (0, 15), ("node", "duplicate"): (0, 15), ("link", "delay"): (1, 65535), ("input", "index"): (0, 65535), ("input", "value"): (0, 65535)}
UNKNOWN = ["colour", "Version", "ticks ", "tick", "names", "", "é", "program.name", "codes", "loss2", "x" * 40, "a-b", "node", "version", "link", "reboots", "index", "from", "1"]
CODE_BAD = []


def bad_codes():
    h = "00020000ffffffffffffffffffffffffffffffffffff01000000000100002300000000000000"
    out = ["", "0", "00", "zz", h[:-1], h + "0", h[:-2], h + "00", h + "2400000000000000", "0000" + h[4:], "0003" + h[4:], "1001" + h[4:], "ffff" + h[4:], " " + h, h + " ", h[:10] + " " + h[10:], "0x" + h, h.replace("f", "g"), h + "\n", h[:20] + "\n" + h[20:], h.replace("0", "O"), h[:42], h[:44], "0000" + "ff" * 20]
    for k in range(10):
        for v in ("0002", "1000", "fffe"):
            out.append(h[:4 + 4 * k] + v + h[8 + 4 * k:])
    one = lambda code, a=0, b=0, c=0, p=0, q=0, last="2300000000000000", n=2: f"{n:04x}0000" + "ffff" * 9 + f"{code:02x}{a:02x}{b:02x}{c:02x}{p:04x}{q:04x}" + last
    for code in (0x00, 0x25, 0x26, 0x7F, 0x80, 0xFF):
        out.append(one(code))
    for name, (code, shape) in ROWS.items():
        used = {field for _, field in SHAPES[shape]}
        good = {"a": 0, "b": 0, "c": 0, "p": 0, "q": 0}
        for f in used:
            good[f] = 1 if f in "pq" else 0
        out.append(one(code, **good))                     # good, but where the range says otherwise
        for f in "abcpq":
            bad = dict(good)
            bad[f] = 1 if f not in used else {"a": 16, "b": 16, "c": 16, "p": 0xFFFF, "q": 0xFFFF}[f]
            out.append(one(code, **bad))
        if shape in ("RegMem", "MemReg"):
            out += [one(code, a=15, p=63), one(code, a=15, p=64)]
        if shape == "RegRegSpan":
            out += [one(code, p=0, q=0), one(code, p=48, q=16), one(code, p=49, q=16), one(code, p=0, q=17), one(code, p=63, q=1), one(code, p=64, q=1), one(code, a=15, b=15, p=60, q=4)]
        if shape == "RegWidth":
            out += [one(code, p=0), one(code, p=16), one(code, p=17)]
        if shape == "TimerDelay":
            out += [one(code, a=7, p=1), one(code, a=8, p=1), one(code, a=7, p=0), one(code, a=7, p=65535)]
        if shape == "TimerOnly":
            out += [one(code, a=7), one(code, a=8)]
        if shape in ("LinkRegCount", "RegCount"):
            out += [one(code, a=8, b=8), one(code, a=8, b=9), one(code, a=9, b=0), one(code, a=0, b=15), one(code, a=0, b=16), one(code, a=1, b=15)]
        if shape == "RegIndex":
            out += [one(code, p=7), one(code, p=8)]
        if shape in ("Target", "RegTarget"):
            out += [one(code, p=1), one(code, p=2), one(code, p=0)]
        out.append(f"00010000" + "ffff" * 9 + f"{code:02x}000000" + "0000" * 2)   # as the last instruction
    out.append(h[:-16] + "0800000000010000")
    out.append(h[:-16] + "0800000000020000")
    out.append(h[:-16] + "2000000000000000")
    # two faults in one program, in both orders of place
    out.append("0002" + "0002" + h[8:44] + "00" + h[46:])
    out.append(one(0x01, b=1, last="2300000100000000"))
    out.append("1000" + "0000" + "ffff" * 9 + "2300000000000000" * 4096)
    out.append("1001" + "0000" + "ffff" * 9 + "2300000000000000" * 4097)
    return out


CODE_BAD = bad_codes()
ASM_BAD = [
    "", "\n", " ", "; nothing", "boot:", "boot:\n", "boot: hlt", "boot: halt\n?", "halt halt", "boot halt", "boot : halt", ":", ": halt", "boot:: halt", "1: halt", "boot: HALT", "boot: Halt",
    "boot: halt\nboot: halt", "a: halt\nb: halt\na: halt", "a: jmp b", "jmp a\na: hlt", "jmp a\n?a: halt", "a: jmp b\n?", "boot: mov r0, r1", "boot: mov r0, r1\n?", "boot: mov r0, r1\n", "halt\nmov r0, r1", "halt\nend:", "halt\nend:\n", "halt\nend: ; c",
    "const r0, 65535\nhalt", "const r0, 65536\nhalt", "const r0, 99999\nhalt", "const r0, 100000\nhalt", "const r0, 0\nhalt", "const r0, 00\nhalt", "const r0, 01\nhalt", "const r0, -1\nhalt", "const r0, +1\nhalt", "const r0, 0xffff\nhalt", "const r0, 0xFFFF\nhalt", "const r0, 0x0\nhalt", "const r0, 0x00000\nhalt", "const r0, 0x\nhalt", "const r0, 0X1\nhalt", "const r0, 0b1\nhalt", "const r0, 1_0\nhalt", "const r0, 1.0\nhalt", "const r0, 'a'\nhalt", "const r0, x\nhalt",
    "const r16, 1\nhalt", "const r15, 1\nhalt", "const R0, 1\nhalt", "const r00, 1\nhalt", "const r, 1\nhalt", "const 0, 1\nhalt", "const r0\nhalt", "const r0, 1, 2\nhalt", "const\nhalt", "const r0 1\nhalt", "const r0,, 1\nhalt", "const r0, 1,\nhalt", "const ,r0, 1\nhalt", "const, r0, 1\nhalt", "constr0, 1\nhalt", "const r0, r1\nhalt",
    "mov r0, 1\nhalt", "not r0\nhalt", "ld r0, 63\nhalt", "ld r0, 64\nhalt", "ld 0, r0\nhalt", "st 63, r0\nhalt", "st 64, r0\nhalt", "st r0, 0\nhalt", "ldx r0, r1, 0, 16\nhalt", "ldx r0, r1, 0, 17\nhalt", "ldx r0, r1, 0, 0\nhalt", "ldx r0, r1, 48, 16\nhalt", "ldx r0, r1, 49, 16\nhalt", "stx r0, r1, 63, 1\nhalt", "stx r0, r1, 64, 1\nhalt", "stx r0, r1, 63, 2\nhalt",
    "jmp 0", "jmp r0", "jmp r0\nr0: halt", "r0: halt", "jmp jmp\njmp: halt", "jmp halt", "halt: halt", "boot: jmp boot", "jmp recv\nhalt", "brz r0, a\na: halt", "brz r0, b\na: halt", "brz 0, a\na: halt", "brz a, a\na: halt", "brz r0, 0\nhalt", "brz r0\nhalt", "a: brz r0, a",
    "input r0, 1\nhalt", "input r0, 0\nhalt", "input r0, 16\nhalt", "input r0, 17\nhalt", "timer 0, 1\nhalt", "timer 7, 65535\nhalt", "timer 8, 1\nhalt", "timer 0, 0\nhalt", "timer r0, 1\nhalt", "cancel 7\nhalt", "cancel 8\nhalt", "cancel\nhalt",
    "send 0, r0, 0\nhalt", "send 65535, r8, 8\nhalt", "send 0, r9, 8\nhalt", "send 0, r0, 9\nhalt", "send r0, r0, 1\nhalt", "send 0, 0, 1\nhalt", "send 0, r15, 1\nhalt", "send 0, r15, 2\nhalt", "bcast r15, 0\nhalt", "bcast r15, 1\nhalt", "bcast r15, 2\nhalt", "bcast r0, 9\nhalt", "bcast 0, 1\nhalt", "recvw r0, 7\nhalt", "recvw r0, 8\nhalt", "recvw r0, r1\nhalt",
    "add r0, r1, r2\nhalt", "add r0, r1, 2\nhalt", "add r0, r1\nhalt", "slt r15, r15, r15\nhalt", "rlen r0\nhalt", "rlen 0\nhalt", "rfrom\nhalt", "assert r0, r1\nhalt", "node r0\nhalt", "now r0\nhalt", "now\nhalt", "ret r0", "halt 0", "ret ;x", "ret;x", "ret,", "ret 0x", "ret é", "réT", "é: halt", "halt ; é", "halt\r", "halt ;\r", "halt\r\nret", "ha\u00a0lt", "halt\u00a0", "halt\x0b", "\thalt\t", "halt\x00", "halt ; \x00", "\ufeffhalt",
    "x" * 32 + ": halt", "x" * 33 + ": halt", "x" * 33 + "\nhalt", "jmp " + "y" * 32 + "\n" + "y" * 32 + ": halt", "jmp " + "y" * 33 + "\nhalt", "x" * 32 + "\nhalt", "_: halt", "_9Z: halt", "9_: halt", "a.b: halt", "a-b: halt",
    "assume r0\nhalt", "nop\nhalt", "hlt\n?", "?\nhlt", "mov r0\nhlt", "hlt r0\nmov r0", "a: hlt\na: halt", "mov r0\na: halt\na: halt", "jmp b\na: halt\na: halt", "a: halt\na: jmp b", "a: halt\na: mov r0", "a: halt\na: hlt", "a: halt\na: jmp b\n", "jmp b\nmov r0", "mov r0, b\njmp b", "const r0, b\nhalt", "brz 1, b\nhalt", "jmp b, c",
    "ret\n" * 4096, "ret\n" * 4097, "ret\n" * 4096 + "mov r0, r1", "x:\n" + "ret\n" * 4095 + "mov r0, r0\nret", "nop\n" + "ret\n" * 4097, "jmp z\n" + "ret\n" * 4096 + "z: ret", "boot:\n" * 1 + "\n" * 3000 + "ret", "mov r0, r1\n" * 4096,
    "timer0: ret\ntimer7: ret\ntimer8: ret\nboot: recv: ret", "boot:\nrecv:\ntimer0:\ntimer1:\ntimer2:\ntimer3:\ntimer4:\ntimer5:\ntimer6:\ntimer7:\nhalt", "timer10: halt", "timer: halt", "Boot: halt", "recv: jmp timer3\ntimer3: ret",
    "boot: ret\n\n\n", "boot: ret\n   ", "boot:ret", "boot:\tret", "boot: \t ret \t ; c", "   ret", "ret\n\n?\n", "boot: ret\na", "boot: ret\na:b", "boot: ret\na: b: c: ret",
]


def instr_text(name, r):
    f = operand_values(ROWS[name][1], r)
    ops = [{"reg": lambda: f"r{f[x]}", "num": lambda: str(f[x]), "label": lambda: "boot"}[kind]() for kind, x in SHAPES[ROWS[name][1]]]
    return name + (" " + ", ".join(ops) if ops else "")


def mutated_asm(r):
    """A good text with a small change."""
    t = asm_text(make_program(r, False, 8), r)
    for _ in range(r.choice([1, 1, 1, 2])):
        i = r.randrange(len(t) + 1)
        x = r.random()
        if x < 0.3:
            t = t[:i] + t[i + 1:]
        elif x < 0.6:
            t = t[:i] + r.choice([",", ":", ";", " ", "\n", "r", "0", "1", "9", "x", "_", "\t", "a", "#", "\r", "é", "boot:", "r1", "ret"]) + t[i:]
        elif x < 0.8:
            lines = t.split("\n")
            j = r.randrange(len(lines))
            y = r.random()
            if y < 0.4:
                del lines[j]
            elif y < 0.7:
                lines.insert(j, r.choice(lines))
            else:
                k = r.randrange(len(lines))
                lines[j], lines[k] = lines[k], lines[j]
            t = "\n".join(lines)
        else:
            import re
            numbers = list(re.finditer(r"\b\d+\b", t))
            if numbers:
                n = r.choice(numbers)
                t = t[:n.start()] + r.choice(["0", "1", "7", "8", "15", "16", "17", "63", "64", "65535", "65536", "01", "r0", "boot"]) + t[n.end():]
    return t


def some(m, array, r, index=None):
    """A table of the array, made where there is none."""
    ts = m.arrays[array]
    if not isinstance(ts, list) or not ts:
        return None
    return ts[r.randrange(len(ts)) if index is None else min(index, len(ts) - 1)]


def numbers_near(low, high):
    return [low - 1, low, high, high + 1]


FAR = [-1, 0, 1, 2, 15, 16, 17, 63, 64, 65, 255, 4095, 4096, 4097, 16384, 16385, 65535, 65536, 1048576, 1048577, 2 ** 31, 2 ** 32, 2 ** 32 + 1, 2 ** 53, 2 ** 63 - 1, -2 ** 63, -2 ** 31]


def makers():
    """(name, function of (model, rng, index)) that make one fault each, or come near to one."""
    out = []

    def add(name, f):
        out.append((name, f))

    for k in ("version", "ticks", "program", "node"):
        if k in ("program", "node"):
            add(f"no {k}", lambda m, r, i, k=k: m.arrays.__setitem__(k, None))
        else:
            add(f"no {k}", lambda m, r, i, k=k: m.drop(k))
    for k in ("version",) + tuple(TOP_NUMBERS):
        add(f"wrong kind {k}", lambda m, r, i, k=k: m.set(k, ("raw", r.choice(WRONG_FOR_NUMBER))))
    for a in ("program", "node", "link", "input"):
        add(f"wrong kind {a}", lambda m, r, i, a=a: m.arrays.__setitem__(a, ("raw", r.choice(WRONG_FOR_TABLES))))
    add("version", lambda m, r, i: m.set("version", ("int", r.choice([0, 2, 3, -1, 2 ** 63 - 1]))))
    for k, (low, high) in TOP_NUMBERS.items():
        add(f"range {k}", lambda m, r, i, low=low, high=high, k=k: m.set(k, ("int", r.choice([low - 1, high + 1, -2 ** 63, 2 ** 63 - 1, 2 ** 32 + 1]))))
    add("states below nodes", lambda m, r, i: m.set("states", ("int", max(0, len(m.arrays["node"] or []) - 1)) if isinstance(m.arrays["node"], list) else ("int", 3)))
    for a in ("program", "node"):
        add(f"empty {a}", lambda m, r, i, a=a: m.arrays.__setitem__(a, []))
    for a, keys in checker.KEYS.items():
        def unknown(m, r, i, a=a):
            t = some(m, a, r, i)
            if t is not None:
                k = r.choice([x for x in UNKNOWN if x not in checker.KEYS[a]])
                put(t, k, ("raw", r.choice(["1", '"x"', "[]", "{}"])))
        add(f"unknown in {a}", unknown)

    def unknown_top(m, r, i):
        k = r.choice([x for x in UNKNOWN if x not in checker.TOP])
        m.top.insert(r.randrange(len(m.top) + 1), (k, ("raw", r.choice(["1", '"x"', "[]", "{}", "1.5"]))))
    add("unknown in top", unknown_top)
    for a, keys in checker.KEYS.items():
        for k in keys:
            def absent(m, r, i, a=a, k=k):
                t = some(m, a, r, i)
                if t is not None:
                    drop(t, k)
                    if k in ("code", "asm"):
                        drop(t, "code"), drop(t, "asm")
            if k not in ("loss", "duplicate", "reboot", "asm"):
                add(f"no {a}.{k}", absent)
    for a, k in TEXT_KEYS:
        def wrong_text(m, r, i, a=a, k=k):
            t = some(m, a, r, i)
            if t is not None:
                if k in ("code", "asm") and r.random() < 0.6:
                    drop(t, "code"), drop(t, "asm")
                put(t, k, ("raw", r.choice(WRONG_FOR_TEXT)))
        add(f"wrong kind {a}.{k}", wrong_text)
    for a, k in NUMBER_KEYS:
        def wrong_number(m, r, i, a=a, k=k):
            t = some(m, a, r, i)
            if t is not None:
                put(t, k, ("raw", r.choice(WRONG_FOR_NUMBER)))
        add(f"wrong kind {a}.{k}", wrong_number)

    def wrong_reboot(m, r, i):
        t = some(m, "node", r, i)
        if t is not None:
            put(t, "reboot", ("raw", r.choice(WRONG_FOR_INTS)))
    add("wrong kind node.reboot", wrong_reboot)

    def bad_name(m, r, i):
        t = some(m, "program", r, i)
        if t is not None:
            put(t, "name", ("text", r.choice(["", "a b", "é", "a.b", "n" * 33, "a\n", "a/b", " a", "a\t", "ＡＢ", "a\u0000"])))
    add("bad name", bad_name)

    def same_name(m, r, i):
        ts = m.arrays["program"]
        if isinstance(ts, list) and len(ts) > 1:
            j = i if i else r.randrange(1, len(ts))
            j = min(max(j, 1), len(ts) - 1)
            names = [v for k, v in ts[r.randrange(j)] if k == "name"]
            if names:
                put(ts[j], "name", names[0])
    add("name twice", same_name)

    def both(m, r, i):
        t = some(m, "program", r, i)
        if t is not None:
            keys = [k for k, _ in t]
            good = ("text", encode(*make_program(r, True)).hex())
            if "code" not in keys:
                t.insert(r.randrange(len(t) + 1), ("code", r.choice([good, ("text", "zz"), ("text", "")])))
            if "asm" not in keys:
                t.insert(r.randrange(len(t) + 1), ("asm", r.choice([("text", "boot: halt"), ("text", "?"), ("text", "")])))
    add("both", both)

    def bad_code(m, r, i):
        t = some(m, "program", r, i)
        if t is not None:
            drop(t, "code"), drop(t, "asm")
            t.append(("code", ("text", r.choice([c for c in CODE_BAD if len(c) < 300]))))
    add("code", bad_code)

    def bad_asm(m, r, i):
        t = some(m, "program", r, i)
        if t is not None:
            drop(t, "code"), drop(t, "asm")
            t.append(("asm", ("text", r.choice([c for c in ASM_BAD if len(c) < 300]))))
    add("asm", bad_asm)

    def no_program(m, r, i):
        t = some(m, "node", r, i)
        if t is not None:
            put(t, "program", ("text", r.choice(["q", "", "A ", "sink2", "SINK", "é", "zz" * 40])))
    add("node.program", no_program)

    def nodes_of(m):
        return len(m.arrays["node"]) if isinstance(m.arrays["node"], list) else 0

    for k in ("from", "to"):
        def no_node(m, r, i, k=k):
            t = some(m, "link", r, i)
            if t is not None:
                put(t, k, ("int", r.choice([-1, nodes_of(m), nodes_of(m) - 1, 64, 2 ** 32, 2 ** 63 - 1])))
        add(f"range link.{k}", no_node)

    def self_link(m, r, i):
        t = some(m, "link", r, i)
        if t is not None:
            put(t, "to", dict(t).get("from", ("int", 0)))
    add("link to itself", self_link)

    def many_links(m, r, i):
        ts = m.arrays["link"]
        n = nodes_of(m)
        if isinstance(ts, list) and n > 1:
            a = r.randrange(n)
            for _ in range(r.choice([15, 16, 17, 18])):
                b = r.choice([x for x in range(n) if x != a])
                ts.insert(r.randrange(len(ts) + 1), [("from", ("int", a)), ("to", ("int", b)), ("delay", ("int", 1))])
    add("many links of one node", many_links)

    def input_node(m, r, i):
        t = some(m, "input", r, i)
        if t is not None:
            put(t, "node", ("int", r.choice([-1, nodes_of(m), nodes_of(m) - 1, 64, 2 ** 63 - 1])))
    add("range input.node", input_node)
    for (a, k), (low, high) in RANGES.items():
        def outside(m, r, i, a=a, k=k, low=low, high=high):
            t = some(m, a, r, i)
            if t is not None:
                put(t, k, ("int", r.choice([low - 1, high + 1, -2 ** 63, 2 ** 63 - 1, 2 ** 16 + low, 2 ** 32 + low])))
        add(f"range {a}.{k}", outside)

    def bad_reboot(m, r, i):
        t = some(m, "node", r, i)
        if t is not None:
            put(t, "reboot", ("ints", r.choice([[2, 1], [1, 1], [-1], [4096], list(range(17)), [0, 4096], [-1, 0], [0, 2, 2], list(range(16)) + [4095], [5, 4, 3], [2 ** 63 - 1], [-2 ** 63, 0]])))
    add("reboot", bad_reboot)

    def not_rising(m, r, i):
        ts = m.arrays["input"]
        if isinstance(ts, list) and len(ts) > 1:
            j = r.randrange(len(ts))
            k = r.randrange(len(ts))
            if r.random() < 0.5:
                ts[j], ts[k] = ts[k], ts[j]
            else:
                ts.insert(j, copy.deepcopy(ts[k]))
    add("inputs not rising", not_rising)
    return out


# ---------------------------------------------------------------- broken and odd TOML
def broken(r):
    """Hand-made faults of TOML and odd forms that are good, over a small good file."""
    good = 'version = 1\nticks = 1\n[[program]]\nname = "p"\nasm = "boot: halt"\n[[node]]\nprogram = "p"\n'
    out = []
    pre = lambda s: out.append((s + good))
    post = lambda s: out.append((good + s))
    for s in ["x", "=", "x =", "= 1", "[", "[[", "[[x", "[x", "[x]]", "[[x]", "[]", "[[]]", "[ ]", "x = 1 y = 2", "x = 1, y = 2", 'x = "a', "x = 'a", 'x = """a', "x = '''a", 'x = "a\nb"', "x = 'a\nb'", 'x = "\\q"', 'x = "\\u12"', 'x = "\\ud800"', 'x = "\\U00110000"', "x = [1", "x = [1,,2]", "x = [,]", "x = [1 2]", "x = {", "x = {a = 1", "x = {a}", "x = {a = 1, a = 2}", "x = {,}", "x = 01", "x = 1_", "x = _1", "x = 1__0", "x = 0x", "x = 0xg", "x = 0b2", "x = 0o8", "x = +0x1", "x = 1.", "x = .1", "x = 1.e1", "x = 1e", "x = tru", "x = True", "x = TRUE", "x = 2021-13-01", "x = 2021-02-30", "x = 2021-2-3", "x = 25:00:00", "x = 1979-05-27T", "x = abc", "x.y = 1\nx = 2", "x = 1\nx.y = 2", "x = 1\nx = 1", "[x]\n[x]", "[x]\na = 1\n[x.a]", "x = []\n[[x]]", "[[x]]\n[x]", "[x]\n[[x]]", "x = {}\n[x.y]", "x = {}\nx.y = 1", "a b = 1", "a. = 1", ".a = 1", "a..b = 1", "é = 1", "x = 9223372036854775808", "x = -9223372036854775809", "x = 0x8000000000000000", "x = 0xffffffffffffffffff", "x = 99999999999999999999999", "x = 1e999", "x = -1e999", "x = \"\x01\"", "x = \"\x7f\"", "# \x01", "# \x7f", "# \x00", "x = '\x01'", "\x00", "\x0b", "\x0c", "\x1f", "\x7f", "\ufeff", "x = \u00a01", "x\u00a0= 1", "\r", "x = 1\ry = 2", "# a\rb", "x = 'a\rb'", "x = '''a\rb'''", "x = \"\"\"a\rb\"\"\"", "x = '''''''''", 'x = """"""""" ', "x = \"\"\"\"\"\"\"", "x = '''''''", "'''k''' = 1", '"""k""" = 1', "x = 1 # ok\ny = 'a' 'b'", "x =\n1", "x\n= 1", "[x\n]", "[[x]\n]", "[ [x]]", "[[x] ]", "x = [1, 2\n", "x = }", "x = ]", "]", "}", "x = {a = [}", "x = [{]"]:
        pre(s + "\n")
        post(s + "\n")
        post(s)
    # good forms, and unknown keys
    for s in ["", "\n", "   ", "\t\n", "# c", "# c\n", "#", "\r\n", "# é\r\n", "\n\n\n", "x = 9223372036854775807\n", "x = -9223372036854775808\n", "x = 0x7fffffffffffffff\n", "x = 1e308\n", "x = nan\n", "x = inf\n", "x = 1979-05-27\n", "x = 0000-01-01\n", "x = 9999-12-31T23:59:60Z\n", "x = 2000-02-29\n", "x = 1900-02-29\n", "x = \"\\u0041\"\n", "x = '''\r\n'''\n", "x = [1, 'a', 1.5, {}, []]\n", "x.y.z = 1\n", "[x.y.z]\n", "[[x.y]]\n", "[x]\n[x.y]\n[[x.z]]\n", "'' = 1\n", "\"\" = 1\n", "'x' = 1\n", "\"\\u0078\" = 1\n", "1 = 1\n", "1.2 = 3\n", "x = {}\n", "x = {a.b = 1, a.c = 2}\n", "x = 07:32:00.123456789012\n", "x = 1987-07-05 17:45:00\n", "x = 1987-07-05T17:45:00z\n", "x = 1987-07-05t17:45:00+23:59\n", "x = 1987-07-05T17:45:00+24:00\n", "x = -0\n", "x = +0.0\n", "x = 6.626e-34\n", "x = 1e06\n", "x = 1_000.000_1\n"]:
        pre(s)
        post(s)
    # TOML 1.1: what 1.0 refuses
    for s in ["x = {a = 1,}\n", "x = {\n a = 1\n}\n", "x = {a = 1, # c\n b = 2}\n", "x = \"\\e\"\n", "x = \"\\x41\"\n", "x = \"\\x4\"\n", "x = 07:32\n", "x = 1979-05-27T07:32Z\n", "x = 1979-05-27 07:32\n", "x = {a\n= 1}\n", "x = {a =\n1}\n", "x = {\n}\n", "x = {,}\n", "x = {a = 1,,}\n"]:
        pre(s)
        post(s)
        post("program = 1\n" + s)
    node = '[[node]]\nprogram = "p"\n'
    out.append(good.replace(node, "").replace("[[program]]", 'node = [{program = "p",}]\n[[program]]'))
    out.append(good.replace(node, "").replace("[[program]]", 'node = [{\n  program = "p" # one\n}, # two\n]\n[[program]]'))
    out.append(good.replace(node, "").replace("[[program]]", 'node = [{program\n= "p"}]\n[[program]]'))
    out.append(good.replace('"boot: halt"', '"boot:\\x20halt"'))
    out.append(good.replace('"boot: halt"', '"boot: halt ; \\e"'))
    # tables of tables
    for s in ["[program]\n", "[node]\n", "[program.x]\n", "[program.name]\n", "[node.x]\nloss = 1\n", "[node.program]\n", "[[node.x]]\n", "[[node.reboot]]\n", "[node.loss]\n", "[link]\n", "[link.x]\n", "[[link.x]]\n", "[[link]]\n[link.from]\n", "[input]\n", "[[input]]\n", "[[input]]\n[input.value]\nx = 1\n", "[version]\n", "[[version]]\n", "[ticks]\n", "[fuel]\n", "[[states]]\n", "[top]\n", "[[node]]\n", "[[program]]\n", "[[link]]\n", "[[program]]\n[program.asm]\n", "[[program]]\n[[program.code]]\n", "[node.loss.x]\n", "fuel.x = 1\n", "reboot.x = 1\n", "loss.y = 1\n", "program.x = 1\n", "[[node]]\nprogram.x = 1\n", "node.x = 1\n", "[node.a.b.c]\nd.e = 1\n", "[[node.a.b]]\n[[node.a.b]]\n"]:
        post(s)
    for s in ["program.name = 'p'\n", "link.x = 1\n", "link.from = 1\n", "input = {}\n", "fuel.x = 1\n", "states = {x = 1}\n", "dstates.a.b = 1\n", "link = [{}]\n", "link = [[]]\n", "input = [{}, {}]\n", "link = []\ninput = []\n", "version.x = 1\n", "node.x = 1\n"]:
        pre(s)
    # deep nesting, long keys, and both borders of 80
    for n in (1, 10, 78, 79, 80, 81, 82, 100, 500):
        pre("x = " + "[" * n + "]" * n + "\n")
        pre("x = " + "{a=" * n + "1" + "}" * n + "\n")
        pre("x = " + "[{a=" * (n // 2) + "1" + "}]" * (n // 2) + "\n")
        pre(".".join(["k"] * n) + " = 1\n")
        post("[" + ".".join(["k"] * n) + "]\n")
        post("[[" + ".".join(["k"] * n) + "]]\n")
        pre("ticks2 = " + "[" * n + "1" + "]" * n + "\n")
        post("reboot = " + "[" * n + "]" * n + "\n")
    pre("x = " + "[" * 3000 + "]" * 3000 + "\n")
    pre("x = " + "[" * 100000 + "\n")
    pre("x = '" + "a" * 100000 + "'\n")
    pre("x = " + "9" * 5000 + "\n")
    pre("x = 1." + "9" * 5000 + "\n")
    pre("a" * 5000 + " = 1\n")
    # dotted keys and headers that share tables
    post("[x.y]\n[x]\ny.z = 1\n")
    post("[x]\ny.z = 1\n[x.y]\n")
    post("[x]\ny.z = 1\n[x.y.w]\n")
    post("[[x]]\n[x.y]\n[[x]]\n[x.y]\n")
    post("[[x]]\n[[x.y]]\n[x.y.z]\n[[x.y]]\n")
    post("[x.y]\n[x]\n[x]\n")
    pre("x.y = 1\nx.z = 2\n[x.w]\n")
    pre("x.y = 1\n[x]\n")
    # line ends
    out.append(good.replace("\n", "\r\n"))
    out.append(good.replace("\n", "\r"))
    out.append(good.replace("ticks = 1\n", "ticks = 1\r"))
    out.append(good.replace("ticks = 1\n", "ticks = 1\r\r\n"))
    out.append(good.replace('"boot: halt"', "'''\nboot: halt\n'''").replace("\n", "\r\n"))
    out.append(good.replace('"boot: halt"', "'''\nboot: halt ;\n;'''").replace("\n", "\r\n"))
    out.append(good.replace('"boot: halt"', "'''\r\nboot: halt'''"))
    out.append(good.replace('"boot: halt"', "'''\nboot: halt\r\n'''"))
    out.append(good.replace('"boot: halt"', '"boot: halt\\r"'))
    out.append(good.replace('"boot: halt"', '"boot: halt ;\\r"'))
    out.append(good.replace('"boot: halt"', '"boot: halt\\n\\r"'))
    out.append(good.replace('"boot: halt"', '"""boot: \\\n  \n  halt"""'))
    out.append(good.replace('"boot: halt"', '"""boot: \\\r\n  \r\n  halt"""'))
    out.append(good.replace('"boot: halt"', '"""boot: \\  halt"""'))
    out.append(good.replace('"boot: halt"', '"""\nboot: halt ; ""quoted"" and \\""""'))
    out.append(good.replace('"boot: halt"', '"""boot: halt ; ""\"""'))
    out.append(good.replace('"boot: halt"', "'''boot: halt ; it''s'''"))
    out.append(good.replace('"boot: halt"', "'''boot: halt ;''''"))
    out.append(good.replace('"boot: halt"', "'''boot: halt ;'''''"))
    out.append(good.replace('"boot: halt"', "'''boot: halt ;''''''"))
    out.append(good.replace('"p"', "'p'").replace("name", '"name"'))
    out.append(good.replace('name = "p"', 'name = "\\u0070"'))
    out.append(good.replace('name = "p"', 'name = "\\U00000070"'))
    out.append(good.replace("version", '"versi\\u006fn"'))
    out.append("\ufeff" + good)
    out.append("\ufeff\ufeff" + good)
    out.append("\ufeff")
    out.append("\ufeff" + good.replace("\n", "\r\n"))
    out.append(good[:20] + "\ufeff" + good[20:])
    out.append(good.replace("version", "\ufeffversion"))
    out.append("\n" + "\ufeff" + good)
    out.append(good.rstrip("\n"))
    out.append(good + "\n\n\n")
    out = [(s.encode("utf-8", "surrogatepass") if isinstance(s, str) else s) for s in out]
    g = good.encode()
    for bad in (b"\xff", b"\x80", b"\xc3", b"\xc0\xaf", b"\xed\xa0\x80", b"\xf5\x80\x80\x80", b"\xf4\x90\x80\x80", b"\xe2\x82", b"\xc3\xa9", b"\xf0\x9f\x98\x80", b"\xfe\xff", b"\xef\xbb", b"\xef\xbb\xbf", b"\xe0\x80\x80", b"\xef\xbf\xbd"):
        out += [bad + g, g + bad, g + b"# " + bad, g + b"# " + bad + b"\n", g.replace(b"boot: halt", b"boot: halt ; " + bad), g.replace(b'name = "p"', b'name = "' + bad + b'"'), b"x = '" + bad + b"'\n" + g, bad]
    out.append("version = 1".encode("utf-16"))
    out.append("version = 1".encode("utf-16-le"))
    return out


def mutate_bytes(b, r):
    b = bytearray(b)
    for _ in range(r.choice([1, 1, 1, 2, 3])):
        if not b:
            break
        i = r.randrange(len(b))
        x = r.random()
        if x < 0.25:
            del b[i:i + r.choice([1, 1, 1, 2, 5])]
        elif x < 0.5:
            b[i:i] = r.choice([b"\n", b"\r", b"\r\n", b" ", b"[", b"]", b"=", b'"', b"'", b"#", b",", b"{", b"}", b".", b"0", b"1", b"9", b"-", b"+", b"_", b"\x00", b"\xff", b"\\", b"a", b"x", b":", b";", b"\t", b"[[node]]\n", b"e", b"\xc3\xa9"])
        elif x < 0.7:
            b[i] = r.randrange(256) if r.random() < 0.3 else r.choice(b"0123456789abcxyz_-\"'=[]{}#\n\r\t .,:;")
        elif x < 0.8:
            del b[i:]
        elif x < 0.95:
            lines = bytes(b).split(b"\n")
            j, k = r.randrange(len(lines)), r.randrange(len(lines))
            y = r.random()
            if y < 0.35:
                del lines[j]
            elif y < 0.7:
                lines.insert(j, lines[k])
            else:
                lines[j], lines[k] = lines[k], lines[j]
            b = bytearray(b"\n".join(lines))
        else:
            j = r.randrange(len(b))
            b[i:i] = b[j:j + r.choice([3, 10, 40])]
    return bytes(b)


# ---------------------------------------------------------------- all files
def all_files():
    r = rng
    ms = makers()
    by_name = dict(ms)

    def text(m, plain=False):
        return render(m, r, plain).encode("utf-8", "surrogatepass")

    def crlf(b):
        return b.replace(b"\n", b"\r\n")

    # valid ones
    for i in range(1500):
        b = text(base(r, running=r.random() < 0.35, rich=r.random() < 0.2))
        x = r.random()
        if x < 0.12:
            b = crlf(b)
        elif x < 0.17:
            b = b"\xef\xbb\xbf" + b
        yield "valid", b
    # one fault each, at several tables
    for name, f in ms:
        for i in (None, 0, 1, 2, 9):
            for _ in range(4):
                m = base(r, running=r.random() < 0.5, rich=True)
                f(m, r, i)
                yield name, text(m)
    # each wrong kind of each key, both in a plain file
    for k in ("version",) + tuple(TOP_NUMBERS):
        for w in WRONG_FOR_NUMBER:
            m = base(r, rich=True)
            m.set(k, ("raw", w))
            yield f"kind {k} {w}", text(m)
    for a in checker.KEYS:
        for w in WRONG_FOR_TABLES:
            m = base(r, rich=True)
            m.arrays[a] = ("raw", w)
            yield f"kind {a} {w}", text(m)
    for a, k in TEXT_KEYS + NUMBER_KEYS + [("node", "reboot")]:
        for w in WRONG_FOR_INTS if k == "reboot" else WRONG_FOR_TEXT if (a, k) in TEXT_KEYS else WRONG_FOR_NUMBER:
            m = base(r, rich=True)
            t = some(m, a, r)
            if k in ("code", "asm"):
                drop(t, "code"), drop(t, "asm")
            put(t, k, ("raw", w))
            yield f"kind {a}.{k} {w}", text(m)
    # ranges at their borders and far out
    for k, (low, high) in TOP_NUMBERS.items():
        for v in numbers_near(low, high) + FAR:
            m = base(r, rich=True, running=False)
            m.set(k, ("int", v))
            yield f"value {k} {v}", text(m)
    for v in FAR:
        m = base(r, rich=True, running=False)
        m.set("version", ("int", v))
        yield f"value version {v}", text(m)
    for a, k in NUMBER_KEYS:
        low, high = RANGES.get((a, k), (0, 4))
        for v in sorted(set(numbers_near(low, high) + FAR)):
            m = base(r, rich=True, running=False)
            put(some(m, a, r), k, ("int", v))
            yield f"value {a}.{k} {v}", text(m)
    for big in (2 ** 63, -2 ** 63 - 1, 2 ** 64, 10 ** 30):
        for a, k in NUMBER_KEYS:
            m = base(r, rich=True)
            put(some(m, a, r), k, ("raw", str(big)))
            yield f"value {a}.{k} {big}", text(m)
    # states against the number of nodes
    for n in (1, 2, 5, 63, 64, 65, 100):
        for s in (n - 1, n, n + 1, 64, None):
            m = base(r, running=False)
            name = dict(m.arrays["program"][0])["name"]
            m.arrays["node"] = [[("program", name)] for _ in range(n)]
            m.arrays["link"] = m.arrays["input"] = None
            m.drop("states")
            if s is not None:
                m.set("states", ("int", s))
            yield f"{n} nodes states {s}", text(m)
    for w in WRONG_FOR_TABLES:
        for s in (0, 1, 16384, 16385):
            m = base(r, rich=True)
            m.arrays["node"] = ("raw", w)
            m.set("states", ("int", s))
            yield f"node {w} states {s}", text(m)
    # numbers of programs, nodes, links
    for n in (1, 2, 63, 64, 65, 66, 200):
        m = base(r, running=False)
        m.arrays["program"] = [[("name", ("text", f"p{i}")), ("asm", ("text", "boot: halt"))] for i in range(n)]
        m.arrays["node"] = [[("program", ("text", f"p{n - 1}"))]]
        m.arrays["link"] = m.arrays["input"] = None
        yield f"{n} programs", text(m)
        for name in ("name twice", "no program.name", "unknown in program", "bad name", "code", "wrong kind program.asm"):
            m2 = copy.deepcopy(m)
            by_name[name](m2, r, n - 1)
            yield f"{n} programs, last: {name}", text(m2)
    for n, per in ((64, 16), (64, 17), (63, 16), (2, 16), (2, 17), (33, 16)):
        m = Model()
        m.top = [("version", ("int", 1)), ("ticks", ("int", 1))]
        m.arrays["program"] = [[("name", ("text", "p")), ("asm", ("text", "boot: halt"))]]
        m.arrays["node"] = [[("program", ("text", "p"))] for _ in range(n)]
        links = [(a, (a + 1 + j) % n if (a + 1 + j) % n != a else (a + 1) % n) for a in range(n) for j in range(per)]
        for shuffled in (False, True):
            if shuffled:
                r.shuffle(links)
            m.arrays["link"] = [[("from", ("int", a)), ("to", ("int", b)), ("delay", ("int", 1))] for a, b in links]
            yield f"{n} nodes, {per} links each", text(m)
            for extra in (1, 2):
                m2 = copy.deepcopy(m)
                for _ in range(extra):
                    m2.arrays["link"].append([("from", ("int", 0)), ("to", ("int", 1)), ("delay", ("int", 1))])
                yield f"{n} nodes, {per} links each and {extra}", text(m2)
    # the 17th link of one node, among links of others
    for _ in range(80):
        m = base(r, running=False, rich=True)
        n = len(m.arrays["node"])
        m.arrays["link"] = []
        counts = {a: r.choice([1, 3, 15, 16, 16, 17, 18]) for a in range(n)}
        for a, c in counts.items():
            m.arrays["link"] += [[("from", ("int", a)), ("to", ("int", r.choice([x for x in range(n) if x != a]))), ("delay", ("int", 1))] for _ in range(c)]
        r.shuffle(m.arrays["link"])
        yield f"links {counts}", text(m)
    # reboot lists
    for k in (0, 1, 15, 16, 17, 18):
        for _ in range(4):
            m = base(r, running=False, rich=True)
            put(some(m, "node", r), "reboot", ("ints", sorted(r.sample(range(4096), k))))
            yield f"reboot of {k}", text(m)
            m = base(r, running=False, rich=True)
            xs = [r.randrange(0, 4097) for _ in range(k)]
            put(some(m, "node", r), "reboot", ("ints", xs))
            yield f"reboot of {xs}", text(m)
    # inputs
    for _ in range(150):
        m = base(r, running=False, rich=True)
        n = len(m.arrays["node"])
        pairs = [(r.randrange(n), r.choice([0, 1, 2, 65535])) for _ in range(r.randrange(1, 7))]
        if r.random() < 0.5:
            pairs.sort()
        if r.random() < 0.3:
            pairs = sorted(set(pairs))
        m.arrays["input"] = [[("node", ("int", a)), ("index", ("int", b)), ("value", ("int", r.choice([0, 1, 65535])))] for a, b in pairs]
        yield f"inputs {pairs}", text(m)
    # bytecode and assembler
    for c in CODE_BAD:
        for position in (0, 1):
            m = base(r, running=False, rich=False)
            m.arrays["program"].insert(position, [("name", ("text", "coded")), ("code", ("text", c if len(c) > 1000 or r.random() < 0.7 else c.upper()))])
            yield f"code {c[:60]}", text(m)
    for c in ASM_BAD:
        for position in (0, 1):
            m = base(r, running=False, rich=False)
            m.arrays["program"].insert(position, [("name", ("text", "assembled")), ("asm", ("text", c))])
            yield f"asm {c[:60]!r}", text(m)
    for _ in range(900):
        m = base(r, running=False, rich=False)
        t = mutated_asm(r)
        m.arrays["program"].insert(r.randrange(len(m.arrays["program"]) + 1), [("name", ("text", "assembled")), ("asm", ("text", t))])
        yield "mutated asm", text(m)
    # two faults at once
    for a in range(len(ms)):
        for b in range(a, len(ms)):
            for _ in range(1):
                m = base(r, running=r.random() < 0.5, rich=True)
                i, j = r.choice([(0, 1), (1, 0), (0, 2), (2, 0), (1, 2), (None, None)])
                order = [(ms[a], i), (ms[b], j)]
                if r.random() < 0.5:
                    order.reverse()
                try:
                    for (name, f), at in order:
                        f(m, r, at)
                    yield f"{ms[a][0]} ({i}) and {ms[b][0]} ({j})", text(m)
                except TypeError:
                    pass
    for _ in range(500):
        m = base(r, running=r.random() < 0.5, rich=True)
        chosen = r.sample(ms, r.choice([3, 4]))
        try:
            for name, f in chosen:
                f(m, r, r.choice([0, 1, 2, None]))
            yield "several: " + ", ".join(n for n, _ in chosen), text(m)
        except TypeError:
            pass
    # one fault of one kind at two tables: the first place
    for name, f in ms:
        m = base(r, running=False, rich=True)
        try:
            f(m, r, 2)
            f(m, r, 1)
            yield f"twice {name}", text(m)
        except TypeError:
            pass
    # TOML
    for b in broken(r):
        yield "toml", b
    for _ in range(1900):
        m = base(r, running=r.random() < 0.4, rich=r.random() < 0.3)
        yield "mutated bytes", mutate_bytes(text(m, plain=r.random() < 0.5), r)
    # empty ones
    for b in (b"", b"\n", b" ", b"#", b"version = 1", b"version = 1\n", b"version = 1\nticks = 1\n", b"version = 1\nticks = 1\nprogram = []\nnode = []\n", b"version = 1\nticks = 1\nprogram = []\n", b"version = 1\nticks = 1\nnode = []\n", b"version = 2\nticks = 1\nprogram = []\nnode = []\n"):
        yield "nearly empty", b
    # length
    small = text(base(r, running=False), plain=True)
    for size in (1048575, 1048576, 1048577, 1048578, 2000000):
        yield f"{size} bytes, a comment", small + b"#" + b"x" * (size - len(small) - 1)
    yield "1048577 bytes of line feeds", small + b"\n" * (1048577 - len(small))
    yield "1048576 bytes of line feeds", small + b"\n" * (1048576 - len(small))
    yield "1048577 bytes, no TOML", b"?" * 1048577
    yield "1048576 bytes, no TOML", b"?" * 1048576
    yield "1048577 bytes, no UTF-8", b"\xff" * 1048577
    yield "1048576 bytes, no UTF-8", b"#" + b"\xff" * 1048575
    yield "1048577 bytes, faulty", b"version = 2\n" + b"\n" * (1048577 - 12)
    yield "1048576 bytes, faulty", b"version = 2\n" + b"\n" * (1048576 - 12)
    head = b'version = 1\nticks = 0\nprogram = [{name = "p", asm = "ret"}]\nnode = [{program = "p"}]\n'
    yield "65537 empty inputs", head + b"input = [" + b"{}," * 65537 + b"]\n"
    yield "20000 inputs", head + b"input = [" + b",".join(b"{node=0,index=%d,value=1}" % i for i in range(20000)) + b"]\n"
    yield "30000 inputs of value 0", head + b"input = [" + b",".join(b"{node=0,index=%d,value=0}" % i for i in range(30000)) + b"]\n"
    yield "30000 inputs, the last again", head + b"input = [" + b",".join(b"{node=0,index=%d,value=1}" % min(i, 29998) for i in range(30000)) + b"]\n"
    yield "20000 links", head.replace(b'[{program = "p"}]', b'[{program = "p"}, {program = "p"}]') + b"link = [" + b",".join(b"{from=0,to=1,delay=1}" for i in range(20000)) + b"]\n"
    yield "4000 nodes", head.replace(b'[{program = "p"}]', b"[" + b'{program="p"},' * 4000 + b"]")
    yield "4000 nodes, states 100", b"states = 100\n" + head.replace(b'[{program = "p"}]', b"[" + b'{program="p"},' * 4000 + b"]")
    yield "4000 nodes, the last of no program", head.replace(b'[{program = "p"}]', b"[" + b'{program="p"},' * 4000 + b'{program="q"}]')
    yield "30000 programs without keys", head.replace(b'[{name = "p", asm = "ret"}]', b"[" + b"{}," * 30000 + b"]")
    yield "10000 programs of one name", head.replace(b'[{name = "p", asm = "ret"}]', b"[" + b'{name="p",asm="ret"},' * 10000 + b"]")
    yield "30000 unknown keys", b"".join(b"k%d = 1\n" % i for i in range(30000)) + head


def main():
    for d in ("files", "printed"):
        os.makedirs(os.path.join(HERE, d), exist_ok=True)
        for f in os.listdir(os.path.join(HERE, d)):
            os.remove(os.path.join(HERE, d, f))
    import tomllib
    seen = set()
    n = 0
    counts = {}
    differences = []
    with open(os.path.join(HERE, "expected"), "w") as expected, open(os.path.join(HERE, "expected_program"), "w") as program, open(os.path.join(HERE, "notes"), "w") as notes, open(os.path.join(HERE, "causes"), "w") as causes:
        for note, data in all_files():
            if data in seen:
                continue
            seen.add(data)
            detail = []
            result = checker.check(data, detail)
            name = f"{n:05d}"
            with open(os.path.join(HERE, "files", name + ".toml"), "wb") as f:
                f.write(data)
            if result[0] == "OK":
                answer = "OK"
                net = result[1]
                text = checker.printed(net)
                with open(os.path.join(HERE, "printed", name + ".toml"), "w") as f:
                    f.write(text)
                again = checker.check(text.encode())
                if len(text) <= 1048576:
                    assert again[0] == "OK" and checker.printed(again[1]) == text, name
                shown = "OK" if checker.runs(net) else "F0 -"
            else:
                answer = shown = f"F{result[1]} {result[2]}"
                if result[1] == 8:
                    for place, cause, at in detail:
                        if place == result[2]:
                            causes.write(f"{name} {place} {cause} {at}\n")
            counts[answer.split()[0]] = counts.get(answer.split()[0], 0) + 1
            expected.write(f"{name} {answer}\n")
            program.write(f"{name} {shown}\n")
            notes.write(name + " " + note.encode("unicode_escape").decode() + "\n")
            # against Python's own reader of TOML 1.0
            if len(data) <= 1048576:
                try:
                    tomllib.loads(data.decode("utf-8"))
                    other = True
                except RecursionError:
                    other = None
                except ValueError:
                    other = False
                if other is not (answer != "F2 -"):
                    differences.append((name, other, note))
            n += 1
    print(n, "files", counts)
    with open(os.path.join(HERE, "tomllib_differences"), "w") as f:
        for d in differences:
            f.write(f"{d[0]} tomllib {'reads' if d[1] else 'gives up on' if d[1] is None else 'refuses'} it: {d[2]!r}\n")
    print(len(differences), "differ from tomllib in whether they are TOML")


if __name__ == "__main__":
    main()
