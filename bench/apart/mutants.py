"""How many of the files find a wrong reader: the checker with one line changed, against `expected`."""
import os
import sys
HERE = os.path.dirname(os.path.abspath(__file__))
src = open(os.path.join(HERE, "checker.py")).read()
MUTANTS = [
    ("the last fault instead of the first", "faults.append((number, len(faults), place))", "faults.append((number, -len(faults), place))"),
    ("the first fault, of whatever number", "number, _, place = min(faults)", "number, _, place = faults[0]"),
    ("a place one table off", 'place = f"link[{i}]"', 'place = f"link[{i + 1}]"'),
    ("the 17th link of all", "counts[a] = counts.get(a, 0) + 1", "counts[a] = len(net.links) + 1"),
    ("states below nodes accepted", ' or (k == "states" and v < nodes)', ""),
    ("states up to nodes refused", 'v < nodes)', "v <= nodes)"),
    ("two programs of one name accepted", " or name in names:", ":"),
    ("unknown key of a node passed over", 'if any(k not in KEYS["node"] for k in t):', "if False:"),
    ("an empty node array is missing", 'if k not in top:\n            if low > 0:', 'if k not in top or top[k] == []:\n            if low > 0:'),
    ("a bool is a number", "isinstance(v, int) and not isinstance(v, bool)", "isinstance(v, int)"),
    ("a whole float is a number", "isinstance(v, int) and not isinstance(v, bool)", "isinstance(v, int) and not isinstance(v, bool) or isinstance(v, float) and v == v and abs(v) < 1e9 and v == int(v)"),
    ("reboot may stay", "any(x >= y for", "any(x > y for"),
    ("inputs may stay", "(n, k) <= before", "(n, k) < before"),
    ("inputs rise by node alone", "(n, k) <= before", "n < before[0]"),
    ("17 reboots", "len(reboot) > 16", "len(reboot) > 17"),
    ("both accepted where the asm is good", 'if "code" in t and "asm" in t and good_code and is_text(t["asm"]):', "if False:"),
    ("a link to itself accepted", "if b is not None and a == b:", "if False:"),
    ("a missing asm is at asm", 'fault(4, place + ".code")', 'fault(4, place + ".asm")'),
    ("an element that is no table has a place of its own", 'fault(5, k)\n        elif not low <= len', 'fault(5, k + ("[0]" if isinstance(top[k], list) else ""))\n        elif not low <= len'),
    ("too many tables are not looked at", "all(isinstance(x, dict) for x in v) else []", "all(isinstance(x, dict) for x in v) and len(v) <= 64 else []"),
    ("1,048,576 bytes refused", "len(data) > 1048576", "len(data) >= 1048576"),
    ("upper case code refused", "[0-9A-Fa-f]{2})*\", t[\"code\"]", "[0-9a-f]{2})*\", t[\"code\"]"),
    ("a label on a faulty line is none", 'if label is not None:\n            if label in places', 'if label is not None and (instr is None or instr[0] in ROWS):\n            if label in places'),
    ("a carriage return is a blank", 'line[i] in " \\t"', 'line[i] in " \\t\\r"'),
    ("0X begins a number", 'r"0x[0-9A-Fa-f]{1,4}"', 'r"0[xX][0-9A-Fa-f]{1,4}"'),
    ("65536 is an operand out of range", 'text) and int(text) <= 65535', 'text)'),
    ("r16 is of no form", 'REGISTER.match(text):', 'REGISTER.match(text) or re.match(r"r\\d+\\Z", text) and 0:'),
    ("an unused field may be anything", "if any(f[x] != 0 for x in f if x not in used) or not in_range", "if not in_range"),
    ("the last instruction may be assert", 'ENDS = ("jmp", "ret", "halt")', 'ENDS = ("jmp", "ret", "halt", "assert")'),
    ("4,097 instructions", "if first[n] == 4096:", "if first[n] == 4097:"),
    ("an input of value 0 is kept", "        if v:\n            net.inputs", "        if v is not None:\n            net.inputs"),
    ("print leaves out defaults", 'out = ["version = 1"] + [f"{k} = {net.limits[k]}" for k in LIMITS]', 'out = ["version = 1"] + [f"{k} = {net.limits[k]}" for k in LIMITS if net.limits[k] != LIMITS[k][2]]'),
]
files = [(x.split()[0], x.rstrip("\n").split(" ", 1)[1]) for x in open(os.path.join(HERE, "expected"))]
sys.path.insert(0, HERE)
step = int(sys.argv[1]) if len(sys.argv) > 1 else 1
import toml11
cache = {}
plain = toml11.parse


def parse(data):
    """Each file is read once as TOML for all changed readers, since none of them changes that."""
    if data not in cache:
        try:
            cache[data] = plain(data)
        except toml11.Refused as e:
            cache[data] = e
    if isinstance(cache[data], toml11.Refused):
        raise cache[data]
    return cache[data]


toml11.parse = parse
data = {n: open(os.path.join(HERE, "files", n + ".toml"), "rb").read() for n, _ in files[::step]}
for what, old, new in MUTANTS:
    assert old in src, what
    space = {"__name__": "mutant"}
    exec(compile(src.replace(old, new), "mutant", "exec"), space)
    found = 0
    for n, want in files[::step]:
        if len(data[n]) > 200000 and step > 1:
            continue
        try:
            r = space["check"](data[n])
            got = "OK" if r[0] == "OK" else f"F{r[1]} {r[2]}"
            if got == want == "OK":
                if space["printed"](r[1]) != open(os.path.join(HERE, "printed", n + ".toml")).read():
                    got = "other print"
        except Exception as e:
            got = "crash " + type(e).__name__
        if got != want:
            found += 1
    print(f"{found:6d}  {what}", flush=True)
