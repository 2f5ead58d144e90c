"""Programs for large.py: all 36 instructions, jumps to labels, and lines as a writer has them."""
from checker import ROWS, SHAPES, HANDLERS


def values(shape, r):
    f = {}
    if shape == "RegRegSpan":
        q = r.randrange(1, 17)
        return {"a": r.randrange(16), "b": r.randrange(16), "p": r.randrange(0, 65 - q), "q": q}
    if shape in ("LinkRegCount", "RegCount"):
        b = r.randrange(16)
        f = {"b": b, "a": r.randrange(0, min(8, 16 - b) + 1)}
        if shape == "LinkRegCount":
            f["p"] = r.randrange(16)
        return f
    for kind, field in SHAPES[shape]:
        if kind == "reg":
            f[field] = r.randrange(16)
    ranges = {"RegWord": ("p", 0, 65535), "RegMem": ("p", 0, 63), "MemReg": ("p", 0, 63), "RegWidth": ("p", 1, 16), "TimerDelay": ("p", 1, 65535), "RegIndex": ("p", 0, 7)}
    if shape in ranges:
        k, low, high = ranges[shape]
        f[k] = r.randrange(low, high + 1)
    if shape in ("TimerDelay", "TimerOnly"):
        f["a"] = r.randrange(8)
    return f


def make_program(r, n):
    instrs = []
    names = list(ROWS)
    for i in range(n):
        name = r.choice(names) if i < n - 1 else "ret"
        f = {"a": 0, "b": 0, "c": 0, "p": 0, "q": 0}
        f.update(values(ROWS[name][1], r))
        if ROWS[name][1] in ("Target", "RegTarget"):
            f["p"] = r.randrange(n)
        instrs.append((name, f))
    # boot is short, so that a run of the file ends at once
    instrs[0] = ("ret", {"a": 0, "b": 0, "c": 0, "p": 0, "q": 0})
    handlers = [0] + [r.randrange(n) for _ in range(9)]
    return instrs, handlers


def lines(p):
    instrs, handlers = p
    targets = {f[x] for name, f in instrs for kind, x in SHAPES[ROWS[name][1]] if kind == "label"}
    out = []
    for i, (name, f) in enumerate(instrs):
        labels = [HANDLERS[k] + ":" for k in range(10) if handlers[k] == i]
        if i in targets:
            labels.append(f"l{i}:")
        out += labels[:-1]
        ops = [{"reg": f"r{f[x]}", "num": str(f[x]), "label": f"l{f[x]}"}[kind] for kind, x in SHAPES[ROWS[name][1]]]
        out.append((labels[-1] + " " if labels else "  ") + name + (" " + ", ".join(ops) if ops else ""))
    return out
