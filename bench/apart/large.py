"""The largest networks that fit 1,048,576 bytes: large_code.toml and large_asm.toml, and what they hold.
large_code: as many programs of 4,096 instructions as `code` as fit, and one more with the instructions that the rest has room for.
large_asm: the same as assembler text, in lines with labels, operands and comments as a writer has them."""
import os
import random
import checker
from checker import ROWS, SHAPES, encode, HANDLERS
import gen_parts

HERE = os.path.dirname(os.path.abspath(__file__))
LIMIT = 1048576


def program(n, seed):
    r = random.Random(seed)
    return gen_parts.make_program(r, n)


def code_file():
    head = "version = 1\nticks = 1\n"
    tail = '\n[[node]]\nprogram = "p0"\n'
    out = [head]
    size = len(head) + len(tail)
    k = 0
    while True:
        name = f"p{k}"
        frame = f'\n[[program]]\nname = "{name}"\ncode = ""\n'
        room = LIMIT - size - len(frame)
        n = min(4096, (room - 44) // 16)
        if n < 1:
            break
        p = program(n, k)
        block = frame[:-2] + encode(*p).hex() + '"\n'
        out.append(block)
        size += len(block)
        k += 1
    # two nodes of each program would not fit; one node runs the first
    out.append(tail)
    text = "".join(out)
    return text + "#" * (LIMIT - len(text))


def asm_file():
    head = "version = 1\nticks = 1\n"
    tail = '\n[[node]]\nprogram = "p0"\n'
    out = [head]
    size = len(head) + len(tail)
    k = 0
    while k < 64:
        name = f"p{k}"
        frame = f"\n[[program]]\nname = \"{name}\"\nasm = '''\n'''\n"
        room = LIMIT - size - len(frame)
        p = program(4096, 100 + k)
        lines = gen_parts.lines(p)
        total = sum(len(x) + 1 for x in lines)
        if total > room:
            # a shorter program in the room that is left
            n = 4096
            while total > room and n > 1:
                n = max(1, min(n - 1, n * room // total))
                p = program(n, 100 + k)
                lines = gen_parts.lines(p)
                total = sum(len(x) + 1 for x in lines)
            if total > room:
                break
        block = frame.replace("'''\n'''", "'''\n" + "\n".join(lines) + "\n'''")
        out.append(block)
        size += len(block)
        k += 1
    out.append(tail)
    text = "".join(out)
    return text + "#" * (LIMIT - len(text))


for name, text in (("large_code.toml", code_file()), ("large_asm.toml", asm_file())):
    data = text.encode()
    open(os.path.join(HERE, name), "wb").write(data)
    detail = []
    kind, net = checker.check(data, detail)[:2]
    assert kind == "OK", (name, net, detail)
    lengths = [len(p[0]) for _, p in net.programs]
    print(name, len(data), "bytes,", len(lengths), "programs, instructions", sum(lengths), lengths[0], lengths[-1], "printed", len(checker.printed(net)), "runs", checker.runs(net))


def ret_file():
    """As many programs of 4,096 `ret` as fit: the most instructions that a file can hold."""
    out = ["version = 1\nticks = 1\n"]
    tail = '\n[[node]]\nprogram = "p0"\n'
    size = len(out[0]) + len(tail)
    k = 0
    while True:
        block = f"\n[[program]]\nname = \"p{k}\"\nasm = '''\n" + "ret\n" * 4096 + "'''\n"
        if size + len(block) > LIMIT:
            break
        out.append(block)
        size += len(block)
        k += 1
    out.append(tail)
    text = "".join(out)
    return text + "#" * (LIMIT - len(text))


def label_file():
    """One program of one instruction with as many labels as fit."""
    out = ["version = 1\nticks = 1\n\n[[node]]\nprogram = \"p\"\n\n[[program]]\nname = \"p\"\nasm = '''\n"]
    size = len(out[0]) + 40
    k = 0
    while size + 12 < LIMIT:
        line = f"a{k:x}:\n"
        out.append(line)
        size += len(line)
        k += 1
    out.append("boot: ret\n'''\n")
    text = "".join(out)
    return text + "#" * (LIMIT - len(text))


for name, text in (("large_ret.toml", ret_file()), ("large_labels.toml", label_file())):
    data = text.encode()
    open(os.path.join(HERE, name), "wb").write(data)
    kind, net = checker.check(data)[:2]
    assert kind == "OK", (name, net)
    print(name, len(data), "bytes,", len(net.programs), "programs, instructions", sum(len(p[0]) for _, p in net.programs), "runs", checker.runs(net))
