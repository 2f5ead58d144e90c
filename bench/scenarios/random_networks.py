#!/usr/bin/env python3
"""Makes random networks, as texts of network files.

    random_networks.py N SEED FOLDER [--small-budget]     writes N files

The networks have 1 to 4 nodes, a few ticks, few bits of input, and programs of all instructions: inputs of 1 to 16 bits,
operators, memory with indices that are inputs or words, packets with and without words, timers, branches and assertions. Many have
little fuel and low limits. With --small-budget each file has a small number for `conflicts`.
"""

import os
import random
import sys

import programs

FEW_REGISTERS = 6
WORDS = [0, 0, 1, 1, 1, 2, 2, 3, 4, 5, 7, 8, 10, 15, 16, 17, 31, 100, 255, 256, 1000, 32767, 32768, 65534, 65535]


KINDS = ["input", "const", "operator", "unary", "branch", "compare", "assert", "memory", "span", "send", "packet", "timer", "self", "jump", "end"]
OF_ALL_KINDS = [8, 5, 22, 3, 7, 14, 5, 6, 7, 14, 8, 4, 2, 1, 0.5]
OF_FEW_KINDS = [8, 0, 22, 2, 6, 22, 6, 6, 8, 20, 4, 5, 1, 0, 0]


class Body:
    """The instructions of one handler, as they are made. Targets are places in this body, or a name of another one."""

    def __init__(self, chance, widths, links, of_packets, weights):
        """`widths` are those of the inputs that may still be made; what is made here is taken out of it."""
        self.chance = chance
        self.widths = widths
        self.links = links
        self.of_packets = of_packets
        self.weights = weights
        self.lines = []
        self.telling = set()
        self.places = set()

    def put(self, name, *operands):
        """One more instruction. Which registers hold what inputs make is followed roughly."""
        self.lines.append((name, *operands))
        shape = programs.SHAPES[name]
        computed = shape in ("RR", "RRR") and self.telling & set(operands[1:])
        if name in ("input", "recvw", "ldx") or computed or name == "ld" and operands[1] in self.places:
            self.telling.add(operands[0])
        elif name == "st" and operands[1] in self.telling:
            self.places.add(operands[0])
        elif name == "const":
            self.telling.discard(operands[0])

    def made(self):
        """A register to write, which mostly holds nothing that inputs make."""
        number = self.chance.randrange(FEW_REGISTERS) if self.chance.random() < 0.97 else self.chance.randrange(16)
        if number in self.telling and self.chance.random() < 0.6:
            number = self.chance.randrange(FEW_REGISTERS)
        return number

    def read(self):
        """A register to read, which mostly holds what inputs make."""
        if self.telling and self.chance.random() < 0.88:
            return self.chance.choice(sorted(self.telling))
        return self.chance.randrange(FEW_REGISTERS)

    def word(self):
        """A word that tells cases apart."""
        draw = self.chance.random()
        return self.chance.randrange(1, 7) if draw < 0.5 else self.chance.choice(WORDS) if draw < 0.9 else self.chance.randrange(65536)

    def target(self, back=0.12):
        """A place to jump to: later in this body, or now and then earlier in it, or another handler."""
        draw = self.chance.random()
        if draw < back / 2:
            return ("place", self.chance.randrange(len(self.lines) + 1))
        if draw < back + 0.04:
            return ("handler", None)
        return ("ahead", self.chance.randint(1, 6))

    def some_input(self):
        """An input, if one is left to be made."""
        if self.widths:
            self.put("input", self.made(), self.widths.pop())

    def compared(self):
        """A register that tells how another one compares with a word or a third."""
        made, other = self.made(), self.read()
        if self.chance.random() < 0.7:
            other = self.made()
            self.put("const", other, self.word())
        pair = [self.read(), other]
        self.chance.shuffle(pair)
        self.put(self.chance.choice(["eq", "ult", "slt", "ult", "sub", "and", "xor"]), made, *pair)
        return made

    def step(self):
        """One or a few instructions."""
        chance = self.chance
        kind = chance.choices(KINDS, self.weights)[0]
        if kind == "input":
            self.some_input()
        elif kind == "const":
            self.put("const", self.made(), self.word())
        elif kind == "operator":
            pair = [self.read(), self.read()]
            if chance.random() < 0.4:
                pair[1] = self.made()
                self.put("const", pair[1], self.word())
                if chance.random() < 0.25:
                    pair.reverse()
            self.put(chance.choice(programs.OPERATORS), self.made(), *pair)
        elif kind == "unary":
            self.put(chance.choice(["mov", "not"]), self.made(), self.read())
        elif kind == "branch":
            self.put("brz", self.read(), self.target())
        elif kind == "compare":
            self.put("brz", self.compared(), self.target(0.06))
        elif kind == "assert":
            if self.telling or chance.random() < 0.2:
                self.put("assert", self.compared() if chance.random() < 0.7 else self.read())
        elif kind == "memory":
            place = chance.randrange(6) if chance.random() < 0.9 else chance.randrange(64)
            if chance.random() < 0.5:
                self.put("ld", self.made(), place)
            else:
                self.put("st", place, self.read())
        elif kind == "span":
            self.span()
        elif kind == "send":
            count = chance.choice([0, 1, 1, 1, 1, 2, 3, 8])
            first = min(self.read(), 16 - count)
            if chance.random() < 0.3:
                self.put("bcast", first, count)
            else:
                link = chance.randrange(max(1, self.links)) if chance.random() < 0.92 else chance.choice([self.links, 7, 65535])
                self.put("send", link, first, count)
        elif kind == "packet" and (self.of_packets or chance.random() < 0.1):
            draw = chance.random()
            if draw < 0.75:
                self.put("recvw", self.made(), chance.choice([0, 0, 0, 1, 2, 7]))
            else:
                self.put("rlen" if draw < 0.88 else "rfrom", self.made())
        elif kind == "timer":
            if chance.random() < 0.8:
                self.put("timer", chance.choice([0, 0, 1, 7]), chance.choice([1, 1, 2, 3, 65535]))
            else:
                self.put("cancel", chance.choice([0, 0, 1, 7]))
        elif kind == "self":
            self.put(chance.choice(["node", "now"]), self.made())
        elif kind == "jump":
            self.put("jmp", self.target(0.2))
        elif kind == "end":
            self.put(chance.choice(["ret", "ret", "halt"]))

    def span(self):
        """A read or a write of memory at an index, which is mostly made small before."""
        index = self.read()
        if self.chance.random() < 0.75:
            spare, index = self.made(), self.made()
            self.put("const", spare, self.chance.choice([1, 3, 3, 7]))
            self.put("and", index, self.read(), spare)
        count = self.chance.randint(1, 8) if self.chance.random() < 0.9 else 16
        first = self.chance.choice([0, 0, 1, 2, 64 - count])
        if self.chance.random() < 0.5:
            self.put("ldx", self.made(), index, first, count)
        else:
            self.put("stx", self.read(), index, first, count)

    def fill(self, steps):
        """Makes the body."""
        for _ in range(steps):
            self.step()
        if self.chance.random() < 0.9:
            self.put("ret")
        else:
            self.put(self.chance.choice(["ret", "halt"]))


def bodies_of(chance, widths, links):
    """The handlers of a program: pairs of a name and a body."""
    weights = chance.choice([OF_ALL_KINDS, OF_FEW_KINDS, OF_FEW_KINDS])
    often = {"boot": 0.95, "recv": 0.8, "timer0": 0.5, "timer1": 0.2, "timer7": 0.15}
    names = [name for name in programs.HANDLERS if chance.random() < often.get(name, 0.01)] or ["boot"]
    bodies = []
    for name in names:
        own = [widths.pop() for _ in range(len(widths)) if chance.random() < 0.7] if name == "boot" else widths
        body = Body(chance, own, links, name == "recv", weights)
        if bodies and chance.random() < 0.7:
            body.telling |= bodies[0][1].telling
            body.places |= bodies[0][1].places
        begin(chance, body, name, "timer0" in names)
        body.fill(chance.choice([1, 3, 4, 5, 6, 8, 10, 12]))
        bodies.append((name, body))
    return bodies


def begin(chance, body, name, has_timer):
    """The first instructions of a handler: inputs or the word of a packet, and what often comes of them."""
    if name == "boot" or name != "recv" and chance.random() < 0.3:
        for _ in range(chance.choice([1, 1, 2, 2, 3]) if chance.random() < 0.9 else 0):
            body.some_input()
        if body.links and chance.random() < 0.5:
            body.put("bcast", body.read(), 1)
            body.put("brz", body.compared() if chance.random() < 0.5 else body.read(), ("ahead", chance.randint(1, 3)))
    elif name == "recv" and chance.random() < 0.9:
        body.put("recvw", body.made(), 0)
        if chance.random() < 0.3:
            body.put("assert", body.compared() if chance.random() < 0.5 else body.read())
    if name == "boot" and has_timer and chance.random() < 0.8:
        body.put("timer", 0, chance.choice([1, 1, 2, 3]))


def program_text(chance, widths, links):
    """The assembler text of a program."""
    labels = {}
    starts = []
    count = 0
    bodies = bodies_of(chance, widths, links)
    for name, body in bodies:
        labels[count] = name
        starts.append(count)
        count += len(body.lines)
    written = []
    for start, (_, body) in zip(starts, bodies):
        for place, (name, *operands) in enumerate(body.lines):
            if programs.SHAPES[name][-1:] == "L":
                operands[-1] = label_of(chance, labels, starts, start, len(body.lines), place, operands[-1])
            written.append((name, operands))
    lines = []
    for place, (name, operands) in enumerate(written):
        front = labels[place] + ": " if place in labels else "        "
        shown = [operand_text(chance, kind, value) for kind, value in zip(programs.SHAPES[name], operands)]
        line = front + name + " " * bool(shown) + ", ".join(shown)
        lines.append(line + (" ; a comment" if chance.random() < 0.03 else ""))
    return "\n".join(lines) + "\n"


def label_of(chance, labels, starts, start, length, place, target):
    """The label of a target. It is put among the labels, by the place of the instruction that it names, where it is not there.
    The jump stands at `place` of a body of this length that begins at `start`."""
    kind, number = target
    to = {"ahead": start + min(place + (number or 0), length - 1), "place": start + (number or 0), "handler": chance.choice(starts)}[kind]
    return labels.setdefault(to, "l%d" % to)


def operand_text(chance, kind, value):
    """An operand, as it may be written."""
    if kind == "R":
        return "r%d" % value
    if kind == "L":
        return value
    return "0x%x" % value if chance.random() < 0.05 else "%d" % value


def some_widths(chance, bits):
    """Widths of inputs which are `bits` in all."""
    widths = []
    while bits:
        width = min(bits, chance.choice([1, 1, 1, 2, 2, 3, 4, 5, 6, 8, 10, 12, 16]))
        widths.append(width)
        bits -= width
    chance.shuffle(widths)
    return widths


def failing_lines(chance):
    """How a node may fail: some losses, duplications and reboots, or none."""
    lines = []
    if chance.random() < 0.5:
        lines.append("loss = %d" % chance.choice([0, 1, 1, 1, 2, 3]))
    if chance.random() < 0.4:
        lines.append("duplicate = %d" % chance.choice([0, 1, 1, 2]))
    if chance.random() < 0.4:
        lines.append("reboot = %s" % sorted(chance.sample(range(5), chance.choice([0, 1, 1, 2]))))
    return lines


def network_text(chance, small_budget=False):
    """The text of a network file."""
    failing = chance.random() < 0.7
    nodes = chance.choice([1, 1, 2, 2, 2, 3, 3, 4])
    count = chance.randint(1, nodes)
    of_node = [chance.randrange(count) for _ in range(nodes)]
    links = []
    if nodes > 1:
        for _ in range(chance.choice([0, 1, 1, 2, 2, 3, 4, 6, 8])):
            links.append((*chance.sample(range(nodes), 2), chance.choice([1, 1, 1, 2, 3])))
        if chance.random() < 0.02:
            links += [(0, 1, 1)] * (16 - sum(link[0] == 0 for link in links))
    bits = chance.randint(4, 14)
    shares = [bits] if nodes == 1 else [0] * count
    if nodes > 1:
        for number in of_node:
            shares[number] = max(shares[number], chance.randint(1, bits) // chance.choice([1, nodes, nodes]))
    if chance.random() < 0.03:
        shares[0] = 16
    lines = ["version = 1", "ticks = %d" % (chance.choice([1, 2, 3, 3, 4, 4, 5, 7]) if chance.random() < 0.97 else 0)]
    if chance.random() < 0.3:
        lines.append("fuel = %d" % chance.choice([1, 3, 5, 8, 10, 12, 16, 20, 30, 50, 4096]))
    else:
        lines.append("fuel = 64")
    if small_budget:
        lines.append("conflicts = %d" % chance.choice([1, 1, 2, 3, 4, 5, 8, 10, 16, 30, 60, 64, 100, 256, 500]))
    elif chance.random() < 0.2:
        lines.append("conflicts = %d" % chance.choice([65536, 65537, 100000, 1048576]))
    if chance.random() < 0.2:
        lines.append("states = %d" % (nodes + chance.choice([0, 0, 1, 1, 2, 3, 4, 8, 16])))
    else:
        lines.append("states = 150")
    if chance.random() < 0.2:
        lines.append("dstates = %d" % chance.choice([1, 2, 2, 3, 4, 4, 6, 8, 12, 16, 24, 40]))
    else:
        lines.append("dstates = 300")
    for number in range(count):
        text = program_text(chance, some_widths(chance, max(1, shares[number])), max(sum(link[0] == n for link in links) for n in range(nodes)))
        lines += ["[[program]]", 'name = "p%d"' % number]
        if chance.random() < 0.8:
            lines += ["asm = '''", text + "'''"]
        else:
            lines.append('code = "%s"' % programs.encode(programs.assemble(text)).hex())
    for number in of_node:
        lines += ["[[node]]", 'program = "p%d"' % number]
        if failing:
            lines += failing_lines(chance)
    for sender, to, delay in links:
        lines += ["[[link]]", "from = %d" % sender, "to = %d" % to, "delay = %d" % delay]
    if chance.random() < 0.05:
        lines += ["[[input]]", "node = 0", "index = %d" % chance.randrange(3), "value = %d" % chance.randrange(4)]
    return "\n".join(lines) + "\n"


def main():
    """Writes the files."""
    words = [word for word in sys.argv[1:] if word != "--small-budget"]
    count, seed, folder = int(words[0]), int(words[1]), words[2]
    os.makedirs(folder, exist_ok=True)
    for number in range(count):
        text = network_text(random.Random("%d %d" % (seed, number)), "--small-budget" in sys.argv)
        with open(os.path.join(folder, "%d-%05d.toml" % (seed, number)), "w", encoding="utf-8") as file:
            file.write(text)


if __name__ == "__main__":
    main()
