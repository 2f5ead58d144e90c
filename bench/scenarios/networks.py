"""Networks, as they stand in a network file, and the running of their nodes over terms.

What is read here are files that are accepted; of any other one it is at most said that it is refused, and not why.
"""

import bisect
import tomllib
from collections import namedtuple

import programs
from programs import Refused

Link = namedtuple("Link", "sender to delay")
Failing = namedtuple("Failing", "losses duplications reboots")
Packet = namedtuple("Packet", "arrival sender number copy to payload guard")

MOST_MADE = 65535
DEFAULTS = {"fuel": 512, "conflicts": 65536, "states": 4096, "dstates": 4096}


class Network:
    """Limits, the program of each node, and the links of each node in order."""

    def __init__(self, text):
        """Reads the text of a network file."""
        try:
            table = tomllib.loads(text)
        except tomllib.TOMLDecodeError as fault:
            raise Refused(str(fault))
        self.ticks = table["ticks"]
        for key, value in DEFAULTS.items():
            setattr(self, key, table.get(key, value))
        by_name = {}
        for entry in table["program"]:
            if "asm" in entry:
                by_name[entry["name"]] = programs.assemble(entry["asm"])
            else:
                by_name[entry["name"]] = programs.decode(bytes.fromhex(entry["code"]))
        self.programs = [by_name[entry["program"]] for entry in table["node"]]
        self.failing = [Failing(entry.get("loss", 0), entry.get("duplicate", 0), tuple(entry.get("reboot", ()))) for entry in table["node"]]
        self.links = [[] for _ in self.programs]
        for entry in table.get("link", []):
            self.links[entry["from"]].append(Link(entry["from"], entry["to"], entry["delay"]))


class Node:
    """The state of a node. `fresh` are the packets that it was sent in this tick; they stand in its queue too."""

    def __init__(self, number, zero, failing):
        """The node of this number at its start; `zero` is the term of the word 0. `failing` says how it may fail."""
        self.losses, self.duplications, self.reboots = failing
        self.number = number
        self.registers = [zero] * 16
        self.memory = [zero] * 64
        self.timers = [None] * 8
        self.queue = []
        self.fresh = []
        self.inputs = 0
        self.sent = 0
        self.booted = False
        self.outcome = "running"
        self.trace = ""
        self.condition = ()

    def copy(self):
        """An equal node, which changes for itself."""
        other = Node.__new__(Node)
        other.__dict__.update(self.__dict__)
        for name in ("registers", "memory", "timers", "queue", "fresh"):
            setattr(other, name, list(getattr(self, name)))
        return other

    def is_due(self, tick):
        """Whether an event of the node is due in this tick."""
        if self.outcome != "running":
            return False
        if (tick == 0 and not self.booted) or tick in self.reboots or tick in self.timers:
            return True
        return any(packet.arrival == tick for packet in self.queue)

    def post(self, packet):
        """Sends the node a packet."""
        bisect.insort(self.queue, packet, key=key_of)
        self.fresh.append(packet)

    def close(self, terms):
        """Ends a tick: the guards of what was sent join the own condition."""
        for packet in sorted(self.fresh, key=key_of):
            self.condition = terms.joined(self.condition, packet.guard)
        self.fresh = []


def key_of(packet):
    """Packets stand in this order."""
    return packet.arrival, packet.sender, packet.number, packet.copy


class Way:
    """A way through an event: the node so far, the next instruction, how many were executed, and what was sent."""

    def __init__(self, node, place, executed, sends):
        self.node = node
        self.place = place
        self.executed = executed
        self.sends = sends

    def copy(self):
        """An equal way, which goes on for itself."""
        return Way(self.node.copy(), self.place, self.executed, list(self.sends))


def ended(way):
    """The way, which executes nothing."""
    way.place = None
    return way


class Event:
    """The first due event of a node in a tick, and the running of it."""

    def __init__(self, network, terms, node, tick):
        """Takes the event of the node; a node with none is no value of `node`."""
        self.network = network
        self.terms = terms
        self.tick = tick
        self.program = network.programs[node.number]
        self.packet = None
        self.reboots = False
        self.begin = node.copy()
        arriving = [packet for packet in node.queue if packet.arrival == tick]
        if tick == 0 and not node.booted:
            self.begin.booted = True
            self.entry = self.program.handlers[0]
        elif tick in node.reboots:
            self.reboots = True
            self.begin.reboots = tuple(other for other in node.reboots if other != tick)
            self.entry = self.program.handlers[0]
        elif arriving:
            self.packet = arriving[0]
            self.begin.queue.remove(self.packet)
            self.entry = self.program.handlers[1]
        else:
            timer = node.timers.index(tick)
            self.begin.timers[timer] = None
            self.entry = self.program.handlers[2 + timer]

    def paths(self, follows):
        """The ways through the event, bit 0 before bit 1: pairs of the node after it and the packets that were sent.
        After a decision a way goes on only if `follows` is true of the node."""
        waiting = list(reversed(self.beginnings(follows)))
        while waiting:
            way = waiting.pop()
            sides = None
            while sides is None:
                if way.place is None:
                    yield way.node, way.sends
                    sides = []
                elif way.executed == self.network.fuel:
                    self.fail(way, "fuel")
                else:
                    sides = self.step(way)
            waiting.extend(side for side in reversed(sides) if follows(side.node))

    def beginnings(self, follows):
        """The ways behind the failure choices of the event, in order."""
        way = Way(self.begin, self.entry, 0, [])
        if self.reboots:
            return [self.rebooted(side) if taken else ended(side) for taken, side in self.choose(way, follows)]
        if self.packet is None:
            return [way]
        ways = []
        for lost, side in self.choose(way, follows) if way.node.losses else [(False, way)]:
            if lost:
                side.node.losses -= 1
                ways.append(ended(side))
            else:
                ways.extend(self.arrivals(side, follows))
        return ways

    def arrivals(self, way, follows):
        """The ways on which the packet arrives, once or twice."""
        if self.packet.copy or not way.node.duplications:
            return [way]
        ways = []
        for doubled, side in self.choose(way, follows):
            if doubled:
                side.node.duplications -= 1
                bisect.insort(side.node.queue, self.packet._replace(copy=1, arrival=self.tick + 1), key=key_of)
            ways.append(side)
        return ways

    def rebooted(self, way):
        """The way where registers, memory and timers are as at the start; the handler is boot."""
        zero = self.terms.word(0)
        way.node.registers, way.node.memory, way.node.timers = [zero] * 16, [zero] * 64, [None] * 8
        return way

    def choose(self, way, follows):
        """The answers of a failure choice, no before yes, each with its way: it is yes where a fresh input of one bit is not 0.
        There is no choice where the node has made all its inputs."""
        if way.node.inputs == MOST_MADE:
            return [(False, way)]
        term = self.terms.input(way.node.number, way.node.inputs, 1)
        way.node.inputs += 1
        answers = []
        for taken, side in ((False, way.copy()), (True, way)):
            side.node.trace += "1" if taken else "0"
            side.node.condition = self.terms.joined(side.node.condition, [(term, taken)])
            if follows(side.node):
                answers.append((taken, side))
        return answers

    def fail(self, way, kind):
        """The way ends, and its node with it, at the instruction where it stands."""
        way.node.outcome = "%s@%d@%d" % (kind, way.place, self.tick)
        way.place = None

    def decide(self, way, term):
        """The two sides of a decision: bit 0 where the term is not 0, bit 1 where it is."""
        sides = [way, way.copy()]
        for bit, side in enumerate(sides):
            side.node.trace += str(bit)
            side.node.condition = self.terms.joined(side.node.condition, [(term, bit == 0)])
        return sides

    def send(self, way, links, first, count):
        """Sends `count` registers on each of the links, if the node may send so many packets."""
        node = way.node
        if node.sent + len(links) > MOST_MADE:
            self.fail(way, "fuel")
            return
        for link in links:
            payload = tuple(node.registers[first:first + count])
            way.sends.append(Packet(self.tick + link.delay, node.number, node.sent, 0, link.to, payload, node.condition))
            node.sent += 1

    def step(self, way):
        """Executes one instruction. Answers the sides of a decision, or None where there was none."""
        terms, node = self.terms, way.node
        registers, memory = node.registers, node.memory
        name, *operands = self.program.instructions[way.place]
        here = way.place
        way.executed += 1
        terms.spend()
        if name in ("brz", "assert"):
            term = registers[operands[0]]
            sides = self.decide(way, term)
            sides[0].place = here + 1
            if name == "brz":
                sides[1].place = operands[1]
            else:
                self.fail(sides[1], "assert")
            return sides
        if name in ("ldx", "stx"):
            a, b, first, span = operands
            index = registers[b]
            sides = self.decide(way, terms.apply("ult", index, terms.word(span)))
            self.fail(sides[1], "bounds")
            sides[0].place = here + 1
            self.access(sides[0].node, name, a, index, first, span)
            return sides
        if name == "input":
            if node.inputs == MOST_MADE:
                self.fail(way, "fuel")
                return None
            registers[operands[0]] = terms.input(node.number, node.inputs, operands[1])
            node.inputs += 1
        elif name in ("send", "bcast"):
            links = self.network.links[node.number]
            if name == "send":
                links = links[operands[0]:operands[0] + 1]
            self.send(way, links, operands[-2], operands[-1])
            if way.place is None:
                return None
        elif name == "jmp":
            way.place = operands[0]
            return None
        elif name in ("ret", "halt"):
            if name == "halt":
                node.outcome = "halted"
            way.place = None
            return None
        elif name == "const":
            registers[operands[0]] = terms.word(operands[1])
        elif name == "mov":
            registers[operands[0]] = registers[operands[1]]
        elif name == "not":
            registers[operands[0]] = terms.apply("xor", registers[operands[1]], terms.word(65535))
        elif name == "ld":
            registers[operands[0]] = memory[operands[1]]
        elif name == "st":
            memory[operands[0]] = registers[operands[1]]
        elif name == "timer":
            node.timers[operands[0]] = self.tick + operands[1]
        elif name == "cancel":
            node.timers[operands[0]] = None
        elif name == "recvw":
            payload = self.packet.payload if self.packet else ()
            registers[operands[0]] = payload[operands[1]] if operands[1] < len(payload) else terms.word(0)
        elif name == "rlen":
            registers[operands[0]] = terms.word(len(self.packet.payload) if self.packet else 0)
        elif name == "rfrom":
            registers[operands[0]] = terms.word(self.packet.sender if self.packet else 65535)
        elif name == "node":
            registers[operands[0]] = terms.word(node.number)
        elif name == "now":
            registers[operands[0]] = terms.word(self.tick)
        else:
            a, b, c = operands
            registers[a] = terms.apply(name, registers[b], registers[c])
        way.place = here + 1
        return None

    def access(self, node, name, a, index, first, span):
        """Reads or writes the word of memory at `first` and the index, which is below the span."""
        terms, registers, memory = self.terms, node.registers, node.memory
        known = terms.as_word(index)
        if known is not None:
            if known >= span:
                return
            if name == "ldx":
                registers[a] = memory[first + known]
            else:
                memory[first + known] = registers[a]
            return
        here = [terms.apply("eq", index, terms.word(k)) for k in range(span)]
        if name == "ldx":
            word = memory[first + span - 1]
            for k in reversed(range(span - 1)):
                word = terms.choose(here[k], memory[first + k], word)
            registers[a] = word
        else:
            for k in range(span):
                memory[first + k] = terms.choose(here[k], registers[a], memory[first + k])
