#!/usr/bin/env python3
"""Explores a network by copying it at every branch, and prints the report.

    explore.py < FILE

Written from the rules in docs/FORMATS.md and docs/DEFINITIONS.md, and apart from the proved program. It is for networks with few
bits of input: conditions are decided by trying the words of the inputs. Refusals are not worked out.
"""

import sys

from networks import Event, Network, Node
from programs import Refused
from terms import Terms

FOUND, CLEAN, REFUSED, LIMIT, OPEN = 1, 0, 3, 7, 8

# Where a limit is passed, so many events are still run in that tick, to see whether the other one is passed too.
EVENTS_AFTER_A_LIMIT = 4000


class Answer:
    """What the program prints and its status. `others` are texts that may stand in place of this one."""

    def __init__(self, text, status, others=()):
        self.text = text
        self.status = status
        self.others = others


class Exploration:
    """The scenarios of a network, tick by tick, without those in which an own condition can't be met."""

    def __init__(self, network, work=None):
        self.network = network
        self.terms = Terms(work)
        self.numbers = range(len(network.programs))
        self.scenarios = [[Node(n, self.terms.word(0), network.failing[n]) for n in self.numbers]]
        self.passed = []
        self.events_left = None

    def is_possible(self, node):
        """Whether some inputs meet the node's own condition."""
        return self.terms.least(node.condition) is not None

    def passes(self, kind):
        """A limit is passed in this tick."""
        if kind not in self.passed:
            self.passed.append(kind)
        if self.events_left is None:
            self.events_left = EVENTS_AFTER_A_LIMIT

    def is_given_up(self):
        """Whether this tick need not be run to its end: both limits are passed, or one is and enough was run since."""
        return len(self.passed) == 2 or self.events_left == 0

    def run_node(self, scenario, n, tick):
        """The scenarios that come of one when node n runs until nothing is due at it."""
        waiting = [scenario]
        done = []
        while waiting and not self.is_given_up():
            scenario = waiting.pop()
            if not scenario[n].is_due(tick):
                done.append(scenario)
                continue
            if self.events_left is not None:
                self.events_left -= 1
            copies = []
            for node, sends in Event(self.network, self.terms, scenario[n], tick).paths(self.is_possible):
                copies.append(copied(scenario, node, sends))
                if len(copies) > self.network.states:
                    self.passes("states")
                if len(copies) > self.network.dstates:
                    self.passes("dstates")
                if self.is_given_up():
                    break
            waiting.extend(reversed(copies))
            if len(waiting) + len(done) > self.network.dstates:
                self.passes("dstates")
        return done

    def run_tick(self, tick):
        """Runs all events of a tick. Where a limit is passed, the scenarios are not all there."""
        for n in self.numbers:
            after = []
            for scenario in self.scenarios:
                after.extend(self.run_node(scenario, n, tick))
                if len(after) > self.network.dstates:
                    self.passes("dstates")
                if self.is_given_up():
                    return
            self.scenarios = after

    def close_tick(self):
        """Hands the packets of a tick over."""
        closed = []
        for scenario in self.scenarios:
            scenario = [node.copy() if node.fresh else node for node in scenario]
            for node in scenario:
                node.close(self.terms)
            if all(self.is_possible(node) for node in scenario):
                closed.append(scenario)
        self.scenarios = closed

    def answer(self):
        """Explores all ticks, and answers the report, or the limit that was passed."""
        for tick in range(self.network.ticks):
            self.run_tick(tick)
            if self.passed:
                texts = ["netsym: limit %s tick %d\n" % (kind, tick) for kind in ("states", "dstates")]
                first = texts[0] if self.passed[0] == "states" else texts[1]
                unsure = len(self.passed) == 1 and self.events_left == 0
                both = len(self.passed) == 2 or unsure
                return Answer(first, LIMIT, [text for text in texts if both and text != first])
            self.close_tick()
        self.scenarios.sort(key=name_of)
        return report(self.network, self.terms, self.scenarios)


def copied(scenario, after, sends):
    """A copy of a scenario in which one node has run an event."""
    scenario = list(scenario)
    scenario[after.number] = after
    for to in {packet.to for packet in sends}:
        scenario[to] = scenario[to].copy()
    for packet in sends:
        scenario[packet.to].post(packet)
    return scenario


def name_of(scenario):
    """The name of a scenario: the list of its nodes' traces."""
    return [node.trace for node in scenario]


def inputs_text(a):
    """The inputs of a valuation that are not 0."""
    return " ".join("%d.%d=%d" % (*name, word) for name, word in sorted(a.items()) if word) or "-"


def report(network, terms, scenarios, open_states=(), open_failures=()):
    """The report of scenarios that stand in order of their names, with its status. The states whose numbers stand in `open_states`
    are marked in place of their inputs, and so are failures."""
    width = len(network.programs)
    states, dstates, failures = [], [], []
    reached = 0
    for d, scenario in enumerate(scenarios):
        pick = " ".join(str(d * width + n) for n in range(width))
        dstates.append("dstate %d columns %s" % (d, pick))
        for n, node in enumerate(scenario):
            number = d * width + n
            standing = "open %d" % network.conflicts if number in open_states else "inputs " + inputs_text(terms.least(node.condition))
            states.append("state %d node %d trace %s outcome %s %s" % (number, n, node.trace or "-", node.outcome, standing))
            if "@" not in node.outcome:
                continue
            if number in open_failures:
                failures.append("failure %d open" % number)
                continue
            least = terms.least(joint(terms, scenario))
            if least is None:
                failures.append("failure %d nowhere" % number)
            else:
                reached += 1
                failures.append("failure %d reached dstate %d pick %s inputs %s" % (number, d, pick, inputs_text(least)))
    head = "report 1 mapping cob ticks %d nodes %d" % (network.ticks, width)
    left_open = len(open_states) + len(open_failures)
    end = "end states %d dstates %d reached %d open %d" % (len(states), len(dstates), reached, left_open)
    text = "\n".join([head] + states + dstates + failures + [end]) + "\n"
    return Answer(text, FOUND if reached else OPEN if left_open else CLEAN)


def joint(terms, scenario):
    """The own conditions of all nodes of a scenario, joined."""
    condition = ()
    for node in scenario:
        condition = terms.joined(condition, node.condition)
    return condition


def explore(text):
    """What the program answers on the text of an accepted network file."""
    network = Network(text)
    return Exploration(network).answer()


def main():
    """Explores the network on standard input."""
    try:
        answer = explore(sys.stdin.buffer.read().decode())
    except Refused as refused:
        print("explore.py: the file is refused:", refused, file=sys.stderr)
        return REFUSED
    sys.stdout.write(answer.text)
    return answer.status


if __name__ == "__main__":
    sys.exit(main())
