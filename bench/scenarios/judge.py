"""Judges what a program printed on a network by the definitions, where more than one answer is right.

More than one is right where a condition may be left undecided. It may be where it is far: it has more valuations than the file's
`conflicts`, and so many of them come before each that meets it. A scenario in which an own condition can't be met may then stand in
the report, with a mark; each other scenario has to be there. In the same way a limit may be passed by conditions that are not small.
"""

import re
from itertools import islice

from explore import LIMIT, Exploration, copied, joint, report
from networks import Event, Network, Node

STATE = re.compile(r"state \d+ node \d+ trace (-|[01]+) outcome \S+ (inputs|open) .*")
STOPPED = re.compile(r"netsym: limit (states|dstates) tick (\d+)\n")


class Complaint(Exception):
    """Why an answer is wrong."""


class Judge:
    """One network, and what was found out of it. `work` bounds what is done; where it does not suffice, TooLong is raised."""

    def __init__(self, text, work):
        self.network = Network(text)
        self.exploration = Exploration(self.network, work)
        self.terms = self.exploration.terms
        self.answer = self.exploration.answer()
        self.width = len(self.network.programs)

    def is_exact(self):
        """Whether all conditions that were asked are small, so that there is one right answer."""
        return 2 ** self.terms.widest <= self.network.conflicts

    def judge(self, text, status):
        """Raises a complaint where the text or the status is wrong."""
        stopped = STOPPED.fullmatch(text)
        if stopped:
            self.judge_limit(text, status, stopped[1], int(stopped[2]))
        else:
            self.judge_report(text, status)

    def judge_report(self, text, status):
        """The same for a text that should be a report."""
        if self.answer.status == LIMIT:
            raise Complaint("a limit is passed: " + self.answer.text)
        states = [STATE.fullmatch(line) for line in text.split("\n") if line.startswith("state ")]
        if None in states or len(states) % self.width:
            raise Complaint("state lines without their form")
        traces = ["" if found[1] == "-" else found[1] for found in states]
        names = [traces[k:k + self.width] for k in range(0, len(traces), self.width)]
        if any(one >= other for one, other in zip(names, names[1:])):
            raise Complaint("the names do not rise")
        if len(names) > self.network.dstates:
            raise Complaint("more dstates than the limit")
        for scenario in self.exploration.scenarios:
            if [node.trace for node in scenario] not in names:
                raise Complaint("missing: %s" % [node.trace for node in scenario])
        scenarios = [self.followed(name) for name in names]
        open_states = {k for k, found in enumerate(states) if found[2] == "open"}
        open_failures = {int(number) for number in re.findall(r"^failure (\d+) open$", text, re.MULTILINE)}
        for d, scenario in enumerate(scenarios):
            for n, node in enumerate(scenario):
                number = d * self.width + n
                if number in open_states:
                    if not self.is_far(node.condition):
                        raise Complaint("state %d is open, and its condition is not far" % number)
                elif self.terms.least(node.condition) is None:
                    raise Complaint("state %d is not open, and no inputs meet its condition" % number)
                if number in open_failures and not self.is_far(joint(self.terms, scenario)):
                    raise Complaint("failure %d is open, and its query is not far" % number)
        expected = report(self.network, self.terms, scenarios, open_states, open_failures)
        if text != expected.text:
            raise Complaint("with these marks the report is\n" + expected.text)
        if status != expected.status:
            raise Complaint("with these marks the status is %d" % expected.status)

    def is_far(self, condition):
        """Whether a condition may be left undecided."""
        return self.terms.is_far(condition, self.network.conflicts)

    def is_live(self, node):
        """Whether a node may be kept."""
        return self.terms.is_live(node.condition, self.network.conflicts)

    def followed(self, name):
        """The scenario of this name, at the last tick."""
        scenario = [Node(n, self.terms.word(0), self.network.failing[n]) for n in range(self.width)]
        for tick in range(self.network.ticks):
            for n, wanted in enumerate(name):
                while scenario[n].is_due(tick):
                    event = Event(self.network, self.terms, scenario[n], tick)
                    ways = list(event.paths(lambda node: wanted.startswith(node.trace)))
                    if not ways:
                        raise Complaint("there is no scenario %s" % name)
                    scenario = copied(scenario, *ways[0])
            scenario = self.closed(scenario)
        if [node.trace for node in scenario] != name:
            raise Complaint("there is no scenario %s" % name)
        return scenario

    def closed(self, scenario):
        """A scenario when its tick has ended."""
        scenario = [node.copy() for node in scenario]
        for node in scenario:
            node.close(self.terms)
        return scenario

    def judge_limit(self, text, status, kind, tick):
        """Raises a complaint where a limit may not be named."""
        if status != LIMIT:
            raise Complaint("a limit with status %d" % status)
        if self.answer.status == LIMIT:
            at = int(STOPPED.fullmatch(self.answer.text)[2])
            if tick > at:
                raise Complaint("a limit is passed earlier: " + self.answer.text)
            if text == self.answer.text or text in self.answer.others:
                return
        if tick >= self.network.ticks or not self.may_pass(kind, tick):
            raise Complaint("this limit is not passed in this tick")

    def may_pass(self, kind, tick):
        """Whether live conditions pass the limit in the tick."""
        limit = self.network.states if kind == "states" else self.network.dstates
        waiting = [(0, 0, [Node(n, self.terms.word(0), self.network.failing[n]) for n in range(self.width)])]
        ends = 0
        while waiting:
            at, n, scenario = waiting.pop()
            if n == self.width:
                if at == tick:
                    ends += 1
                    if kind == "dstates" and ends > limit:
                        return True
                    continue
                scenario = self.closed(scenario)
                if all(self.is_live(node) for node in scenario):
                    waiting.append((at + 1, 0, scenario))
            elif not scenario[n].is_due(at):
                waiting.append((at, n + 1, scenario))
            else:
                ways = list(islice(Event(self.network, self.terms, scenario[n], at).paths(self.is_live), limit + 1))
                if kind == "states" and at == tick and len(ways) > limit:
                    return True
                waiting.extend((at, n, copied(scenario, *way)) for way in reversed(ways))
        return False
