"""Terms over inputs, and which inputs meet a condition.

A term is named by its number in a list. Entry by entry it is one of
    ("word", w)    ("input", node, index, width)    (operator, x, y)    ("choose", c, x, y), which is x where c is not 0
where x, y and c are numbers of earlier terms. Equal terms have one number. A literal is a pair of a term's number and a truth:
it holds where the term is not 0 exactly if the truth is true. A condition is a tuple of literals.

Which inputs meet a condition is found by trying words for the inputs that it reads, from the least on, in the order in which
valuations are compared: input by input, by node and index, each as a number. A literal is tried as soon as all its inputs have words.
"""

MASK = 65535


class TooLong(Exception):
    """More work was done than is allowed."""


def signed(x):
    """A word in two's complement."""
    return x - 65536 if x >= 32768 else x


OPERATIONS = {
    "add": lambda x, y: (x + y) & MASK,
    "sub": lambda x, y: (x - y) & MASK,
    "mul": lambda x, y: (x * y) & MASK,
    "and": lambda x, y: x & y,
    "or": lambda x, y: x | y,
    "xor": lambda x, y: x ^ y,
    "shl": lambda x, y: (x << y) & MASK if y < 16 else 0,
    "shr": lambda x, y: x >> y if y < 16 else 0,
    "sar": lambda x, y: (signed(x) >> min(y, 16)) & MASK,
    "udiv": lambda x, y: x // y if y else MASK,
    "urem": lambda x, y: x % y if y else x,
    "eq": lambda x, y: int(x == y),
    "ult": lambda x, y: int(x < y),
    "slt": lambda x, y: int(signed(x) < signed(y)),
}


class Terms:
    """A list of terms, and what was found out of conditions over them.
    `widest` is the greatest number of bits of input that a condition had so far that was asked for its least valuation.
    `work` is how many words may still be tried and instructions executed; None stands for any number."""

    def __init__(self, work=None):
        self.widest = 0
        self.work = work
        self.entries = []
        self.numbers = {}
        self.reads = []
        self.calls = {}
        self.known = {}

    def spend(self):
        """One more piece of work."""
        if self.work is not None:
            self.work -= 1
            if self.work < 0:
                raise TooLong

    def number_of(self, entry, reads):
        """The number of an entry, which is put into the list where it is not there."""
        if entry not in self.numbers:
            self.numbers[entry] = len(self.entries)
            self.entries.append(entry)
            self.reads.append(reads)
        return self.numbers[entry]

    def word(self, w):
        """The term of a word."""
        return self.number_of(("word", w), frozenset())

    def input(self, node, index, width):
        """The term of an input."""
        return self.number_of(("input", node, index, width), frozenset([(node, index, width)]))

    def as_word(self, x):
        """The word that a term is, or None where it is another term than a word."""
        entry = self.entries[x]
        return entry[1] if entry[0] == "word" else None

    def apply(self, operator, x, y):
        """The term of an operator on two terms; of two words it is a word."""
        a, b = self.as_word(x), self.as_word(y)
        if a is not None and b is not None:
            return self.word(OPERATIONS[operator](a, b))
        return self.number_of((operator, x, y), self.reads[x] | self.reads[y])

    def choose(self, c, x, y):
        """The term that is x where c is not 0, else y."""
        return self.number_of(("choose", c, x, y), self.reads[c] | self.reads[x] | self.reads[y])

    def call_of(self, x):
        """A function from a valuation to the term's word. A valuation is a dict from (node, index) to words."""
        if x not in self.calls:
            needed = set()
            waiting = [x]
            while waiting:
                y = waiting.pop()
                if y not in needed:
                    needed.add(y)
                    entry = self.entries[y]
                    if entry[0] not in ("word", "input"):
                        waiting.extend(entry[1:])
            lines = ["def call(a):"]
            for y in sorted(needed):
                entry = self.entries[y]
                if entry[0] == "word":
                    made = str(entry[1])
                elif entry[0] == "input":
                    made = "a[%d, %d] & %d" % (entry[1], entry[2], 2 ** entry[3] - 1)
                elif entry[0] == "choose":
                    made = "t%d if t%d else t%d" % (entry[2], entry[1], entry[3])
                else:
                    made = "OPERATIONS[%r](t%d, t%d)" % entry
                lines.append("    t%d = %s" % (y, made))
            lines.append("    return t%d" % x)
            names = {"OPERATIONS": OPERATIONS}
            exec("\n".join(lines), names)
            self.calls[x] = names["call"]
        return self.calls[x]

    def joined(self, condition, literals):
        """A condition with further literals. One that stands there already, or is on a word and holds, says nothing new."""
        for term, truth in literals:
            word = self.as_word(term)
            if (term, truth) not in condition and (word is None or (word != 0) != truth):
                condition += ((term, truth),)
        return condition

    def inputs_of(self, condition):
        """The inputs that a condition reads: a list of ((node, index), width) in order, with the greatest width of each."""
        widths = {}
        for term, _ in condition:
            for node, index, width in self.reads[term]:
                widths[node, index] = max(width, widths.get((node, index), 0))
        return sorted(widths.items())

    def least(self, condition):
        """The least valuation that meets a condition, as a dict with the words of all inputs that it reads; None where none does."""
        literals = frozenset(condition)
        if literals not in self.known:
            self.known[literals] = self.search(literals)
        return self.known[literals]

    def search(self, literals):
        """What `least` answers."""
        inputs = self.inputs_of(literals)
        places = {name: place for place, (name, _) in enumerate(inputs)}
        tests = [[] for _ in range(len(inputs) + 1)]
        for term, truth in literals:
            last = max((places[node, index] + 1 for node, index, _ in self.reads[term]), default=0)
            tests[last].append((self.call_of(term), truth))
        a = {}

        def passes(place):
            return all((call(a) != 0) == truth for call, truth in tests[place])

        self.widest = max(self.widest, sum(width for _, width in inputs))
        if not passes(0):
            return None
        place = 0
        nexts = [0] * (len(inputs) + 1)
        while place < len(inputs):
            if place < 0:
                return None
            name, width = inputs[place]
            if nexts[place] == 2 ** width:
                nexts[place] = 0
                place -= 1
                continue
            self.spend()
            a[name] = nexts[place]
            nexts[place] += 1
            if passes(place + 1):
                place += 1
        return a

    def bits(self, condition):
        """The sum of the widths of the inputs that a condition reads."""
        return sum(width for _, width in self.inputs_of(condition))

    def is_small(self, condition, budget):
        """Whether a condition has at most so many valuations as the budget."""
        return 2 ** self.bits(condition) <= budget

    def is_live(self, condition, budget):
        """Whether some inputs meet a condition, or it is not small."""
        return not self.is_small(condition, budget) or self.least(condition) is not None

    def is_far(self, condition, budget):
        """Whether a condition is not small, and so many valuations as the budget come before each that meets it."""
        if self.is_small(condition, budget):
            return False
        met = self.least(condition)
        if met is None:
            return True
        before = 0
        for name, width in self.inputs_of(condition):
            before = before * 2 ** width + met[name]
        return before >= budget
