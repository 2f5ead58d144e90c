"""A reader of TOML 1.1, written from the grammar of TOML 1.1.0 with the two limits that the kit's crate `toml` states:
at most 80 parts in a key and 80 arrays and inline tables in one another, integers of 64 bits with a sign, finite floats but inf.
Line ends inside multi-line strings stay as they are (a carriage return before a line feed stays in the text).
Values: str, int, float, bool, Date, list, dict."""
import re

LIMIT = 80


class Refused(Exception):
    pass


class Date:
    def __init__(self, text):
        self.text = text

    def __repr__(self):
        return f"Date({self.text!r})"


WS = re.compile(rb"[ \t]*")
BLANK = re.compile(rb"(?:[ \t\n]|\r\n|#[\t\x20-\x7e\x80-\xff]*)*")
LINES = re.compile(rb"(?:[ \t\n]|\r\n)*")
BARE = re.compile(rb"[A-Za-z0-9_-]+")
WORD = re.compile(rb"[A-Za-z0-9_+.:-]*")
LINE_PLAIN = {0x22: re.compile(rb"[\t\x20\x21\x23-\x5b\x5d-\x7e\x80-\xff]*"), 0x27: re.compile(rb"[\t\x20-\x26\x28-\x7e\x80-\xff]*")}
MULTI_PLAIN = {0x22: re.compile(rb"(?:[\t\n\x20\x21\x23-\x5b\x5d-\x7e\x80-\xff]|\r\n)*"), 0x27: re.compile(rb"(?:[\t\n\x20-\x26\x28-\x7e\x80-\xff]|\r\n)*")}
SIMPLE = {b"b": "\b", b"e": "\x1b", b"f": "\f", b"n": "\n", b"r": "\r", b"t": "\t", b'"': '"', b"\\": "\\"}
HEXLEN = {b"x": 2, b"u": 4, b"U": 8}
DEC = re.compile(rb"(?:0|[1-9][0-9]*)\Z")
FLOAT = re.compile(rb"(?:0|[1-9][0-9]*)(?:\.[0-9]+)?(?:[eE][+-]?[0-9]+)?\Z")
DATE = re.compile(rb"(\d\d\d\d)-(\d\d)-(\d\d)(?:[Tt ](\d\d):(\d\d)(?::(\d\d)(?:\.\d+)?)?(?:[Zz]|([+-])(\d\d):(\d\d))?)?\Z", re.A)
TIME = re.compile(rb"(\d\d):(\d\d)(?::(\d\d)(?:\.\d+)?)?\Z", re.A)


class Node:
    """What a key holds: kind 'value' (data), 'table' (origin, keys), 'array' (done, keys of the last element)."""
    __slots__ = ("kind", "origin", "data", "keys")

    def __init__(self, kind, origin=None, data=None, keys=None):
        self.kind, self.origin, self.data, self.keys = kind, origin, data, keys


def close(keys):
    return {k: close_node(n) for k, n in keys.items()}


def close_node(n):
    if n.kind == "value":
        return n.data
    if n.kind == "table":
        return close(n.keys)
    return n.data + [close(n.keys)]


class Parser:
    def __init__(self, text):
        self.t = text
        self.i = 0

    def peek(self, n=1):
        return self.t[self.i:self.i + n]

    def skip(self, pattern):
        self.i = pattern.match(self.t, self.i).end()

    def take(self, byte):
        if self.peek() != byte:
            raise Refused(f"{byte!r} expected at {self.i}")
        self.i += 1

    # strings
    def string(self):
        d = self.t[self.i]
        if self.peek(3) == bytes([d]) * 3:
            self.i += 3
            if self.peek() == b"\n":
                self.i += 1
            elif self.peek(2) == b"\r\n":
                self.i += 2
            return self.body(d, True)
        return self.one_line()

    def one_line(self):
        d = self.t[self.i]
        self.i += 1
        return self.body(d, False)

    def body(self, d, multi):
        out = []
        plain = (MULTI_PLAIN if multi else LINE_PLAIN)[d]
        delim = bytes([d])
        while True:
            m = plain.match(self.t, self.i)
            out.append(m.group().decode("utf-8"))
            self.i = m.end()
            c = self.peek()
            if c == delim:
                if not multi:
                    self.i += 1
                    return "".join(out)
                n = 0
                while self.t[self.i + n:self.i + n + 1] == delim:
                    n += 1
                if n == 3:
                    self.i += 3
                    return "".join(out)
                if n >= 6:
                    raise Refused("too many delimiters")
                out.append(chr(d))
                self.i += 1
            elif c == b"\\" and d == 0x22:
                self.i += 1
                out.append(self.escape(multi))
            else:
                raise Refused(f"string at {self.i}")

    def escape(self, multi):
        if multi:
            j = WS.match(self.t, self.i).end()
            if self.t[j:j + 1] == b"\n" or self.t[j:j + 2] == b"\r\n":
                self.i = LINES.match(self.t, j).end()
                return ""
        c = self.peek()
        if c in HEXLEN:
            n = HEXLEN[c]
            digits = self.t[self.i + 1:self.i + 1 + n]
            if len(digits) != n or not re.fullmatch(rb"[0-9A-Fa-f]+", digits):
                raise Refused("escape")
            v = int(digits, 16)
            if v > 0x10FFFF or 0xD800 <= v < 0xE000:
                raise Refused("escape")
            self.i += 1 + n
            return chr(v)
        if c in SIMPLE:
            self.i += 1
            return SIMPLE[c]
        raise Refused("escape")

    # keys
    def key(self):
        parts = []
        while True:
            if len(parts) == LIMIT:
                raise Refused("key too deep")
            c = self.peek()
            if c in (b'"', b"'"):
                parts.append(self.one_line())
            else:
                m = BARE.match(self.t, self.i)
                if not m:
                    raise Refused(f"key at {self.i}")
                parts.append(m.group().decode())
                self.i = m.end()
            self.skip(WS)
            if self.peek() != b".":
                return parts
            self.i += 1
            self.skip(WS)

    def keyval(self, depth):
        key = self.key()
        self.take(b"=")
        self.skip(WS)
        return key, self.val(depth)

    # values
    def val(self, depth):
        c = self.peek()
        if depth and c == b"[":
            self.i += 1
            out = []
            while True:
                self.skip(BLANK)
                if self.peek() == b"]":
                    self.i += 1
                    return out
                out.append(self.val(depth - 1))
                self.after(b"]")
        if depth and c == b"{":
            self.i += 1
            keys = {}
            while True:
                self.skip(BLANK)
                if self.peek() == b"}":
                    self.i += 1
                    return close(keys)
                key, v = self.keyval(depth - 1)
                put(keys, key, v)
                self.after(b"}")
        if c in (b'"', b"'"):
            return self.string()
        return self.unquoted()

    def after(self, closing):
        self.skip(BLANK)
        if self.peek() == b",":
            self.i += 1
        elif self.peek() != closing:
            raise Refused(f"after element at {self.i}")

    def unquoted(self):
        m = WORD.match(self.t, self.i)
        end = m.end()
        if self.t[end:end + 1] == b" " and self.t[end + 1:end + 2].isdigit():
            end = WORD.match(self.t, end + 1).end()
        word = self.t[self.i:end]
        self.i = end
        return word_value(word)

    # documents
    def document(self):
        if self.t.startswith(b"\xef\xbb\xbf"):
            self.i = 3
        root = {}
        section = root
        while True:
            self.skip(BLANK)
            if self.i == len(self.t):
                return close(root)
            if self.peek(2) == b"[[":
                self.i += 2
                key = self.header()
                self.take(b"]")
                section = at_header(root, key, True)
            elif self.peek() == b"[":
                self.i += 1
                section = at_header(root, self.header(), False)
            else:
                key, v = self.keyval(LIMIT)
                put(section, key, v)
            self.skip(WS)
            if self.i != len(self.t) and self.peek() not in (b"#", b"\n", b"\r"):
                raise Refused(f"line goes on at {self.i}")

    def header(self):
        self.skip(WS)
        key = self.key()
        self.take(b"]")
        return key


def put(keys, path, v):
    for k in path[:-1]:
        n = keys.get(k)
        if n is None:
            n = keys[k] = Node("table", "dotted", None, {})
        elif n.kind == "table" and n.origin != "header":
            n.origin = "dotted"
        else:
            raise Refused(f"dotted key through {k}")
        keys = n.keys
    if path[-1] in keys:
        raise Refused(f"twice {path[-1]}")
    keys[path[-1]] = Node("value", data=v)


def at_header(root, path, array):
    keys = root
    for k in path[:-1]:
        n = keys.get(k)
        if n is None:
            n = keys[k] = Node("table", "implicit", None, {})
        elif n.kind == "value":
            raise Refused(f"header through {k}")
        keys = n.keys
    k = path[-1]
    n = keys.get(k)
    if n is None:
        n = keys[k] = Node("array", None, [], {}) if array else Node("table", "header", None, {})
    elif array and n.kind == "array":
        n.data.append(close(n.keys))
        n.keys = {}
    elif not array and n.kind == "table" and n.origin == "implicit":
        n.origin = "header"
    else:
        raise Refused(f"header {k} twice")
    return n.keys


def word_value(word):
    if word == b"true":
        return True
    if word == b"false":
        return False
    m = re.match(rb"[0-9]+[-:]", word)
    if m:
        return date(word)
    return number(word)


def date(word):
    m = TIME.match(word)
    if m and word[2:3] == b":":
        h, mi, s = m.groups()
        if int(h) < 24 and int(mi) < 60 and (s is None or int(s) < 61):
            return Date(word)
        raise Refused("time")
    m = DATE.match(word)
    if not m:
        raise Refused("date")
    y, mo, d, h, mi, s, sign, oh, om = m.groups()
    y, mo, d = int(y), int(mo), int(d)
    if not 1 <= mo <= 12:
        raise Refused("date")
    leap = y % 4 == 0 and (y % 100 != 0 or y % 400 == 0)
    days = [31, 29 if leap else 28, 31, 30, 31, 30, 31, 31, 30, 31, 30, 31][mo - 1]
    if not 1 <= d <= days:
        raise Refused("date")
    if h is not None and not (int(h) < 24 and int(mi) < 60 and (s is None or int(s) < 61)):
        raise Refused("time")
    if oh is not None and not (int(oh) < 24 and int(om) < 60):
        raise Refused("offset")
    return Date(word)


def number(word):
    hexa = word[:2] == b"0x"
    digits = b"0123456789abcdefABCDEF" if hexa else b"0123456789"
    for i, c in enumerate(word):
        if c == 0x5F and not (i > 0 and word[i - 1] in digits and i + 1 < len(word) and word[i + 1] in digits):
            raise Refused("underscore")
    w = word.replace(b"_", b"")
    for prefix, radix, form in ((b"0x", 16, rb"[0-9A-Fa-f]+\Z"), (b"0o", 8, rb"[0-7]+\Z"), (b"0b", 2, rb"[01]+\Z")):
        if w.startswith(prefix):
            if not re.match(form, w[2:]):
                raise Refused("number")
            v = int(w[2:], radix)
            if v >= 2 ** 63:
                raise Refused("integer too large")
            return v
    negative = w[:1] == b"-"
    if w[:1] in (b"-", b"+"):
        w = w[1:]
    if w == b"inf":
        return float("-inf") if negative else float("inf")
    if w == b"nan":
        return float("nan")
    if DEC.match(w):
        # the number of digits is tested first, since Python converts no text of more than 4,300
        if len(w) > 19:
            raise Refused("integer too large")
        v = -int(w) if negative else int(w)
        if not -2 ** 63 <= v < 2 ** 63:
            raise Refused("integer too large")
        return v
    if FLOAT.match(w):
        v = float(w)
        if v in (float("inf"), float("-inf")):
            raise Refused("float too large")
        return -v if negative else v
    raise Refused(f"word {word!r}")


def parse(data):
    """The table that the bytes write; Refused where they write none."""
    try:
        data.decode("utf-8")
    except UnicodeDecodeError:
        raise Refused("not UTF-8") from None
    return Parser(data).document()
