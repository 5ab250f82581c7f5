"""Reads the text of a trace, as docs/TRACE.md describes it, into orders with their replies."""
import re
from functools import lru_cache

U64, U32 = 1 << 64, 1 << 32
ERRORS = {
    1: "EPERM", 2: "ENOENT", 4: "EINTR", 9: "EBADF", 11: "EAGAIN", 12: "ENOMEM", 17: "EEXIST", 20: "ENOTDIR", 21: "EISDIR", 22: "EINVAL", 23: "ENFILE",
    27: "EFBIG", 28: "ENOSPC", 35: "EDEADLK", 36: "ENAMETOOLONG", 37: "ENOLCK", 38: "ENOSYS", 71: "EPROTO", 95: "EOPNOTSUPP",
}
NAME = re.compile(rb"(?:[0-9a-f]{2}){1,255}")


class BadLine(Exception):
    """This line, counted from 1, is no line of a trace."""

    def __init__(self, number):
        super().__init__(number)
        self.number = number


class Order:
    """An order and its replies. `at` is its place on the axis: orders count from 0, or from 1 in a trace with a head, which has place 0. `line` counts lines
    from 1. `body` has the fields of its kind."""

    __slots__ = "at", "line", "unique", "node", "op", "body", "replies"
    is_before = False

    def __init__(self, at, line, unique, node, op, body):
        self.at, self.line, self.unique, self.node, self.op, self.body, self.replies = at, line, unique, node, op, body, []


class OrderBefore(Order):
    """A SETLKW that waits since before the trace. Its `line` is that of the head which tells it."""

    __slots__ = ()
    is_before = True


class Reply:
    """`word` is the result's first word, and `values` are the numbers behind it."""

    __slots__ = "line", "unique", "word", "values"

    def __init__(self, line, unique, word, values):
        self.line, self.unique, self.word, self.values = line, unique, word, values

    def error(self):
        """The name of its error, or None."""
        return ERRORS[self.values[0]] if self.word == "err" else None


def number(below):
    """Reads a decimal number without a sign, or a zero in front."""
    most = len(str(below))

    @lru_cache(maxsize=1 << 14)
    def read(word):
        if not word.isdigit() or len(word) > most or (word[:1] == b"0" and word != b"0"):
            raise ValueError
        value = int(word)
        if value >= below:
            raise ValueError
        return value

    return read


def name(word):
    """Reads a name: its bytes in lower case hex, none of them zero, or `-` for the empty one."""
    if word == b"-":
        return b""
    if not NAME.fullmatch(word):
        raise ValueError
    found = bytes.fromhex(word.decode())
    if 0 in found:
        raise ValueError
    return found


def error(word):
    value = number(U32)(word)
    if value not in ERRORS:
        raise ValueError
    return value


u64, u32, flag = number(U64), number(U32), number(2)
ASKED = number(16), u64, u64, u32, u32, u32
LOCK = u64, u64, u64, u64, u32, u32, u32
ATTRIBUTES = u64, u32, u32, u32, u32
BODIES = {
    b"lookup": (name,), b"forget": (u64,), b"getattr": (), b"unlink": (name,), b"open": (), b"release": (u64, flag, u64), b"flush": (u64, u64),
    b"create": (flag, number(512), name), b"getlk": LOCK, b"setlk": LOCK, b"setlkw": LOCK, b"interrupt": (u64,),
    b"mknod": (u32, name), b"mkdir": (u32, name), b"rmdir": (name,),
}
RESULTS = {
    b"ok": (), b"entry": ATTRIBUTES, b"attr": ATTRIBUTES, b"open": (u64,), b"made": (*ATTRIBUTES, u64), b"lock": (u64, u64, u32, u32), b"err": (error,),
}
STATE = u64, flag, u32, u32, u32, u32, u64, u64
PARTS = {
    b"node": (u64, u64, flag, u32, u32, u32, name), b"file": (u64, u64), b"lock": (u64, u64, u64, u64, flag, u32, flag), b"wait": (u64, u64, *LOCK), b"go": (),
}


def fields(readers, words):
    if len(readers) != len(words):
        raise ValueError
    return [read(word) for read, word in zip(readers, words)]


def read_order(at, line, words):
    op = words[6]
    _, unique, node, *_ = fields(ASKED, words[:6])
    return Order(at, line, unique, node, op.decode(), fields(BODIES[op], words[7:]))


def read_reply(line, words):
    result = words[1]
    return Reply(line, u64(words[0]), result.decode(), fields(RESULTS[result], words[2:]))


class Head:
    """What is there before the first order. `nodes`, `files` and `locks` have the numbers and names of their lines, and `waits` are orders. `last` is the line
    that ends it, or None until that is read."""

    __slots__ = "before", "fair", "most", "nodes", "files", "locks", "waits", "last"

    def __init__(self, words):
        self.before, self.fair, *self.most, _, _ = fields(STATE, words)
        self.nodes, self.files, self.locks, self.waits, self.last = [], [], [], [], None

    def add(self, line, word, words):
        part = fields(PARTS[word], words)
        if word == b"go":
            self.last = line
        elif word == b"wait":
            unique, node, *body = part
            self.waits.append(OrderBefore(0, line, unique, node, "setlkw", body))
        else:
            {b"node": self.nodes, b"file": self.files, b"lock": self.locks}[word].append(part)

    def rules(self):
        """As options of `lockd`."""
        options = (f"{option} {most}" for option, most in zip(("--runs", "--parked", "--files", "--open"), self.most))
        return " ".join([*["--fair"] * self.fair, *options])


class Trace:
    """The head of a trace, or None; its orders; replies before the first order; whether a last line was cut off."""

    def __init__(self):
        self.head, self.orders, self.stray, self.lines, self.is_cut = None, [], [], 0, False

    def first(self):
        """The place of the first order."""
        return 1 if self.head else 0

    def places(self):
        """How many places the axis has."""
        return self.first() + len(self.orders)

    def is_in_head(self):
        return self.head is not None and self.head.last is None

    def add(self, line):
        self.lines += 1
        word, *words = line.split(b" ")
        try:
            if self.is_in_head():
                self.head.add(self.lines, word, words)
            elif word == b"state" and self.lines == 1:
                self.head = Head(words)
            elif word == b"ask":
                self.orders.append(read_order(self.first() + len(self.orders), self.lines, words))
            elif word == b"tell":
                reply = read_reply(self.lines, words)
                (self.orders[-1].replies if self.orders else self.stray).append(reply)
            else:
                raise ValueError
        except (ValueError, KeyError, IndexError):
            raise BadLine(self.lines) from None


def read_trace(text):
    """The trace in these bytes, up to its last whole line. Raises `BadLine`, also of the line that a head lacks at the end."""
    trace = Trace()
    *lines, rest = text.split(b"\n")
    trace.is_cut = bool(rest)
    for line in lines:
        trace.add(line)
    if trace.is_in_head():
        raise BadLine(trace.lines + 1)
    return trace
