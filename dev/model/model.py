"""An independent model of the replies to scripts, written only from docs/SCRIPTS.md and the sentences of dev/definitions, not from the code.

reply_text(script_bytes) -> (reply_bytes, status); the status is 0 if the script was played, and 2 if a line is bad.
"""
import re
from collections import Counter

import adapting

U16 = 2**16 - 1
U32 = 2**32 - 1
U64 = 2**64 - 1

SEEN = Counter()          # events of a run, for the fuzzer's report
BIGGEST_TABLE = 2**22     # words; a longer table takes too much memory: Skip


class Skip(Exception):
    """The script needs a table that is too long for the model."""


class Bad(Exception):
    """The line is bad."""


# ---------------------------------------------------------------- grammar

NUMBER = re.compile(rb"(?:0|[1-9][0-9]*)\Z")
TEXT = re.compile(rb"[A-Za-z0-9-]{1,64}\Z")


def number(word, most):
    if len(word) > 20 or not NUMBER.match(word):
        raise Bad()
    n = int(word)
    if n > most:
        raise Bad()
    return n


def text(word):
    if not TEXT.match(word):
        raise Bad()
    return word.decode()


def duration(word):
    """Returns a duration in nanoseconds."""
    if word.endswith(b"ns"):
        return number(word[:-2], U64)
    if word.endswith(b"s"):
        return number(word[:-1], U64) * 10**9
    raise Bad()


class Options:
    def __init__(self):
        self.max = None
        self.live = None
        self.idle = None
        self.weighed = False
        self.adaptive = False
        self.tickets = 0


def first_line(line):
    words = line.split(b" ")
    mode = words[0]
    if mode == b"sketch":
        if len(words) != 2:
            raise Bad()
        return "sketch", number(words[1], U32)
    if mode not in (b"unsync", b"core", b"recorded", b"sync"):
        raise Bad()
    o = Options()
    rest = words[1:]

    def take(name):
        if rest and rest[0] == name:
            rest.pop(0)
            return True
        return False

    def argument():
        if not rest:
            raise Bad()
        return rest.pop(0)

    if take(b"max"):
        o.max = number(argument(), U64)
    if take(b"live"):
        o.live = duration(argument())
    if take(b"idle"):
        o.idle = duration(argument())
    if take(b"weighed"):
        o.weighed = True
    if mode == b"unsync" and take(b"adaptive"):
        o.adaptive = True
    if mode in (b"core", b"recorded") and take(b"tickets"):
        o.tickets = number(argument(), U64)
    if rest:
        raise Bad()
    return mode.decode(), o


U64_, U32_, U16_, TEXT_, DEPTH_ = (
    lambda w: number(w, U64), lambda w: number(w, U32), lambda w: number(w, U16), text, lambda w: number(w, 3))

LINES = {
    "unsync": {
        b"insert": (U64_, TEXT_), b"modify": (U64_, TEXT_), b"get": (U64_,), b"has": (U64_,), b"invalidate": (U64_,), b"remove": (U64_,), b"clear": (),
        b"expire": (), b"drop-if": (TEXT_,), b"iter": (), b"count": (), b"weight": (), b"policy": ()},
    "recorded": {
        b"insert": (U64_, TEXT_), b"get": (U64_,), b"has": (U64_,), b"invalidate": (U64_,), b"remove": (U64_,), b"clear": (),
        b"sync": (), b"count": (), b"weight": ()},
    "sync": {
        b"insert": (U64_, TEXT_), b"get": (U64_,), b"has": (U64_,), b"invalidate": (U64_,), b"remove": (U64_,), b"clear": (),
        b"sync": (), b"iter": (), b"count": (), b"weight": (), b"policy": ()},
    "core": {
        b"insert": (U32_, U64_, TEXT_), b"get": (U32_, U64_), b"has": (U64_,), b"invalidate": (U32_, U64_),
        b"remove": (U32_, U64_),
        b"clear": (), b"push": (U32_,), b"forget": (U32_,), b"begin": (), b"turn": (), b"rest": (), b"sync": (),
        b"iter": (), b"count": (), b"weight": ()},
    "sketch": {
        b"inc": (U64_, U16_), b"freq": (U64_,), b"index": (U64_, DEPTH_), b"len": (), b"ensure": (U32_,)},
}


def call_line(mode, options, line):
    words = line.split(b" ")
    now = 0
    if mode != "sketch":
        if len(words) < 2:
            raise Bad()
        now = number(words[0], U64)
        words = words[1:]
    name = words[0]
    if name not in LINES[mode]:
        raise Bad()
    forms = LINES[mode][name]
    stores = name in (b"insert", b"modify")
    if stores and options.weighed:
        forms = forms + (U32_,)
    own = None
    if name == b"insert" and mode == "unsync" and len(words) - 1 == len(forms) + 2 and words[-2] == b"live":
        own = duration(words[-1])
        words = words[:-2]
    if len(words) - 1 != len(forms):
        raise Bad()
    args = [form(word) for form, word in zip(forms, words[1:])]
    if stores and not options.weighed:
        args.append(1)
    if name == b"insert" and mode == "unsync":
        args.append(own)
    return now, name.decode(), args


def parse(data):
    """Returns (None, mode, options, calls), or (number of the first bad line, None, None, None)."""
    if data == b"":
        return 1, None, None, None
    pieces = data.split(b"\n")
    whole = pieces[:-1]          # lines that end in a line feed
    tail = pieces[-1]            # text after the last line feed
    mode = options = None
    calls = []
    for i, line in enumerate(whole):
        try:
            if i == 0:
                mode, options = first_line(line)
            else:
                calls.append(call_line(mode, options, line))
        except Bad:
            return i + 1, None, None, None
    if tail != b"":
        return len(whole) + 1, None, None, None
    return None, mode, options, calls


# ---------------------------------------------------------------- sketch

SEED = [0xc3a5c85c97cb3127, 0xb492b66fbe98f273, 0x9ae16a3b2f90404f, 0xcbf29ce484222325]


def place_of(n, h, i):
    x = ((h + SEED[i]) * SEED[i]) & U64
    y = (x + (x >> 32)) & U64
    return y & (n - 1)


class Table:
    def __init__(self):
        self.n = 0               # number of words, 0 if the sketch is off
        self.sample = 0
        self.size = 0
        self.c = {}              # (place, counter) -> count, 0 if absent

    def cells(self, h):
        return [(place_of(self.n, h, i), 4 * (h % 4) + i) for i in range(4)]

    def est(self, h):
        if self.n == 0:
            return 0
        return min(self.c.get(cell, 0) for cell in self.cells(h))

    def count(self, h):
        if self.n == 0:
            return
        grew = False
        for cell in self.cells(h):
            if self.c.get(cell, 0) < 15:
                self.c[cell] = self.c.get(cell, 0) + 1
                grew = True
        if grew:
            self.size += 1
            if self.size >= self.sample:
                self.age()

    def age(self):
        SEEN["sketch aged"] += 1
        odd = sum(1 for v in self.c.values() if v % 2 == 1)
        for cell in list(self.c):
            self.c[cell] //= 2
            if self.c[cell] == 0:
                del self.c[cell]
        if self.size // 2 < odd // 4:
            SEEN["sketch size saturated"] += 1
        self.size = max(0, self.size // 2 - odd // 4)

    def ensure_capacity(self, cap):
        m = min(cap, 2**30)
        length = 1
        while length < m:
            length *= 2
        if self.n >= length:
            return
        if length > BIGGEST_TABLE:
            raise Skip()
        self.n = length
        self.c = {}
        self.sample = 10 if cap == 0 else min(10 * m, 2147483647)
        self.size = 0


def sketch_capacity(x):
    return max(128, min(x, U32))


def turning_on(table, limit, weighed, count, weight):
    """Turns the sketch on if the weight has reached half of the limit."""
    if limit is None or table.n != 0 or weight < limit // 2:
        return
    if not weighed:
        c = limit
    elif limit == 0:
        c = 0
    else:
        c = count * min(weight, U64) // limit
    SEEN["sketch on"] += 1
    if sketch_capacity(c) > 128:
        SEEN["sketch on, more than 128"] += 1
    table.ensure_capacity(sketch_capacity(c))


def run_sketch(cap, calls):
    t = Table()
    t.ensure_capacity(cap)
    out = ["ready"]
    for _, name, a in calls:
        if name == "inc":
            for _ in range(a[1]):
                t.count(a[0])
            out.append("ok")
        elif name == "freq":
            out.append(str(t.est(a[0])))
        elif name == "index":
            out.append(str(place_of(t.n, a[0], a[1])))
        elif name == "len":
            out.append(str(t.n))
        elif name == "ensure":
            t.ensure_capacity(a[0])
            out.append("ok")
    return out


# ---------------------------------------------------------------- settings

LONGEST = 31536000000 * 10**9


def policy_text(o):
    return "max %s live %s idle %s" % (
        "-" if o.max is None else o.max,
        "-" if o.live is None else "%dns" % o.live,
        "-" if o.idle is None else "%dns" % o.idle)


def refusal(o):
    if o.live is not None and o.live > LONGEST:
        return "time_to_live is longer than 1000 years"
    if o.idle is not None and o.idle > LONGEST:
        return "time_to_idle is longer than 1000 years"
    return None


class Row:
    def __init__(self, key, value, weight, now, ticket=None):
        self.key = key
        self.value = value
        self.weight = weight
        self.hash = key
        self.accessed = now
        self.modified = now
        self.deadline = None     # only in `unsync`
        self.ticket = ticket


def idle_expired(o, row, t):
    return o.idle is not None and row.accessed + o.idle <= t


def live_expired(o, row, t):
    return o.live is not None and row.modified + o.live <= t


# ---------------------------------------------------------------- unsync

def deadline_of(o, own, t):
    """Returns the moment from which on a row that is written at `t` is expired, or `None` without a time to live."""
    if o.live is None:
        return None
    if own is not None:
        SEEN["unsync own time to live %s" % ("0" if own == 0 else "below the cache's" if own < o.live else "not below the cache's")] += 1
    lives = o.live if own is None else min(own, o.live)
    if t + lives > U64:
        SEEN["unsync deadline beyond the last moment"] += 1
    return t + lives


def is_past(row, t):
    return row.deadline is not None and row.deadline <= t


def front(q, f, x):
    """Returns the shortest prefix of q whose f sums to at least x, or None if there is none."""
    total = 0
    for i in range(len(q) + 1):
        if total >= x:
            return q[:i]
        if i < len(q):
            total += f(q[i])
    return None


def weight_of(rows):
    return sum(r.weight for r in rows)


class Unsync:
    def __init__(self, o):
        self.o = o
        # in order of use
        self.probation = []
        self.protected = []      # always empty unless the cache adapts
        self.window = []         # always empty if the limit is below 100, or if there is none
        self.writes = []         # the rows of all three in order of writing (kept always, used with a time to live)
        self.table = Table()
        self.extra = 0           # the window's weight beyond its share
        self.memory = adapting.Memory() if o.adaptive else None

    def main(self):
        return self.probation + self.protected

    def rows(self):
        return self.main() + self.window

    def weight(self):
        return weight_of(self.rows())

    def has_window(self):
        return self.o.max is not None and adapting.hundredths(adapting.WINDOW_SHARE, self.o.max) > 0

    def window_limit(self):
        return adapting.hundredths(adapting.WINDOW_SHARE, self.o.max) + self.extra

    def main_limit(self):
        return max(0, self.o.max - self.window_limit())

    def protected_limit(self):
        if self.o.max is None or not self.o.adaptive:
            return 0
        return adapting.hundredths(adapting.PROTECTED_SHARE, self.main_limit())

    def list_of(self, r):
        return next(rows for rows in (self.window, self.protected, self.probation) if r in rows)

    def leave(self, rows):
        for r in rows:
            self.list_of(r).remove(r)
            self.writes.remove(r)

    def row_of(self, key):
        for r in self.rows():
            if r.key == key:
                return r
        return None

    def used(self, r):
        """Moves the row to the back of its part. One of main is protected then, unless it is heavier than protected may be."""
        rows = self.list_of(r)
        rows_then = rows
        if rows is self.window:
            SEEN["unsync use in the window"] += 1
            if rows[0] is r and len(rows) > 1:
                SEEN["unsync use of the window's front, of several"] += 1
        else:
            limit = self.protected_limit()
            rows_then = self.protected if limit > 0 and r.weight <= limit else self.probation
            if limit > 0 and rows_then is self.probation:
                SEEN["unsync use of a row heavier than protected's limit"] += 1
        rows.remove(r)
        rows_then.append(r)
        self.balance()

    def balance(self):
        """Moves protected's front to the back of probation, until protected is within its limit."""
        demoted = self.front_of(self.protected, weight_of(self.protected) - self.protected_limit())
        if demoted:
            SEEN["unsync demoted"] += 1
        if len(demoted) > 1:
            SEEN["unsync demoted several"] += 1
        del self.protected[:len(demoted)]
        self.probation += demoted

    def front_of(self, rows, weight):
        """Returns the shortest front of the rows that weighs so much, or all."""
        f = front(rows, lambda r: r.weight, weight)
        return list(rows) if f is None else f

    def expired(self, r, now):
        return idle_expired(self.o, r, now) or is_past(r, now)

    def expire(self, now):
        if self.o.live is not None:
            gone = []
            for r in self.writes:
                if not is_past(r, now):
                    break
                gone.append(r)
            if len(gone) > 100:
                SEEN["unsync over 100 live-expired"] += 1
            if gone:
                SEEN["unsync live-expired"] += 1
            if any(is_past(r, now) for r in self.writes[len(gone):]):
                SEEN["unsync live-expired after a fresh one"] += 1
            self.leave(gone[:100])
        if self.o.idle is not None:
            for place, rows in (("window", self.window), ("probation", self.probation), ("protected", self.protected)):
                gone = []
                for r in rows:
                    if not idle_expired(self.o, r, now):
                        break
                    gone.append(r)
                if len(gone) > 100:
                    SEEN["unsync over 100 idle-expired in %s" % place] += 1
                if gone:
                    SEEN["unsync idle-expired in %s" % place] += 1
                if any(idle_expired(self.o, r, now) for r in rows[len(gone):]):
                    SEEN["unsync idle-expired after a fresh one in %s" % place] += 1
                self.leave(gone[:100])

    def trim(self):
        limit = self.o.max
        if limit is None or self.weight() <= limit:
            return
        f = front(self.rows(), lambda r: r.weight, self.weight() - limit)
        SEEN["unsync trimmed"] += 1
        if f is None or len(f) > 100:
            SEEN["unsync trim over 100"] += 1
            f = self.rows()[:100]
        if any(r in self.window for r in f):
            SEEN["unsync trim of the window"] += 1
        self.leave(f)

    def pre(self, now):
        self.expire(now)
        self.trim()

    def main_takes(self, limit, hash_, w, who):
        """Returns True if main admits a row of this weight. Then its victims leave."""
        main = self.main()
        if limit is None or weight_of(main) + w <= limit:
            return True
        if w > limit:
            SEEN["unsync %s rejected, above the limit" % who] += 1
            return False
        if weight_of(main) > limit:
            SEEN["unsync %s judged while main is above its limit" % who] += 1
        f = front(main, lambda r: r.weight, w)
        if f is None:
            SEEN["unsync %s without a front" % who] += 1
            return False
        if self.table.est(hash_) > sum(self.table.est(r.hash) for r in f):
            SEEN["unsync %s admitted over %s" % (who, min(len(f), 2))] += 1
            if any(r in self.protected for r in f):
                SEEN["unsync %s admitted over a protected row" % who] += 1
            self.displace(f)
            return True
        SEEN["unsync %s rejected" % who] += 1
        return False

    def displace(self, rows):
        """Lets rows of main leave for others, and notes them if there is a window to follow."""
        if self.memory is not None and self.has_window():
            for r in rows:
                self.memory.displaced.note(r.hash)
        self.leave(rows)

    def enter(self, new):
        """Adds a new row to the back of the window, and judges the rows that are then above the limits."""
        limit = self.o.max
        self.window.append(new)
        self.writes.append(new)
        main_limit = self.main_limit()
        above = weight_of(self.window) - self.window_limit()
        e = max(above, self.weight() - limit)
        if e <= 0:
            SEEN["unsync window has capacity"] += 1
            return
        candidates = front(self.window, lambda r: r.weight, e)
        if candidates is None:
            SEEN["unsync window lighter than the excess"] += 1
            candidates = list(self.window)
        if len(candidates) > 1:
            SEEN["unsync candidates, several"] += 1
        if len(candidates) > 100:
            SEEN["unsync candidates, over 100"] += 1
        if new in candidates:
            SEEN["unsync new row is a candidate"] += 1
        if e > above:
            SEEN["unsync excess of the whole above the excess of the window"] += 1
        came = []
        for c in candidates:
            if self.main_takes(main_limit, c.hash, c.weight, "candidate"):
                if any(r not in self.probation for r in came):
                    SEEN["unsync candidate evicted one of the same insert"] += 1
                self.window.remove(c)
                self.probation.append(c)
                came.append(c)
                SEEN["unsync to main"] += 1
            else:
                if self.memory is not None:
                    self.memory.rejected.note(c.hash)
                self.leave([c])

    def turn(self, new, demand):
        """Lets the window follow this demand, after a new row entered it. Main gives up what it has no room for, if the window has gained as much."""
        before = self.extra
        self.memory.demand = demand
        self.extra = adapting.extra_at(self.o.max, demand)
        if self.extra != before:
            SEEN["unsync window %s" % ("grew" if self.extra > before else "shrank")] += 1
            if self.extra == adapting.most_extra(self.o.max):
                SEEN["unsync window is as large as it may be"] += 1
        gained = max(0, self.extra - before) if new in self.window else 0
        if gained == 0 and self.extra > before:
            SEEN["unsync window grew by a row that has left it"] += 1
        given = self.front_of(self.main(), min(gained, weight_of(self.main()) - self.main_limit()))
        if given:
            SEEN["unsync main gave up for the window"] += 1
        self.displace(given)
        self.balance()

    def arrive(self, new):
        """Adds a new row to the window."""
        if self.memory is None:
            self.enter(new)
            return
        for name in ("rejected", "displaced"):
            if getattr(self.memory, name).has(new.hash):
                SEEN["unsync new row was %s of late" % name] += 1
        demand = self.memory.demand_after(self.o.max, new)
        self.memory.take(new.hash)
        self.enter(new)
        self.turn(new, demand)

    def ask(self):
        """Asks whether to turn the sketch on. The tables of tags are made with the sketch's."""
        was_on = self.table.n != 0
        turning_on(self.table, self.o.max, self.o.weighed, len(self.rows()), self.weight())
        if self.memory is not None and not was_on and self.table.n != 0:
            self.memory.make_tables(self.table.n)

    def rewrite(self, r, value, weight, now, deadline):
        """Gives the row another value. It is used, and written last."""
        r.value = value
        r.weight = weight
        r.accessed = now
        r.modified = now
        r.deadline = deadline
        self.used(r)
        self.writes.remove(r)
        self.writes.append(r)

    def call(self, now, name, a):
        if name == "policy":
            return policy_text(self.o)
        if name == "count":
            return str(len(self.rows()))
        if name == "weight":
            return str(min(self.weight(), U64))
        if name == "iter":
            return " ".join("%d=%s" % (r.key, r.value) for r in self.rows() if not self.expired(r, now)) or "empty"
        if name == "clear":
            self.probation = []
            self.protected = []
            self.window = []
            self.writes = []
            return "ok"
        if name == "drop-if":
            self.leave([r for r in self.rows() if r.value == a[0]])
            return "ok"
        if name == "expire":
            gone = [r for r in self.rows() if self.expired(r, now)]
            if len(gone) > 100:
                SEEN["unsync expire of over 100"] += 1
            if gone:
                SEEN["unsync expire of some"] += 1
            self.leave(gone)
            return "ok"
        if name == "insert" and a[3] is not None and self.o.live is None:
            SEEN["unsync refused time-to-live"] += 1
            return "refused time-to-live"
        self.pre(now)
        if name == "get":
            self.table.count(a[0])
            r = self.row_of(a[0])
            if r is not None and not self.expired(r, now):
                r.accessed = now
                self.used(r)
                return "some " + r.value
            if r is not None:
                SEEN["unsync get of an expired row that remains"] += 1
            return "none"
        if name == "has":
            r = self.row_of(a[0])
            return "true" if r is not None and not self.expired(r, now) else "false"
        if name == "invalidate":
            r = self.row_of(a[0])
            if r is not None:
                if r in self.window:
                    SEEN["unsync removal from the window"] += 1
                self.leave([r])
            return "ok"
        if name == "remove":
            r = self.row_of(a[0])
            if r is None:
                return "none"
            if r in self.window:
                SEEN["unsync removal from the window"] += 1
            self.leave([r])
            if self.expired(r, now):
                SEEN["unsync removal of an expired row that remained"] += 1
                return "none"
            return "some " + r.value
        if name == "modify":
            key, value, w = a
            r = self.row_of(key)
            if r is None or self.expired(r, now):
                SEEN["unsync modify of %s" % ("nothing" if r is None else "an expired row that remains")] += 1
                return "false"
            SEEN["unsync modify in %s" % ("the window" if r in self.window else "main")] += 1
            if w > r.weight and self.o.max is not None and self.weight() - r.weight + w > self.o.max:
                SEEN["unsync modify beyond the limit"] += 1
            self.rewrite(r, value, w, now, deadline_of(self.o, None, now))
            return "true"
        if name == "insert":
            key, value, w, own = a
            deadline = deadline_of(self.o, own, now)
            r = self.row_of(key)
            if r is not None:
                if self.expired(r, now):
                    SEEN["unsync insert on an expired row that remained"] += 1
                if deadline is not None and deadline < r.deadline:
                    SEEN["unsync update with an earlier deadline"] += 1
                self.rewrite(r, value, w, now, deadline)
                return "ok"
            new = Row(key, value, w, now)
            new.deadline = deadline
            if self.has_window():
                self.arrive(new)
            elif self.main_takes(self.o.max, new.hash, w, "new row"):
                self.probation.append(new)
                self.writes.append(new)
            if self.row_of(key) is not None:
                self.ask()
            return "ok"
        raise AssertionError(name)


def run_unsync(o, calls):
    cache = Unsync(o)
    return ["ready"] + [cache.call(now, name, a) for now, name, a in calls]


# ---------------------------------------------------------------- core

LOG = 384
FLUSH = 64


class Node:
    def __init__(self, ticket, hash_, charge):
        self.ticket = ticket
        self.hash = hash_
        self.charge = charge


class World:
    def __init__(self, o):
        self.o = o
        self.rows = {}           # key -> Row
        self.invalid = 0         # invalidation moment
        self.reads = []
        self.writes = []
        self.hands = {}
        self.access = []         # nodes
        self.written = []        # tickets; kept with a time to live
        self.table = Table()
        self.place = ("idle",)
        self.moment = None
        self.published = (0, 0)
        self.due = None
        self.next = [o.tickets] * 16

    # -- definitions about the world

    def charged(self):
        return sum(node.charge for node in self.access)

    def hidden(self, row):
        return row.accessed < self.invalid or row.modified < self.invalid

    def expired(self, row, now):
        return idle_expired(self.o, row, now) or live_expired(self.o, row, now) or self.hidden(row)

    def row_with(self, ticket):
        for row in self.rows.values():
            if row.ticket == ticket:
                return row
        return None

    def node_of(self, ticket):
        for node in self.access:
            if node.ticket == ticket:
                return node
        return None

    def held(self):
        """Returns the outstanding operations, in hands, write log and place."""
        ops = list(self.hands.values()) + self.writes
        if self.place[0] == "apply":
            ops.append(self.place[3])
        if self.place[0] in ("scan", "removing", "enter"):
            ops.append(("upsert", self.place[3]["ticket"]))
        return ops

    def upsert_outstanding(self, ticket):
        return ("upsert", ticket) in self.held()

    # -- callers' steps

    def insert(self, caller, key, value, weight, now):
        if caller in self.hands:
            return "not possible"
        row = self.rows.get(key)
        if row is None:
            shard = key % 16
            if self.next[shard] == U64:
                SEEN["core refused tickets"] += 1
                return "refused tickets"
            row = Row(key, value, weight, now, (shard, self.next[shard]))
            self.next[shard] += 1
            self.rows[key] = row
        else:
            row.value = value
            row.weight = weight
            row.accessed = now
            row.modified = now
        self.hands[caller] = ("upsert", row.ticket)
        return "ok"

    def get(self, caller, key, now):
        if caller in self.hands:
            return "not possible"
        row = self.rows.get(key)
        if row is not None and not self.expired(row, now):
            self.hands[caller] = ("hit", key, row.ticket, now)
            return "some " + row.value
        self.hands[caller] = ("miss", key)
        return "none"

    def contains(self, key, now):
        row = self.rows.get(key)
        return "true" if row is not None and not self.expired(row, now) else "false"

    def invalidate(self, caller, key):
        if caller in self.hands:
            return "not possible"
        row = self.rows.pop(key, None)
        if row is not None:
            self.hands[caller] = ("remove", row.ticket)
        return "ok"

    def take(self, caller, key, now):
        if caller in self.hands:
            return "not possible"
        row = self.rows.pop(key, None)
        if row is None:
            return "none"
        self.hands[caller] = ("remove", row.ticket)
        if self.expired(row, now):
            SEEN["core removal of an expired row"] += 1
            return "none"
        return "some " + row.value

    def invalidate_all(self, now):
        self.invalid = max(self.invalid, now)
        return "ok"

    def push(self, caller):
        op = self.hands.get(caller)
        if op is None:
            return "not possible"
        if op[0] in ("upsert", "remove"):
            if len(self.writes) == LOG:
                SEEN["core write log full"] += 1
                return "not possible"
            del self.hands[caller]
            self.writes.append(op)
            return "ok"
        del self.hands[caller]
        if len(self.reads) == LOG:
            SEEN["core read discarded"] += 1
            return "discarded"
        self.reads.append(op)
        return "ok"

    def forget(self, caller):
        op = self.hands.get(caller)
        if op is None or op[0] not in ("hit", "miss"):
            return "not possible"
        del self.hands[caller]
        return "ok"

    def copies(self, now):
        found = [row for row in self.rows.values() if not self.expired(row, now)]
        found.sort(key=lambda row: row.key)
        return " ".join("%d=%s" % (row.key, row.value) for row in found) or "empty"

    # -- maintenance

    def begin(self, now):
        if self.place[0] != "idle":
            return "not possible"
        self.moment = now
        self.place = ("read-count", 1)
        return "ok"

    def after(self, r, n):
        return ("writes", r, n) if n > 0 else ("sketch", r)

    def enter_node(self, row):
        self.access.append(Node(row.ticket, row.hash, row.weight))
        if self.o.live is not None:
            self.written.append(row.ticket)

    def node_leaves(self, node):
        self.access.remove(node)
        if node.ticket in self.written:
            self.written.remove(node.ticket)

    def access_to_back(self, node):
        self.access.remove(node)
        self.access.append(node)

    def written_to_back(self, ticket):
        if ticket in self.written:
            self.written.remove(ticket)
            self.written.append(ticket)

    def passed_to_back(self, passed):
        """Moves the passed-over nodes to the back of the access order, and keeps their order."""
        for node in [node for node in self.access if node.ticket in passed]:
            self.access_to_back(node)

    def turn(self):
        if self.place[0] == "idle":
            return "not possible"
        step = getattr(self, "turn_" + self.place[0].replace("-", "_"))
        self.place = step(*self.place[1:])
        return "at " + self.place[0]

    def turn_read_count(self, r):
        SEEN["core round %d" % r] += 1
        n = len(self.reads)
        return ("reads", r, n) if n > 0 else ("write-count", r)

    def turn_reads(self, r, n):
        return ("read-apply", r, n - 1, self.reads.pop(0))

    def turn_read_apply(self, r, n, op):
        self.table.count(op[1])
        if op[0] == "hit":
            _, _, ticket, moment = op
            row = self.row_with(ticket)
            if row is not None:
                row.accessed = max(row.accessed, moment)
            node = self.node_of(ticket)
            if node is not None:
                if row is None:
                    SEEN["core hit moves a node without its row"] += 1
                self.access_to_back(node)
            elif row is not None:
                SEEN["core hit of a row without a node"] += 1
        return ("reads", r, n) if n > 0 else ("write-count", r)

    def turn_write_count(self, r):
        n = len(self.writes)
        return ("writes", r, n) if n > 0 else ("sketch", r)

    def turn_writes(self, r, n):
        return ("apply", r, n - 1, self.writes.pop(0))

    def turn_apply(self, r, n, op):
        kind, ticket = op
        node = self.node_of(ticket)
        if kind == "remove":
            if node is not None:
                self.node_leaves(node)
            else:
                SEEN["core remove without a node"] += 1
            return self.after(r, n)
        row = self.row_with(ticket)
        if row is None:
            SEEN["core upsert dropped"] += 1
            return self.after(r, n)
        if node is not None:
            node.charge = row.weight
            self.access_to_back(node)
            self.written_to_back(ticket)
            return self.after(r, n)
        limit = self.o.max
        if limit is None or self.charged() + row.weight <= limit:
            self.enter_node(row)
            return self.after(r, n)
        if row.weight > limit:
            SEEN["core rejected, above the limit"] += 1
            del self.rows[row.key]
            return self.after(r, n)
        candidate = {"ticket": ticket, "weight": row.weight, "est": self.table.est(row.hash)}
        return ("scan", r, n, candidate, [])

    def turn_scan(self, r, n, cand, seen):
        """Scans one more node, or decides. `seen` has (ticket, weight, estimate), or (ticket, None, None), of each scanned node."""
        weights = sum(o[1] for o in seen if o[1] is not None)
        ests = sum(o[2] for o in seen if o[1] is not None)
        six = len(seen) >= 6 and all(o[1] is None for o in seen[-6:])
        end = len(seen) == len(self.access)
        if weights >= cand["weight"] or ests > cand["est"] or six or end:
            passed = set(o[0] for o in seen if o[1] is None)
            if weights >= cand["weight"] and cand["est"] > ests:
                SEEN["core admitted%s" % ("" if seen else " with none")] += 1
                if len(seen) > 1:
                    SEEN["core admitted over more than one"] += 1
                if passed:
                    SEEN["core admitted with passed-over"] += 1
                if seen:
                    return ("removing", r, n, cand, passed, [o[0] for o in seen])
                return ("enter", r, n, cand, passed)
            SEEN["core rejected"] += 1
            if six and weights < cand["weight"] and ests <= cand["est"]:
                SEEN["core six absent"] += 1
            elif end and weights < cand["weight"] and ests <= cand["est"]:
                SEEN["core scan reached the end of the order"] += 1
            if passed:
                SEEN["core rejected with passed-over"] += 1
            row = self.row_with(cand["ticket"])
            if row is not None:
                if self.upsert_count(cand["ticket"]) > 1:
                    SEEN["core rejected with another upsert outstanding"] += 1
                del self.rows[row.key]
            else:
                SEEN["core rejected candidate had left"] += 1
            self.passed_to_back(passed)
            return self.after(r, n)
        node = self.access[len(seen)]
        row = self.row_with(node.ticket)
        if row is None:
            seen = seen + [(node.ticket, None, None)]
        else:
            if row.weight != node.charge:
                SEEN["core scan saw another weight than the charge"] += 1
            seen = seen + [(node.ticket, row.weight, self.table.est(node.hash))]
        return ("scan", r, n, cand, seen)

    def upsert_count(self, ticket):
        return sum(1 for op in self.held() if op == ("upsert", ticket))

    def turn_removing(self, r, n, cand, passed, left):
        ticket = left[0]
        if ticket not in passed:
            row = self.row_with(ticket)
            if row is not None:
                if self.upsert_outstanding(ticket):
                    SEEN["core victim with an upsert outstanding"] += 1
                del self.rows[row.key]
                self.node_leaves(self.node_of(ticket))
            else:
                SEEN["core victim gone before its removal"] += 1
                passed = passed | {ticket}
        if len(left) > 1:
            return ("removing", r, n, cand, passed, left[1:])
        return ("enter", r, n, cand, passed)

    def turn_enter(self, r, n, cand, passed):
        row = self.row_with(cand["ticket"])
        if row is not None:
            if row.weight != cand["weight"]:
                SEEN["core entered with another weight"] += 1
            self.enter_node(row)
        else:
            SEEN["core candidate vanished"] += 1
        self.passed_to_back(passed)
        return self.after(r, n)

    def turn_sketch(self, r):
        turning_on(self.table, self.o.max, self.o.weighed, len(self.access), self.charged())
        return ("more-reads", r)

    def turn_more_reads(self, r):
        if r == 5:
            return ("expire-write", 0)
        if len(self.reads) >= FLUSH:
            return ("read-count", r + 1)
        return ("more-writes", r)

    def turn_more_writes(self, r):
        if len(self.writes) >= FLUSH:
            return ("read-count", r + 1)
        return ("expire-write", 0)

    def turn_expire_write(self, k):
        if self.o.live is None or k == 500 or not self.written:
            if k == 500:
                SEEN["core 500 write expiries"] += 1
            return ("expire-access", 0)
        ticket = self.written[0]
        row = self.row_with(ticket)
        if row is None:
            SEEN["core expire-write, absent"] += 1
            self.written_to_back(ticket)
            return ("expire-write", k + 1)
        if live_expired(self.o, row, self.moment) or row.modified < self.invalid:
            SEEN["core expire-write, left"] += 1
            del self.rows[row.key]
            self.node_leaves(self.node_of(ticket))
            return ("expire-write", k + 1)
        return ("expire-access", 0)

    def turn_expire_access(self, k):
        if (self.o.idle is None and self.invalid == 0) or k == 500 or not self.access:
            if k == 500:
                SEEN["core 500 access expiries"] += 1
            return ("evict", 0)
        node = self.access[0]
        row = self.row_with(node.ticket)
        if row is None:
            SEEN["core expire-access, absent"] += 1
            self.access_to_back(node)
            return ("expire-access", k + 1)
        if idle_expired(self.o, row, self.moment) or row.accessed < self.invalid:
            SEEN["core expire-access, left"] += 1
            del self.rows[row.key]
            self.node_leaves(node)
            return ("expire-access", k + 1)
        return ("evict", 0)

    def turn_evict(self, k):
        if self.o.max is None or self.charged() <= self.o.max or k == 500:
            if k == 500:
                SEEN["core 500 evictions"] += 1
            return ("publish", k)
        node = self.access[0]
        row = self.row_with(node.ticket)
        if row is None:
            SEEN["core evict, absent"] += 1
            self.access_to_back(node)
        elif self.upsert_outstanding(node.ticket):
            SEEN["core evict, upsert outstanding"] += 1
            self.access_to_back(node)
            self.written_to_back(node.ticket)
        else:
            SEEN["core evict, left"] += 1
            del self.rows[row.key]
            self.node_leaves(node)
        return ("evict", k + 1)

    def turn_publish(self, k):
        self.published = (len(self.access), min(self.charged(), U64))
        return ("idle",)

    def rest(self):
        if self.place[0] == "idle":
            return "not possible"
        while self.place[0] != "idle":
            self.turn()
        return "ok"

    def sync(self, now):
        if self.begin(now) != "ok":
            return "not possible"
        return self.rest()

    # -- whole calls of caller 0

    def is_due(self, log, now):
        return len(log) >= FLUSH or (self.due is not None and now >= self.due)

    def maintain(self, now):
        self.due = min(now + 500000000, U64)
        self.begin(now)
        self.rest()

    def whole_get(self, key, now):
        answer = self.get(0, key, now)
        if self.is_due(self.reads, now):
            SEEN["recorded get maintains"] += 1
            self.maintain(now)
        self.push(0)
        return answer

    def push_write(self, now):
        while True:
            if self.is_due(self.writes, now):
                SEEN["recorded write maintains"] += 1
                self.maintain(now)
            if self.push(0) == "ok":
                return

    def whole_insert(self, key, value, weight, now):
        answer = self.insert(0, key, value, weight, now)
        if answer == "ok":
            self.push_write(now)
        return answer

    def whole_invalidate(self, key, now):
        self.invalidate(0, key)
        if 0 in self.hands:
            self.push_write(now)
        return "ok"

    def whole_remove(self, key, now):
        answer = self.take(0, key, now)
        if 0 in self.hands:
            self.push_write(now)
        return answer

    # -- invariants of each core that a model without stored counts can test

    def check_sound(self):
        tickets = [row.ticket for row in self.rows.values()]
        nodes = [node.ticket for node in self.access]
        assert len(set(tickets)) == len(tickets) and len(set(nodes)) == len(nodes)
        for key, row in self.rows.items():
            assert row.ticket[0] == key % 16 and row.ticket[1] < self.next[key % 16]
            node = self.node_of(row.ticket)
            assert (node is not None and node.charge == row.weight) or self.upsert_outstanding(row.ticket)
            assert ("remove", row.ticket) not in self.held()
        for node in self.access:
            assert node.ticket in tickets or ("remove", node.ticket) in self.held()
        if self.o.live is not None:
            assert sorted(nodes) == sorted(self.written)
        else:
            assert not self.written
        if self.place[0] in ("scan", "removing", "enter"):
            assert self.o.max is not None and self.node_of(self.place[3]["ticket"]) is None
        if self.place[0] == "scan":
            seen = [o[0] for o in self.place[4]]
            assert nodes[:len(seen)] == seen
        if self.place[0] == "removing":
            # the scanned nodes that are left to remove are still in the access order
            left = self.place[5]
            assert left and all(t in nodes for t in left)
        assert len(self.reads) <= LOG and len(self.writes) <= LOG


CHECK_SOUND = False


def run_core(o, calls):
    w = World(o)
    out = ["ready"]
    for now, name, a in calls:
        if name == "insert":
            out.append(w.insert(a[0], a[1], a[2], a[3], now))
        elif name == "get":
            out.append(w.get(a[0], a[1], now))
        elif name == "has":
            out.append(w.contains(a[0], now))
        elif name == "invalidate":
            out.append(w.invalidate(a[0], a[1]))
        elif name == "remove":
            out.append(w.take(a[0], a[1], now))
        elif name == "clear":
            out.append(w.invalidate_all(now))
        elif name == "push":
            out.append(w.push(a[0]))
        elif name == "forget":
            out.append(w.forget(a[0]))
        elif name == "begin":
            out.append(w.begin(now))
        elif name == "turn":
            out.append(w.turn())
        elif name == "rest":
            out.append(w.rest())
        elif name == "sync":
            out.append(w.sync(now))
        elif name == "iter":
            out.append(w.copies(now))
        elif name == "count":
            out.append(str(len(w.access)))
        elif name == "weight":
            out.append(str(min(w.charged(), U64)))
        else:
            raise AssertionError(name)
        if CHECK_SOUND:
            w.check_sound()
        if out[-1] == "not possible":
            SEEN["core not possible: " + name] += 1
    return out


def run_whole(o, calls):
    """Plays the calls of mode recorded or sync. With one caller, the cache with locks makes the same calls."""
    w = World(o)
    out = ["ready"]
    for now, name, a in calls:
        if name == "insert":
            out.append(w.whole_insert(a[0], a[1], a[2], now))
        elif name == "get":
            out.append(w.whole_get(a[0], now))
        elif name == "has":
            out.append(w.contains(a[0], now))
        elif name == "invalidate":
            out.append(w.whole_invalidate(a[0], now))
        elif name == "remove":
            out.append(w.whole_remove(a[0], now))
        elif name == "clear":
            out.append(w.invalidate_all(now))
        elif name == "sync":
            out.append(w.sync(now))
        elif name == "count":
            out.append(str(w.published[0]))
        elif name == "weight":
            out.append(str(w.published[1]))
        elif name == "iter":
            out.append(w.copies(now))
        elif name == "policy":
            out.append(policy_text(o))
        else:
            raise AssertionError(name)
        if CHECK_SOUND:
            w.check_sound()
    return out


# ---------------------------------------------------------------- the program

def reply_text(data):
    bad, mode, options, calls = parse(data)
    if bad is not None:
        return b"bad line %d\n" % bad, 2
    if mode == "sketch":
        out = run_sketch(options, calls)
    else:
        why = refusal(options)
        if why is not None:
            out = ["refused " + why]
        else:
            out = {"unsync": run_unsync, "core": run_core, "recorded": run_whole, "sync": run_whole}[mode](options, calls)
    return "".join(line + "\n" for line in out).encode(), 0


if __name__ == "__main__":
    import sys
    if sys.argv[1:]:
        is_help = sys.argv[1:] in (["--help"], ["-h"])
        print("usage: python3 dev/model/model.py < SCRIPT", file=sys.stdout if is_help else sys.stderr)
        sys.exit(0 if is_help else 2)
    text_, status = reply_text(sys.stdin.buffer.read())
    sys.stdout.buffer.write(text_)
    sys.exit(status)
