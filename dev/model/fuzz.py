"""Compares a program with the model on random scripts.

fuzz.py --program P --seed N --count N --jobs J --mode all|unsync|core|recorded|sync|sketch [--malformed]

Runs `P < script`, and compares its output and exit status with the model's. Exits with status 1 if one differs, or if none is the same. Without --program it
only makes the scripts.
"""
import argparse
import multiprocessing
import os
import random
import re
import subprocess
import sys
import time
from collections import Counter

import model

HERE = os.path.dirname(os.path.abspath(__file__))
U32, U64 = model.U32, model.U64
MODES = ("unsync", "core", "recorded", "sync", "sketch")
TEXTS = ["a", "b", "c", "z", "alice", "bob", "0", "7", "-", "x-1", "A" * 64, "get", "Z9"]


# ---------------------------------------------------------------- parts of scripts

def keys_of(r):
    kind = r.randrange(10)
    if kind < 5:
        return list(range(r.randint(2, 9)))
    if kind < 7:
        return [0, 16, 32, 48, 1, 17, 33][:r.randint(3, 7)]
    if kind < 8:
        return [0, 1, U64, U64 - 1, 2**63, 2**32, 16][:r.randint(3, 7)]
    if kind < 9:
        return [r.randrange(2**64) for _ in range(r.randint(2, 6))]
    return list(range(r.randint(10, 40)))


def moments_of(r):
    """Returns a function that returns the next moment."""
    kind = r.randrange(10)
    state = [r.choice([0, 0, 0, 5, 100])]
    if kind < 2:
        return lambda: 0

    if kind < 6:
        p = r.choice([0.05, 0.2, 0.5])

        def nxt():
            if r.random() < p:
                state[0] += r.randint(0, 5)
            if r.random() < 0.05:
                return max(0, state[0] - r.randint(0, 12))
            return state[0]
        return nxt
    if kind < 8:
        top = r.choice([3, 12, 30])
        return lambda: r.randint(0, top)
    if kind < 9:
        return lambda: r.choice([0, 1, 5, U64, U64 - 1, U64 - 5, U64 - 500000000, U64 - 499999999, 2**63])

    def half():
        if r.random() < 0.3:
            state[0] += r.choice([1, 100000000, 250000000, 499999999, 500000000, 500000001])
        if r.random() < 0.05:
            return max(0, state[0] - r.choice([1, 250000000, 500000000]))
        return state[0]
    return half


def duration_of(r):
    x = r.random()
    if x < 0.8:
        return "%dns" % r.randint(0, 15)
    if x < 0.9:
        return r.choice(["0s", "1s", "10s", "500000000ns", "1000ns"])
    if x < 0.96:
        return r.choice(["31536000000s", "18446744073709551615ns", "31535999999s"])
    return r.choice(["31536000001s", "18446744073709551615s"])


class Settings:
    def __init__(self, r, mode, limit=None, no_limit=False, weighed=None, durations=True):
        x = r.random()
        if limit is not None:
            self.max = limit
        elif no_limit or x < 0.12:
            self.max = None
        elif x < 0.9:
            self.max = r.randint(0, 8)
        elif x < 0.96:
            self.max = r.randint(9, 200)
        else:
            self.max = r.choice([U32, U32 + 1, 2**33, U64, U64 - 1, 2**63])
        self.weighed = r.random() < 0.4 if weighed is None else weighed
        self.live = duration_of(r) if durations and r.random() < 0.3 else None
        self.idle = duration_of(r) if durations and r.random() < 0.3 else None
        self.tickets = None
        if mode in ("core", "recorded") and r.random() < 0.15:
            self.tickets = r.choice([0, 1, 7, U64, U64 - 1, U64 - 2, U64 - 3, U64 - 5, U64 - 10, 2**63])
        self.mode = mode
        self.adaptive = mode == "unsync" and r.random() < 0.5
        # large weights only with a large limit or none: with a small one the table would have gigabytes
        self.big_weights = self.weighed and (self.max is None or self.max >= U32 - 1) and r.random() < 0.6
        self.some_high = self.weighed and r.random() < 0.2

    def first(self):
        s = self.mode
        if self.max is not None:
            s += " max %d" % self.max
        if self.live is not None:
            s += " live " + self.live
        if self.idle is not None:
            s += " idle " + self.idle
        if self.weighed:
            s += " weighed"
        if self.adaptive:
            s += " adaptive"
        if self.tickets is not None:
            s += " tickets %d" % self.tickets
        return s

    def weight(self, r):
        """Returns the end of an insert line, which has the weight if there is one."""
        if not self.weighed:
            return ""
        if self.big_weights and r.random() < 0.3:
            return " %d" % r.choice([U32, U32, U32 - 1, 2**31])
        if self.some_high and r.random() < 0.1:
            return " %d" % r.randint(11, 400)
        x = r.random()
        if x < 0.1:
            return " 0"
        if x < 0.7:
            return " %d" % r.randint(0, 4)
        return " %d" % r.randint(0, 10)


def length_of(r):
    return r.choice([r.randint(3, 20), r.randint(20, 60), r.randint(20, 120), r.randint(60, 200), r.randint(100, 400)])


def text_of(r):
    return r.choice(TEXTS)


def pick(r, weights):
    total = sum(w for _, w in weights)
    x = r.random() * total
    for name, w in weights:
        x -= w
        if x < 0:
            return name
    return weights[-1][0]


def jitter(r, weights):
    return [(n, w * r.choice([0.2, 0.5, 1, 1, 2, 3])) for n, w in weights]


# ---------------------------------------------------------------- unsync

def gen_unsync(r):
    if r.random() < 1 / 3:
        return WindowScript(r).made()
    x = r.random()
    if x < 0.03:
        return gen_unsync_hundred(r)
    if x < 0.05:
        return gen_saturated(r, "unsync")
    if x < 0.07:
        return gen_unsync_aging(r)
    s = Settings(r, "unsync")
    keys, now = keys_of(r), moments_of(r)
    w = jitter(r, [("insert", 30), ("get", 30), ("has", 6), ("invalidate", 4), ("remove", 4), ("clear", 0.7), ("drop-if", 2), ("iter", 6),
                   ("count", 5), ("weight", 5), ("policy", 0.5), ("gets", 4), ("modify", 5), ("expire", 2)])
    lines = [s.first()]
    for _ in range(length_of(r)):
        k = r.choice(keys)
        name = pick(r, w)
        if name in ("insert", "modify"):
            lines.append("%d %s %d %s%s" % (now(), name, k, text_of(r), s.weight(r)))
        elif name in ("get", "has", "invalidate", "remove"):
            lines.append("%d %s %d" % (now(), name, k))
        elif name == "gets":
            lines += ["%d get %d" % (now(), k)] * r.randint(2, 9)
        elif name == "drop-if":
            lines.append("%d drop-if %s" % (now(), text_of(r)))
        else:
            lines.append("%d %s" % (now(), name))
    lines += ["%d iter" % now(), "%d count" % now(), "%d weight" % now()]
    return lines


WINDOW_LIMITS = [99, 100, 101, 150, 199, 200, 250, 300, 1000]
LARGER_LIMITS = [500, 2000, 5000, 12000, 30000, 10**6, U32, U32 + 1, 2**33, U64]


class WindowScript:
    """A script with a limit of 100 or more, so that new rows first enter the window, or of 99, so that they don't."""

    def __init__(self, r):
        self.r = r
        limit = r.choice(WINDOW_LIMITS) if r.random() < 0.75 else r.choice(LARGER_LIMITS)
        self.filled = r.randint(100, 500) if r.random() < 0.7 else r.choice([0, 0, 1, 3, 10])
        self.s = Settings(r, "unsync", limit=limit, weighed=r.random() < 0.6, durations=False)
        self.times()
        self.lines = [self.s.first()]
        self.share = limit // 100
        self.main = limit - self.share
        # weight of a row with which the rows of the fill weigh about the limit
        self.usual = max(1, min(U32, limit // max(self.filled, 3)))
        self.none = r.choice([0, 0, 0.05, 0.3, 0.8])
        self.heavy = r.choice([0, 0, 0.03, 0.15])
        self.near = r.choice([0, 0.1, 0.5])
        # The slot of a hash is by its bits from 20 on, and its tag by those from 49 on.
        self.key = r.choice([lambda i: i, lambda i: 4 * i, lambda i: U64 - i, lambda i: (i * 0x9e3779b97f4a7c15) % 2**64,
                             lambda i: (i * 0x9e3779b97f4a7c15) % 2**64, lambda i: (i << 20) % 2**64, lambda i: (i << 49 | i << 20) % 2**64])
        self.known = []          # inserted keys, the latest last
        self.made_keys = 0
        self.texts = r.sample(TEXTS, r.randint(1, 5))

    def times(self):
        r, s = self.r, self.s
        self.t = r.choice([0, 0, 50, U64 - 10])
        self.span = r.choice([1, 3, 10, 40])
        kind = r.randrange(5)
        if kind in (1, 3, 4):
            s.live = "%dns" % (self.span + r.randint(0, 3))
        if kind in (2, 3, 4):
            s.idle = "%dns" % (self.span + r.randint(0, 3) if kind != 4 else r.randint(0, self.span))
        self.steps = r.choice([0, 0.005, 0.02, 0.1])
        self.jumps = r.choice([0, 0.01, 0.05])

    def now(self):
        """Returns the next moment: mostly the last one or the one after it, sometimes a far or an earlier one."""
        r = self.r
        if r.random() < self.steps:
            self.t += r.choice([1, 1, 1, 2])
        if r.random() < self.jumps:
            self.t += r.choice([self.span // 2, self.span - 1, self.span, self.span + 1, self.span + 3])
        self.t = min(self.t, U64)
        if r.random() < self.jumps:
            return max(0, self.t - r.randint(1, self.span + 2))
        return self.t

    def say(self, words):
        self.lines.append("%d %s" % (self.now(), words))

    def weight(self):
        r = self.r
        x = r.random()
        if x < self.none:
            return 0
        if x < self.none + self.heavy:
            return self.heavy_weight()
        if r.random() < self.near:
            return min(U32, r.choice([0, 1, 2, max(0, self.share - 1), self.share, self.share + 1, 2 * self.share, 3 * self.share + 1]))
        return min(U32, r.randint(1, 2 * self.usual))

    def heavy_weight(self):
        limit = self.s.max
        some = [limit // 3, limit // 2, limit // 2 + 1, self.main - 1, self.main, self.main + 1, limit, limit + 1, 2 * limit, U32]
        return min(U32, self.r.choice(some))

    def insert(self, key, weight=None):
        end = ""
        if self.s.weighed:
            end = " %d" % (self.weight() if weight is None else weight)
        self.say("insert %d %s%s" % (key, self.r.choice(self.texts), end))

    def new(self, weight=None, asked=0):
        key = self.key(self.made_keys)
        self.made_keys += 1
        self.gets(key, asked)
        self.insert(key, weight)
        self.known.append(key)
        return key

    def some(self):
        """Returns a key: one of the last, one of the first, or any; sometimes one not inserted yet."""
        r = self.r
        x = r.random()
        if not self.known or x < 0.04:
            return self.key(self.made_keys + r.randint(0, 2))
        if x < 0.4:
            return r.choice(self.known[-r.choice([1, 2, 3, 8, 20]):])
        if x < 0.65:
            return r.choice(self.known[:r.choice([1, 3, 10])])
        return r.choice(self.known)

    def look(self):
        self.say(self.r.choice(["iter", "count", "weight", "count", "weight"]))

    def made(self):
        r = self.r
        x = r.random()
        if x < 0.1:
            self.begin_half()
        elif x < 0.15:
            self.begin_sized()
        else:
            self.fill()
        shares = [("new", 20), ("asked", 12), ("update", 8), ("heavy", 3), ("get", 12), ("gets", 4), ("sweep", 0.5), ("burst", 1), ("nothings", 1.5),
                  ("has", 4), ("invalidate", 2), ("remove", 2), ("clear", 0.15), ("drop-if", 0.3), ("modify", 5), ("expire", 0.3), ("look", 12), ("policy", 0.1), ("again", 3),
                  ("rivals", 3), ("above", 1), ("idle", 0.7)]
        if self.s.adaptive:
            shares += [("returns", 12), ("firsts", 4), ("uses", 4)]
        w = jitter(r, shares)
        for _ in range(r.choice([r.randint(5, 40), r.randint(20, 120), r.randint(100, 250)])):
            getattr(self, "do_" + pick(r, w).replace("-", "_"))()
        for words in ("count", "weight", "iter"):
            self.say(words)
        for _ in range(5):
            self.say("has %d" % self.some())
        return self.lines

    def fill(self):
        r = self.r
        for _ in range(self.filled):
            # rows that are used often, or looked up before they are inserted
            if r.random() < 0.03:
                self.say("get %d" % self.some())
            self.new(asked=1 if r.random() < 0.03 else 0)

    def begin_half(self):
        """Fills about half of the limit, at which the sketch is turned on. Once it is on, a row that was looked up before may be admitted."""
        r = self.r
        most = self.s.max // 2
        small = r.randint(0, self.share)
        first = self.new(weight=min(U32, max(0, most - small + r.choice([-1, 0, 0, 1]))))
        for _ in range(r.randint(1, 3)):
            weight = r.randint(0, min(U32, small))
            small -= weight
            self.new(weight=weight)
        if r.random() < 0.5:
            self.insert(r.choice([first, self.known[-1]]))
        self.new(weight=min(U32, r.choice([small, small, self.main, self.main + 1, self.s.max])))
        self.new(weight=min(U32, self.main), asked=r.randint(1, 3))
        self.say("iter")

    def begin_sized(self):
        """Turns the sketch on while most rows are in the window. The length and the sample size of its table show in later counts."""
        r = self.r
        heavy = self.new(weight=0)
        for _ in range(r.randint(100, 400)):
            self.new(weight=0)
        if self.s.weighed:
            self.insert(heavy, min(U32, r.randint(self.s.max // 2, self.main)))
        for key in self.known[1:]:
            self.say("get %d" % key)
        self.new(weight=0)
        self.gets(self.key(self.made_keys), r.choice([1, 2, 8]))
        for _ in range(r.choice([300, 900, 1300])):
            self.say("get %d" % r.randrange(5000, 7000))
        for weight in (self.main, self.main // 2, 1):
            self.new(weight=min(U32, weight))
            self.say("count")

    def do_new(self):
        self.new()

    def do_asked(self):
        self.new(asked=self.r.randint(1, 9))

    def do_update(self):
        self.insert(self.some())

    def do_modify(self):
        end = " %d" % (self.weight() if self.r.random() < 0.8 else self.heavy_weight()) if self.s.weighed else ""
        self.say("modify %d %s%s" % (self.some(), self.r.choice(self.texts), end))

    def do_expire(self):
        self.say("expire")

    def do_heavy(self):
        """Makes a heavy update, often of the last row, and up to two calls after it."""
        r = self.r
        self.insert(self.some() if r.random() < 0.5 or not self.known else self.known[-1], self.heavy_weight())
        for _ in range(r.choice([0, 1, 2])):
            r.choice([self.look, self.do_new, self.do_get])()

    def do_get(self):
        self.say("get %d" % self.some())

    def do_gets(self):
        self.gets(self.some(), self.r.randint(2, 9))

    def do_sweep(self):
        """Uses each row of a range of known keys."""
        if self.known:
            at = self.r.randrange(len(self.known))
            for key in self.known[at:at + self.r.randint(5, 120)]:
                self.say("get %d" % key)

    def do_burst(self):
        for _ in range(self.r.choice([5, 20, 130])):
            self.new()

    def do_nothings(self):
        """Inserts rows of weight 0, which stay in the window until something is too heavy."""
        for _ in range(self.r.choice([1, 3, 10, 130])):
            self.new(weight=0)

    def do_has(self):
        self.say("has %d" % self.some())

    def do_invalidate(self):
        self.say("invalidate %d" % self.some())

    def do_remove(self):
        self.say("remove %d" % self.some())

    def do_clear(self):
        self.say("clear")

    def do_drop_if(self):
        self.say("drop-if %s" % self.r.choice(TEXTS))

    def do_look(self):
        self.look()

    def do_policy(self):
        self.say("policy")

    def do_rivals(self):
        """Makes a row of the window heavy, and inserts another heavy one, looked up before, so that both are candidates at once."""
        r = self.r
        some = [self.main // 3, self.main // 2 + 1, self.main - 1, self.main]
        self.new(weight=r.choice([0, 1]))
        if r.random() < 0.5:
            self.gets(self.known[-1], r.randint(1, 12))
        if self.s.weighed:
            self.insert(self.known[-1], min(U32, r.choice(some)))
        self.new(weight=min(U32, r.choice(some)), asked=r.randint(1, 9))
        self.say(r.choice(["iter", "count", "weight"]))

    def do_above(self):
        """Puts main above its limit, but not the window, so that the excess of the whole takes several candidates."""
        r = self.r
        self.fresh()
        heavy = self.new(weight=min(U32, self.s.max // 2))
        above = r.randint(0, self.share)
        if self.s.weighed:
            self.insert(heavy, min(U32, self.s.max - above))
        left = above
        for _ in range(r.randint(1, 4)):
            weight = r.randint(0, min(U32, left))
            left -= weight
            self.gets(self.new(weight=weight), r.choice([0, 0, 1, 3]))
        if r.random() < 0.2:
            self.new(weight=min(U32, self.main + r.randint(0, self.share)), asked=r.randint(0, 3))
        else:
            self.new(weight=min(U32, r.randint(left, self.share)), asked=r.randint(0, 3))
        self.say("iter")
        self.new()

    def do_idle(self):
        """Lets many rows of the window, or of main, expire by the time to idle at once."""
        r = self.r
        for _ in range(r.randint(90, 260)):
            self.new(weight=0)
        self.t = min(U64, self.t + self.span + r.randint(-1, 4))
        for _ in range(r.randint(1, 4)):
            self.say("has %d" % self.some())
            self.say("count")

    def do_returns(self):
        """Inserts new rows, and each again after some of the others, when the window has given it up. The window grows then."""
        r = self.r
        apart = r.choice([1, 2, 3, 5, 8, 12, 20])
        asked = r.choice([0, 0, 0, 1, 4])
        for _ in range(r.choice([5, 20, 60, 150])):
            self.new(asked=asked)
            if len(self.known) > apart:
                self.insert(self.known[-1 - apart])
        self.look()

    def do_firsts(self):
        """Inserts rows again that were the first, which main may have given up. The window shrinks then."""
        r = self.r
        at = r.choice([0, 0, r.randrange(max(1, len(self.known)))])
        for key in self.known[at:at + r.choice([1, 5, 20, 60])]:
            self.insert(key)
        self.look()

    def do_uses(self):
        """Looks rows up that the cache may have, so that they are protected."""
        for _ in range(self.r.choice([3, 20, 80])):
            self.do_get()

    def fresh(self):
        """Clears the cache, mostly."""
        if self.r.random() < 0.8:
            self.say("clear")

    def gets(self, key, times):
        for _ in range(times):
            self.say("get %d" % key)

    def do_again(self):
        """Removes a key and inserts it again."""
        key = self.some()
        self.say("%s %d" % (self.r.choice(["invalidate", "remove"]), key))
        self.insert(key)


def gen_unsync_hundred(r):
    """Makes a script in which over 100 rows may expire or be trimmed at once."""
    n = r.randint(95, 260)
    s = Settings(r, "unsync", limit=r.choice([n, n, n + 5, n * 2, U64]), weighed=r.random() < 0.6)
    if r.random() < 0.5:
        s.live = "%dns" % r.randint(0, 10)
    if r.random() < 0.5:
        s.idle = "%dns" % r.randint(0, 10)
    lines = [s.first()]
    moments = r.choice([[0], [0, 0, 0, 3], [0, 5, 10]])
    t = 0
    for k in range(n):
        if r.random() < 0.02:
            t = r.choice(moments)
        lines.append("%d insert %d v%s" % (t, k, " 1" if s.weighed else ""))
    for _ in range(r.randint(3, 30)):
        k = r.randrange(n + 3)
        t = r.choice([0, 3, 5, 9, 10, 11, 20])
        x = r.randrange(8)
        if x == 0 and s.weighed:
            lines.append("%d insert %d big %d" % (t, k, r.choice([0, 1, 100, n, n * 2, 1000, U32])))
            if r.random() < 0.5:
                k = n + r.randint(5, 9)
                lines += ["%d get %d" % (t, k)] * r.choice([0, 0, 1])
                lines += ["%d insert %d nil %d" % (t, k, r.choice([0, 0, 1])), "0 count", "0 weight", "%d has %d" % (t, k)]
        elif x == 1:
            lines.append("%d insert %d new%s" % (t, k, s.weight(r)))
        elif x == 2:
            lines.append("%d iter" % t)
        elif x == 3:
            lines.append("%d %s %d" % (t, r.choice(["invalidate", "remove"]), k))
        else:
            lines.append("%d %s %d" % (t, r.choice(["get", "has"]), k))
        lines += ["0 count", "0 weight"]
    return lines


def gen_unsync_aging(r):
    """Makes a script with enough counts for the cache's sketch to age."""
    weighed = r.random() < 0.4
    limit = r.choice([1, 2, 3, 4, 8, 128, 129, 150, 170])
    s = Settings(r, "unsync", limit=limit, weighed=weighed, durations=False)
    keys = list(range(r.randint(3, 12)))
    many = r.choice([200, 400, 2000])
    lines = [s.first()]
    for k in range(limit + 2 if limit > 8 else 3):
        lines.append("0 insert %d v%s" % (k, " 1" if weighed else ""))
    if limit > 8:
        keys = [k + limit - 4 for k in keys]
    for _ in range(r.randint(20, 60)):
        for _ in range(r.randint(0, 6)):
            lines += ["0 get %d" % r.choice(keys)] * r.randint(1, 15)
        lines += ["0 get %d" % r.randrange(many) for _ in range(r.randint(0, 90))]
        for _ in range(r.randint(1, 5)):
            lines.append("0 insert %d %s%s" % (r.choice(keys), text_of(r), s.weight(r)))
        lines += ["0 %s" % r.choice(["iter", "count", "weight"])]
    lines.append("0 iter")
    return lines


# ---------------------------------------------------------------- core

class CoreScript:
    def __init__(self, r, s):
        self.r, self.s = r, s
        self.lines = [s.first()]
        self.keys, self.now = keys_of(r), moments_of(r)
        self.callers = list(range(1, 1 + r.randint(1, 5)))
        if r.random() < 0.1:
            self.callers.append(r.choice([0, U32, 2**31]))
        self.full = set()

    def say(self, words):
        self.lines.append("%d %s" % (self.now(), words))

    def caller(self):
        """Returns a caller, mostly one without a pending operation."""
        free = [c for c in self.callers if c not in self.full]
        return self.r.choice(free) if free and self.r.random() < 0.9 else self.r.choice(self.callers)

    def holder(self):
        full = [c for c in self.callers if c in self.full]
        return self.r.choice(full) if full and self.r.random() < 0.95 else self.r.choice(self.callers)

    def insert(self, c=None, k=None):
        r = self.r
        c = self.caller() if c is None else c
        self.say("insert %d %d %s%s" % (c, r.choice(self.keys) if k is None else k, text_of(r), self.s.weight(r)))
        self.full.add(c)
        return c

    def get(self, c=None, k=None):
        c = self.caller() if c is None else c
        self.say("get %d %d" % (c, self.r.choice(self.keys) if k is None else k))
        self.full.add(c)
        return c

    def invalidate(self, c=None, k=None):
        c = self.caller() if c is None else c
        self.say("%s %d %d" % (self.r.choice(["invalidate", "remove"]), c, self.r.choice(self.keys) if k is None else k))
        self.full.add(c)
        return c

    def push(self, c=None):
        c = self.holder() if c is None else c
        self.say("push %d" % c)
        self.full.discard(c)

    def turns(self, most):
        for _ in range(self.r.randint(1, most)):
            self.say("turn")

    def random_steps(self, count, w):
        r = self.r
        for _ in range(count):
            name = pick(r, w)
            if name == "insert":
                self.insert()
            elif name == "insert-push":
                self.push(self.insert())
            elif name == "get":
                self.get()
            elif name == "get-push":
                self.push(self.get())
            elif name == "gets":
                k = r.choice(self.keys)
                for _ in range(r.randint(2, 8)):
                    self.push(self.get(None, k))
            elif name == "invalidate":
                self.invalidate()
            elif name == "invalidate-push":
                self.push(self.invalidate())
            elif name == "push":
                self.push()
            elif name == "forget":
                c = self.holder()
                self.say("forget %d" % c)
                if r.random() < 0.5:
                    self.full.discard(c)
            elif name == "has":
                self.say("has %d" % r.choice(self.keys))
            elif name == "turn":
                self.say("turn")
            elif name == "turns":
                self.turns(14)
            elif name == "begin-turns":
                self.say("begin")
                self.turns(20)
            elif name == "crossed":
                # map steps of one key by several callers, which are pushed in another order
                k = r.choice(self.keys)
                some = r.sample(self.callers, r.randint(1, len(self.callers)))
                for c in some:
                    if c in self.full:
                        self.push(c)
                    r.choice([self.insert, self.insert, self.invalidate, self.get])(c, k)
                r.shuffle(some)
                for c in some:
                    if r.random() < 0.85:
                        self.push(c)
                    if r.random() < 0.2:
                        self.turns(5)
            elif name == "contest":
                # misses of a key, so that it is likely to be admitted, and steps of others between the turns
                k = r.choice(self.keys)
                for _ in range(r.randint(0, 5)):
                    self.push(self.get(None, k))
                self.push(self.insert(None, k))
                self.say("begin")
                for _ in range(r.randint(3, 40)):
                    self.say("turn")
                    x = r.random()
                    if x < 0.04:
                        self.insert()
                    elif x < 0.08:
                        self.invalidate()
                    elif x < 0.1:
                        self.invalidate(None, k)
                    elif x < 0.12:
                        self.insert(None, k)
                    elif x < 0.16:
                        self.push()
                    elif x < 0.18:
                        self.get()
                    elif x < 0.185:
                        self.say("clear")
                if r.random() < 0.7:
                    self.say("rest")
            else:
                self.say(name)

    def end(self):
        r = self.r
        if r.random() < 0.5:
            self.say("rest")
        for c in self.callers:
            if r.random() < 0.7:
                self.push(c)
        if r.random() < 0.7:
            self.say("sync")
        self.lines += [self.lines[-1].split(" ")[0] + " " + x for x in ("count", "weight", "iter")]
        for k in self.keys[:10]:
            self.say("has %d" % k)


CORE = [("insert", 14), ("insert-push", 14), ("get", 8), ("get-push", 12), ("gets", 4), ("invalidate", 7), ("invalidate-push", 4),
        ("push", 16), ("forget", 2), ("has", 2), ("clear", 0.8), ("begin", 3), ("turn", 10), ("turns", 7), ("begin-turns", 4),
        ("rest", 3), ("sync", 5), ("iter", 2), ("count", 2), ("weight", 2), ("crossed", 4), ("contest", 3)]


def gen_core(r):
    x = r.random()
    shares = [(0.04, gen_core_logs), (0.06, gen_core_five_hundred), (0.08, gen_core_aging), (0.15, gen_core_absent),
              (0.25, gen_core_duel), (0.33, gen_core_over), (0.46, gen_core_orders), (0.49, gen_core_rounds), (0.55, gen_core_clears), (0.62, gen_core_passed), (0.67, gen_core_evicts)]
    for share, gen in shares:
        if x < share:
            return gen(r)
    c = CoreScript(r, Settings(r, "core"))
    target = length_of(r)
    w = jitter(r, CORE)
    while len(c.lines) < target:
        c.random_steps(1, w)
    c.end()
    return c.lines


def gen_core_duel(r):
    """Makes a script of admissions and rejections, with other callers' steps on victims and candidate between the turns."""
    n = r.randint(1, 6)
    weighed = r.random() < 0.6
    s = Settings(r, "core", limit=n if not weighed else r.choice([n, 2 * n, 5]), weighed=weighed)
    if r.random() < 0.7:
        s.live = s.idle = None
    s.tickets = None
    c = CoreScript(r, s)
    c.keys = list(range(n + 2))
    if r.random() < 0.6:
        c.now = lambda: 0
    if weighed:
        s.weight = lambda r: " %d" % r.choice([1, 1, 1, 1, 2, 2, 3, 0])
    c.callers = [1, 2, 3, 4, 5, 6]
    for k in range(n):
        c.push(c.insert(1, k))
        if r.random() < 0.3:
            c.push(c.get(1, k))
    c.say("sync")
    for _ in range(r.randint(1, 4)):
        k = r.choice([n, n, n + 1, r.randrange(n + 2)])
        reads = r.choice([0, 1, 2, 3, 5, 8, 12])
        for _ in range(reads):
            c.push(c.get(1 if 1 not in c.full else None, k))
        if r.random() < 0.3:
            c.say("sync")
            reads = 0
        writer = c.insert(1 if 1 not in c.full else None, k)
        c.push(writer)
        if r.random() < 0.3:
            c.insert(None, k)
        c.say("begin")
        for _ in range(2 * reads + 3):
            c.say("turn")
        p = r.choice([0.1, 0.3, 0.6])
        for _ in range(r.randint(3, 25)):
            if r.random() < p:
                q = r.choice([k, r.randrange(n + 2)])
                y = r.random()
                if y < 0.45:
                    c.invalidate(None, q)
                elif y < 0.8:
                    c.insert(None, q)
                elif y < 0.9:
                    c.push()
                elif y < 0.92:
                    c.say("clear")
                else:
                    c.get(None, q)
            c.say("turn")
            if r.random() < 0.1:
                c.say("weight")
        c.say("rest")
        c.lines += ["%d iter" % c.now(), "0 count", "0 weight"]
        for h in sorted(c.full):
            if r.random() < 0.6:
                c.push(h)
    c.end()
    return c.lines


def gen_core_over(r):
    """Makes a script whose weights rise above the limit, so that evictions pass over absent nodes and rows with an outstanding upsert."""
    n = r.randint(2, 9)
    s = Settings(r, "core", limit=r.choice([n, n, 2 * n, n // 2, 0]), weighed=True)
    s.big_weights = False
    if r.random() < 0.7:
        s.live = s.idle = None
    c = CoreScript(r, s)
    c.keys = list(range(n))
    for k in range(n):
        c.lines += ["%d insert 1 %d v %d" % (c.now(), k, r.choice([0, 1, 1, 1])), "0 push 1"]
    c.say("sync")
    for _ in range(r.randint(1, 5)):
        for _ in range(r.randint(1, 6)):
            k = r.choice(c.keys)
            who = r.choice([1, 100 + k, 200 + k])
            x = r.random()
            if x < 0.12:
                k = n + r.randrange(2)
                for _ in range(r.randint(0, 3)):
                    c.lines += ["%d get 300 %d" % (c.now(), k), "0 push 300"]
                c.lines.append("%d insert 300 %d %s %d" % (c.now(), k, text_of(r), r.choice([0, 0, 1, 2])))
                c.lines.append("0 push 300")
            elif x < 0.55:
                c.lines.append("%d insert %d %d %s %d" % (c.now(), who, k, text_of(r), r.choice([0, 1, 2, 5, n, 2 * n])))
            elif x < 0.8:
                c.lines.append("%d invalidate %d %d" % (c.now(), who, k))
            else:
                c.lines.append("%d get %d %d" % (c.now(), who, k))
            if who == 1 or r.random() < 0.2:
                c.lines.append("%d push %d" % (c.now(), who))
        if r.random() < 0.5:
            c.say("sync")
        else:
            c.say("begin")
            for _ in range(r.randint(5, 40)):
                c.say("turn")
                if r.random() < 0.15:
                    k = r.choice(c.keys)
                    c.lines.append(r.choice(["0 push %d" % (100 + k), "0 push %d" % (200 + k), "%d invalidate 1 %d" % (c.now(), k),
                                             "%d insert 1 %d w %d" % (c.now(), k, r.randint(0, 9)), "0 push 1", "0 weight", "0 count"]))
            c.say("rest")
        c.lines += ["0 count", "0 weight", "%d iter" % c.now()]
        for k in c.keys:
            if r.random() < 0.3:
                c.lines.append("0 push %d" % r.choice([100 + k, 200 + k]))
    c.callers += [100 + k for k in c.keys] + [200 + k for k in c.keys]
    c.end()
    return c.lines


class Live(CoreScript):
    """A script whose maker also runs the model, to know the phase of the maintenance."""

    def __init__(self, r, s):
        CoreScript.__init__(self, r, s)
        o = model.Options()
        o.max, o.weighed = s.max, s.weighed
        o.live = None if s.live is None else model.duration(s.live.encode())
        o.idle = None if s.idle is None else model.duration(s.idle.encode())
        o.tickets = s.tickets or 0
        self.world = model.World(o)
        self.weights = {}

    def line(self, now, words):
        self.lines.append("%d %s" % (now, words))
        w, a = self.world, words.split(" ")
        name, n = a[0], [int(x) if x.isdigit() else x for x in a[1:]]
        if name == "insert":
            return w.insert(n[0], n[1], a[3], n[3] if self.s.weighed else 1, now)
        if name == "get":
            return w.get(n[0], n[1], now)
        if name == "invalidate":
            return w.invalidate(n[0], n[1])
        if name == "remove":
            return w.take(n[0], n[1], now)
        if name == "clear":
            return w.invalidate_all(now)
        if name in ("push", "forget"):
            return getattr(w, name)(n[0])
        if name in ("begin", "sync"):
            return getattr(w, name)(now)
        if name in ("turn", "rest"):
            return getattr(w, name)()

    def place(self):
        return self.world.place[0]

    def until(self, places, most=400):
        for _ in range(most):
            if self.place() in places:
                return
            self.line(0, "turn")


def epilogue(c, t, shown):
    """Expires all rows in a maintenance that is played turn by turn, so that the replies show the whole order."""
    r = c.r
    if shown < r.random():
        return
    far = t + 1000
    if r.random() < 0.5 or (c.s.live is None and c.s.idle is None):
        c.line(far, "clear")
        if r.random() < 0.7:
            far = t
    c.line(far, "begin")
    for _ in range(r.randint(10, 60)):
        if c.place() == "idle":
            break
        c.line(0, "turn")
        if c.place() in ("expire-write", "expire-access", "evict"):
            c.lines.append("0 weight")
    c.line(0, "rest")
    c.lines.append("0 weight")


def gen_core_evicts(r):
    """Makes a script whose charges exceed the limit, with pending upserts and removals of other rows."""
    n = r.randint(2, 8)
    total = 2**n - 1
    s = Settings(r, "core", limit=r.choice([total, total + 2, total // 2 + 1]), weighed=True, durations=False)
    s.big_weights = s.some_high = False
    x = r.random()
    s.live = "500ns" if x < 0.6 else None
    s.idle = "500ns" if x > 0.4 else None
    s.tickets = None
    c = Live(r, s)
    own = [2**i for i in range(n)]
    r.shuffle(own)
    for k in range(n):
        c.line(0, "insert 1 %d v %d" % (k, own[k]))
        c.line(0, "push 1")
    c.line(0, "sync")
    for _ in range(r.randint(1, 3)):
        for k in range(n):
            y = r.random()
            if y < 0.25:
                c.line(0, "insert %d %d w %d" % (100 + k, k, own[k]))
            elif y < 0.4:
                c.line(0, "invalidate %d %d" % (100 + k, k))
            elif y < 0.5:
                c.line(0, "get %d %d" % (300 + k, k))
        k = r.randrange(n)
        c.line(0, "insert 2 %d big %d" % (k, own[k] + r.choice([1, 2, total // 4, total // 2, total])))
        c.line(0, "push 2")
        for k in range(n):
            if r.random() < 0.3:
                c.line(0, "push %d" % (300 + k))
        c.line(0, "begin")
        for _ in range(r.randint(20, 60)):
            if c.place() == "idle":
                break
            c.line(0, "turn")
            if c.place() in ("expire-write", "expire-access", "evict"):
                c.lines.append("0 weight")
                if r.random() < 0.08:
                    k = r.randrange(n)
                    c.line(0, r.choice(["invalidate %d %d" % (200 + k, k), "insert %d %d w 3" % (200 + k, k), "push %d" % (100 + k)]))
        c.line(0, "rest")
        c.lines += ["0 weight", "0 iter"]
        if r.random() < 0.5:
            break
    epilogue(c, 0, 0.9)
    for k in range(n):
        for h in (100, 200, 300):
            c.line(0, "push %d" % (h + k))
    c.line(0, "sync")
    c.lines += ["0 weight", "0 count", "0 iter"]
    return c.lines


def gen_core_passed(r):
    """Makes a script of scans that pass over absent nodes, of victims that leave before their removal, and of the resulting orders."""
    n = r.randint(2, 7)
    total = 2**n - 1
    s = Settings(r, "core", limit=r.choice([total, total, total + 1, total - 1]), weighed=True, durations=False)
    s.big_weights = s.some_high = False
    x = r.random()
    s.live = "500ns" if x < 0.3 or x > 0.85 else None
    s.idle = "500ns" if x > 0.3 else None
    s.tickets = None
    c = Live(r, s)
    c.now = lambda: 0
    own = [2**i for i in range(n)]
    r.shuffle(own)
    for k in range(n):
        c.line(0, "insert 1 %d v %d" % (k, own[k]))
        c.line(0, "push 1")
    c.line(0, "sync")
    for k in range(n):
        if r.random() < 0.3:
            c.line(0, "get 1 %d" % k)
            if r.random() < 0.7:
                c.line(0, "push 1")
            else:
                c.line(0, "forget 1")
        if r.random() < 0.15:
            c.line(0, "get %d %d" % (300 + k, k))
    for k in range(n):
        if r.random() < 0.35:
            c.line(0, "invalidate %d %d" % (100 + k, k))
    for k in range(n):
        if r.random() < 0.7:
            c.line(0, "push %d" % (300 + k))
    for cand in range(n, n + r.randint(1, 3)):
        for _ in range(r.choice([3, 8, 15, 15])):
            c.line(0, "get 1 %d" % cand)
            c.line(0, "push 1")
        c.line(0, "insert 1 %d new %d" % (cand, r.choice([1, 2, total // 2, total // 3, total])))
        c.line(0, "push 1")
        c.line(0, "begin")
        c.until(("scan", "expire-write", "sketch"), 80)
        for _ in range(60):
            if c.place() not in ("scan", "removing", "enter"):
                break
            if r.random() < 0.25:
                k = r.choice(list(range(n)) + [cand])
                who = r.choice([100, 200]) + k
                c.line(0, r.choice(["invalidate %d %d" % (who, k), "insert %d %d w %d" % (who, k, r.choice([1, 2, 4, 8])),
                                    "push %d" % who]))
            c.line(0, "turn")
            c.lines.append("0 weight")
        if r.random() < 0.8:
            c.line(0, "rest")
        else:
            for _ in range(20):
                c.line(0, "turn")
                c.lines.append("0 weight")
            c.line(0, "rest")
        for k in range(n + 2):
            if r.random() < 0.1:
                c.line(0, "push %d" % (100 + k))
            if r.random() < 0.1:
                c.line(0, "push %d" % (200 + k))
        c.lines += ["0 weight", "0 iter"]
    epilogue(c, 0, 0.9)
    for k in range(n + 3):
        c.line(0, "push %d" % (100 + k))
        c.line(0, "push %d" % (200 + k))
    c.line(0, "sync")
    c.lines += ["0 weight", "0 count", "0 iter"]
    return c.lines


def gen_core_rounds(r):
    s = Settings(r, "core", durations=r.random() < 0.3)
    c = Live(r, s)
    t = c.now()

    def writes(n):
        for _ in range(n):
            k = r.choice(c.keys)
            c.line(t, "insert 9 %d %s%s" % (k, text_of(r), s.weight(r)))
            if "not possible" == c.line(t, "push 9"):
                return

    def reads(n):
        for _ in range(n):
            c.line(t, "get 8 %d" % r.choice(c.keys))
            c.line(t, "push 8")

    writes(r.randint(0, 10))
    c.line(t, "begin")
    for _ in range(r.randint(1, 7)):
        c.until(("sketch", "more-reads", "expire-write"))
        n = r.choice([63, 64, 64, 65])
        if r.random() < 0.75:
            (reads if r.random() < 0.6 else writes)(n)
        else:
            c.until(("more-writes", "expire-write", "idle"))
            r.choice([reads, writes])(n)
        c.line(0, "turn")
        c.line(0, "turn")
        if c.place() == "expire-write" and r.random() < 0.7:
            break
    for _ in range(r.randint(3, 30)):
        c.line(0, "turn")
    c.lines.append("0 weight")
    c.line(0, "rest")
    c.lines += ["0 count", "0 weight", "%d iter" % t]
    c.line(t, "sync")
    c.lines += ["0 count", "0 weight", "%d iter" % t]
    return c.lines


def gen_core_orders(r):
    """Makes a script with row weights of 1, 2, 4, 8 and so on, so that the charged weight shows which nodes exist."""
    n = r.randint(2, 10)
    total = 2**n - 1
    s = Settings(r, "core", limit=r.choice([total, total, total // 2, total // 3, total + 3, total - 1]), weighed=True)
    s.big_weights = s.some_high = False
    x = r.random()
    s.live = "%dns" % r.randint(3, 12) if x < 0.5 else None
    s.idle = "%dns" % r.randint(3, 12) if 0.3 < x < 0.8 else None
    s.tickets = None
    c = Live(r, s)
    t = 0
    c.keys = list(range(n + 2))
    order = list(range(n))
    r.shuffle(order)
    own = {k: 2**i for i, k in enumerate(order)}
    own[n], own[n + 1] = r.choice([1, total // 2 + 1, 2, total]), r.choice([1, 2, 4, 0])
    for k in range(n):
        if r.random() < 0.4:
            t += r.randint(0, 2)
        c.line(t, "insert 1 %d v %d" % (k, own[k]))
        c.line(t, "push 1")
    c.line(t, "sync")
    c.lines += ["0 weight"]

    def upset(between):
        nonlocal t
        k = r.choice(c.keys)
        if r.random() < 0.15:
            t += r.randint(0, 3)
        x = r.random()
        who = r.choice([1, 2, 3, 100 + k, 200 + k])
        if x < 0.3:
            c.line(t, "invalidate %d %d" % (who, k))
        elif x < 0.55:
            w = own[k] if r.random() < 0.7 else r.choice([0, 1, total // 3, total // 2, own[k] * 2])
            c.line(t, "insert %d %d w %d" % (who, k, w))
        elif x < 0.85:
            c.line(t, "get %d %d" % (who, k))
        elif x < 0.87:
            c.line(t, "clear")
        if r.random() < (0.4 if x < 0.3 else 0.7):
            c.line(t, "push %d" % who)
        if r.random() < 0.2:
            c.line(t, "push %d" % r.choice([1, 2, 3, 100 + r.choice(c.keys), 200 + r.choice(c.keys)]))

    def contest():
        k = r.choice([n, n + 1, r.choice(c.keys)])
        for _ in range(r.choice([0, 1, 3, 8])):
            c.line(t, "get 8 %d" % k)
            c.line(t, "push 8")
        c.line(t, "insert 9 %d new %d" % (k, own[k]))
        c.line(t, "push 9")

    for _ in range(r.randint(1, 5)):
        for _ in range(r.randint(0, 8)):
            upset(False)
        if r.random() < 0.5:
            contest()
        t2 = t + r.choice([0, 0, 0, 2, 5, 8, 12])
        if r.random() < 0.2:
            c.line(t2, "sync")
        else:
            c.line(t2, "begin")
            q = r.choice([0, 0, 0.05, 0.2])
            for _ in range(120):
                if c.place() == "idle":
                    break
                c.line(0, "turn")
                if c.place() in ("apply", "scan", "removing", "enter", "expire-write", "expire-access", "evict", "sketch"):
                    c.lines.append("0 weight")
                    if c.place() in ("scan", "removing", "enter") and r.random() < q * 3:
                        upset(True)
                if r.random() < q:
                    upset(True)
            c.line(0, "rest")
        c.lines += ["0 count", "0 weight", "%d iter" % t2]
        if r.random() < 0.3:
            t = t2
    epilogue(c, t, 0.6)
    for k in c.keys:
        c.line(t, "push %d" % (100 + k))
        c.line(t, "push %d" % (200 + k))
    for h in (1, 2, 3):
        c.line(t, "push %d" % h)
    c.line(t, "sync")
    c.lines += ["0 count", "0 weight", "%d iter" % t]
    return c.lines


def gen_core_clears(r):
    """Makes a script whose invalidations have moments before and after those of inserts and hits."""
    n = r.randint(1, 6)
    s = Settings(r, "core", limit=r.choice([100, 2**n, 2**n // 2]), weighed=True)
    s.big_weights = s.some_high = False
    s.live = r.choice([None, "100ns", "6ns"])
    s.idle = r.choice([None, "100ns", "6ns"])
    s.tickets = None
    c = Live(r, s)
    for _ in range(r.randint(5, 40)):
        k, t = r.randrange(n), r.randint(0, 10)
        who = r.choice([1, 1, 2, 100 + k])
        x = r.random()
        if x < 0.35:
            c.line(t, "insert %d %d v %d" % (who, k, 2**k))
        elif x < 0.6:
            c.line(t, "get %d %d" % (who, k))
        elif x < 0.7:
            c.line(t, "clear")
            c.lines += ["%d has %d" % (r.randint(0, 10), q) for q in range(n)]
        elif x < 0.78:
            c.line(t, "invalidate %d %d" % (who, k))
        elif x < 0.88:
            c.line(t, "sync")
            c.lines += ["0 weight", "0 count"]
        else:
            c.line(t, "begin")
            for _ in range(60):
                if c.place() == "idle":
                    break
                c.line(0, "turn")
                if c.place() in ("expire-write", "expire-access", "evict"):
                    c.lines.append("0 weight")
                    if r.random() < 0.1:
                        c.line(r.randint(0, 10), "clear")
            c.line(0, "rest")
            c.lines.append("%d iter" % t)
        if r.random() < 0.8:
            c.line(t, "push %d" % who)
    c.line(10, "sync")
    c.lines += ["0 weight", "0 count", "10 iter"]
    return c.lines


def gen_core_absent(r):
    """Makes a script with many absent nodes, whose removals are not pushed yet, and then scans, expiry and eviction."""
    n = r.randint(4, 12)
    s = Settings(r, "core", limit=r.choice([n, n, n - 1, n // 2]), weighed=r.random() < 0.4)
    c = CoreScript(r, s)
    c.keys = list(range(n + 3))
    for k in range(n):
        t = c.now()
        c.lines += ["%d insert 1 %d v%s" % (t, k, " 1" if s.weighed else ""), "%d push 1" % t]
    c.say("sync")
    if r.random() < 0.5:
        c.random_steps(r.randint(0, 15), [("get-push", 5), ("insert-push", 3), ("sync", 1)])
        c.say("sync")
    gone = [k for k in range(n) if r.random() < r.choice([0.3, 0.7, 0.9])]
    holders = []
    for k in gone:
        c.lines.append("%d invalidate %d %d" % (c.now(), 100 + k, k))
        holders.append(100 + k)
    for _ in range(r.randint(1, 4)):
        k = r.choice([n, n + 1, n + 2] + gone)
        for _ in range(r.randint(0, 4)):
            c.push(c.get(None, k))
        c.push(c.insert(None, k))
        x = r.random()
        if x < 0.4:
            c.say("sync")
        else:
            c.say("begin")
            for _ in range(r.randint(5, 45)):
                c.say("turn")
                y = r.random()
                if y < 0.05:
                    c.invalidate()
                elif y < 0.1:
                    c.insert()
                elif y < 0.13 and holders:
                    h = holders.pop(r.randrange(len(holders)))
                    c.lines.append("%d push %d" % (c.now(), h))
                elif y < 0.14:
                    c.say("clear")
            c.say("rest")
        if r.random() < 0.4:
            c.random_steps(r.randint(1, 8), jitter(r, CORE))
        c.lines += ["0 count", "0 weight", "%d iter" % c.now()]
    r.shuffle(holders)
    for h in holders:
        c.lines.append("%d push %d" % (c.now(), h))
    c.end()
    return c.lines


def gen_core_logs(r):
    """Makes a script with full logs, or with several rounds of a maintenance."""
    c = CoreScript(r, Settings(r, "core"))
    w = jitter(r, CORE)

    def burst(kind, n):
        for _ in range(n):
            f = c.get if kind == "reads" else c.insert if r.random() < 0.8 else c.invalidate
            k = c.caller()
            if k in c.full:
                c.push(k)
            f(k)
            c.push(k)

    if r.random() < 0.5:
        c.random_steps(r.randint(0, 30), w)
        for kind in r.sample(["reads", "writes", "both"], 2):
            if kind in ("reads", "both"):
                burst("reads", r.choice([63, 64, 65, 128, 383, 384, 385, 390]))
            if kind in ("writes", "both"):
                burst("writes", r.choice([63, 64, 65, 128, 383, 384, 385, 390]))
        c.random_steps(r.randint(0, 20), w)
        c.say(r.choice(["sync", "rest"]))
        c.end()
        return c.lines
    # rounds: during one round of the maintenance, enough operations for another are pushed
    if r.random() < 0.6:
        c.s.max = r.choice([None, 0, 2, 8, c.s.max])
        c.lines[0] = c.s.first()
    if c.s.max is not None and c.s.max < 2**31:
        c.s.big_weights = False
    steady = r.random() < 0.6
    kinds = r.choice([["reads"], ["writes"], ["reads", "writes"]])
    burst("reads", r.choice([0, 3, 64]))
    burst("writes", r.choice([0, 3, 64]))
    c.say("begin")
    for _ in range(r.randint(5, 8) if steady else r.randint(1, 6)):
        n = r.choice([63, 64, 64, 65, 66, 70])
        burst(r.choice(kinds), n)
        for _ in range(r.randint(2 * n - 60, 2 * n) if steady else r.randint(60, 260)):
            c.say("turn")
    c.lines += ["0 count", "0 weight"]
    c.say("rest")
    c.end()
    return c.lines


def gen_core_five_hundred(r):
    """Makes a script whose passes use up their 500 turns."""
    n = r.randint(490, 620)
    s = Settings(r, "core", limit=r.choice([n, 1000, n // 2]), weighed=True, durations=False)
    s.tickets = None
    if r.random() < 0.5:
        s.live = "10ns"
    if r.random() < 0.5:
        s.idle = "10ns"
    c = CoreScript(r, s)
    c.now = lambda: 0
    for k in range(n):
        c.lines += ["0 insert 1 %d v 1" % k, "0 push 1"]
        if k % 300 == 299:
            c.lines.append("0 sync")
    c.lines += ["0 sync", "0 count"]
    for _ in range(r.randint(2, 6)):
        x = r.choice([0, 0, 1, 2, 3, 4])
        t = r.choice([0, 9, 10, 11])
        if x == 0:
            c.lines += ["%d insert 1 %d big %d" % (t, r.randrange(n), r.choice([n, n - 1, 600, 900])), "0 push 1"]
        elif x == 1:
            c.lines.append("%d clear" % r.choice([0, 1, 5]))
        elif x == 2:
            c.lines += ["%d invalidate 2 %d" % (t, r.randrange(n))]
        elif x == 3:
            c.lines += ["%d insert 3 %d w 1" % (t, r.randrange(n)), "0 get 4 %d" % r.randrange(n), "0 push 4"]
        c.lines += ["%d sync" % t, "0 count", "0 weight"]
    c.lines += ["0 sync", "0 count", "0 weight", "0 iter", "0 push 2", "0 push 3", "0 sync", "0 count", "0 weight"]
    return c.lines


def gen_core_aging(r):
    weighed = r.random() < 0.6
    limit = r.choice([1, 2, 3, 4, 8, 10])
    s = Settings(r, "core", limit=limit, weighed=weighed, durations=False)
    s.tickets = None
    c = CoreScript(r, s)
    c.keys = list(range(r.randint(3, 10)))
    c.callers = [1]
    c.now = lambda: 0
    if weighed and r.random() < 0.6:
        # a charged weight above the limit, so that the sketch is turned on with a larger table
        k = c.keys[0]
        c.lines += ["0 insert 1 %d v 0" % k, "0 push 1", "0 sync", "0 insert 1 %d v %d" % (k, limit * r.randint(100, 180)), "0 push 1", "0 sync"]
    many = r.choice([200, 400, 2000])
    noise = 0
    while noise < r.choice([1300, 1600, 2000]):
        n = r.randint(0, 150)
        noise += n
        for _ in range(n):
            c.push(c.get(1, r.randrange(many)))
        for _ in range(r.randint(0, 8)):
            k = r.choice(c.keys)
            for _ in range(r.randint(1, 15)):
                c.push(c.get(1, k))
        c.say("sync")
        for _ in range(r.randint(1, 4)):
            c.push(c.insert(1))
        c.lines += ["0 sync", "0 iter", "0 count", "0 weight"]
    return c.lines


# ---------------------------------------------------------------- recorded

def gen_recorded(r):
    x = r.random()
    if x < 0.02:
        return gen_saturated(r, "recorded")
    if x < 0.04:
        return gen_recorded_aging(r)
    if x < 0.06:
        return gen_recorded_five_hundred(r)
    s = Settings(r, "recorded")
    keys, now = keys_of(r), moments_of(r)
    w = jitter(r, [("insert", 30), ("get", 30), ("has", 6), ("invalidate", 4), ("remove", 4), ("clear", 0.8), ("sync", 8), ("count", 5),
                   ("weight", 5), ("gets", 4), ("hases", 1), ("burst", 0.5)])
    lines = [s.first()]
    for _ in range(length_of(r)):
        k = r.choice(keys)
        name = pick(r, w)
        if name == "insert":
            lines.append("%d insert %d %s%s" % (now(), k, text_of(r), s.weight(r)))
        elif name in ("get", "has", "invalidate", "remove"):
            lines.append("%d %s %d" % (now(), name, k))
        elif name == "gets":
            lines += ["%d get %d" % (now(), k)] * r.randint(2, 9)
        elif name == "hases":
            t = now()
            lines += ["%d has %d" % (t, q) for q in keys[:10]]
        elif name == "burst":
            for _ in range(r.choice([10, 63, 64, 65, 80])):
                k = r.choice(keys)
                lines.append("%d get %d" % (now(), k) if r.random() < 0.5 else
                             "%d insert %d %s%s" % (now(), k, text_of(r), s.weight(r)))
        else:
            lines.append("%d %s" % (now(), name))
    t = now()
    lines += ["%d count" % t, "%d weight" % t, "%d sync" % t, "%d count" % t, "%d weight" % t]
    lines += ["%d has %d" % (t, q) for q in keys[:10]]
    return lines


def gen_sync(r):
    """Makes a script of mode sync: a recorded one, and lines that only the cache with locks has."""
    lines = gen_recorded(r)
    words = lines[0].split(" ")
    if "tickets" in words:
        del words[words.index("tickets"):]
    out = [" ".join(["sync"] + words[1:])]
    for line in lines[1:]:
        out.append(line)
        if r.random() < 0.05:
            out.append(line.split(" ")[0] + r.choice([" iter", " policy"]))
    return out


def gen_recorded_aging(r):
    weighed = r.random() < 0.5
    limit = r.choice([1, 2, 3, 4, 8, 10])
    s = Settings(r, "recorded", limit=limit, weighed=weighed, durations=False)
    s.tickets = None
    keys = list(range(r.randint(3, 10)))
    lines = [s.first()]
    if weighed and r.random() < 0.6:
        lines += ["0 insert 0 v 0", "0 sync", "0 insert 0 v %d" % (limit * r.randint(100, 180)), "0 sync"]
    many = r.choice([200, 400, 2000])
    noise = 0
    while noise < r.choice([1300, 1600, 2000]):
        n = r.randint(0, 150)
        noise += n
        lines += ["0 get %d" % r.randrange(many) for _ in range(n)]
        for _ in range(r.randint(0, 8)):
            lines += ["0 get %d" % r.choice(keys)] * r.randint(1, 15)
        lines.append("0 sync")
        for _ in range(r.randint(1, 4)):
            lines.append("0 insert %d %s%s" % (r.choice(keys), text_of(r), s.weight(r)))
        lines += ["0 sync", "0 count", "0 weight"]
        lines += ["0 has %d" % k for k in keys]
    return lines


def gen_saturated(r, mode):
    """Makes a script with keys counted to 15, whose counts differ only after an aging, so that the replies show when the sketch ages."""
    weighed = r.random() < 0.5
    limit = r.choice([2, 2, 3, 3, 1]) if mode == "recorded" or weighed or r.random() < 0.4 else r.randint(128, 190)
    s = Settings(r, mode, limit=limit, weighed=weighed, durations=False)
    s.tickets = None
    one = " 1" if weighed else ""
    lines = [s.first()]
    settle = ["0 sync"] if mode == "recorded" else []
    if mode == "recorded" and weighed:
        lines += ["0 insert 0 v 0", "0 sync", "0 insert 0 v %d" % (limit * r.randint(100, 190)), "0 sync"]
    for k in range(limit):
        lines.append("0 insert %d v%s" % (k, one))
    lines += settle
    fronts = list(range(min(limit, 3)))
    cand = 1000
    for k in fronts + [cand]:
        lines += ["0 get %d" % k] * 15
    if limit > 3 and mode == "unsync":
        # the first three are at the back now; this brings them to the front
        lines += ["0 get %d" % k for k in range(3, limit)]
    lines += settle
    goal = r.choice([1250, 1400, 1900, 2600])
    made = 0
    many = r.choice([300, 2000])
    while made < goal:
        n = r.choice([20, 100, 200]) if made < 900 else r.choice([5, 20, 50])
        made += n
        lines += ["0 get %d" % (5000 + r.randrange(many)) for _ in range(n)]
        if made > 900 or r.random() < 0.3:
            lines += ["0 get %d" % cand] * r.choice([1, 2]) + settle
            lines += ["0 insert %d c%s" % (cand, one)] + settle + ["0 has %d" % cand, "0 count"]
            if r.random() < 0.5:
                lines += ["0 invalidate %d" % cand] + settle + ["0 insert 0 v%s" % one] + settle
    lines += ["0 has %d" % k for k in fronts]
    return lines


def gen_recorded_five_hundred(r):
    n = r.randint(490, 900)
    s = Settings(r, "recorded", limit=r.choice([n, n * 2, n // 2, n - 3]), weighed=r.random() < 0.7, durations=False)
    s.tickets = None
    if r.random() < 0.5:
        s.live = "10ns"
    if r.random() < 0.5:
        s.idle = "10ns"
    one = " 1" if s.weighed else ""
    lines = [s.first()] + ["0 insert %d v%s" % (k, one) for k in range(n)]
    lines += ["0 sync"] if r.random() < 0.7 else []
    lines += ["0 count", "0 weight"]
    for _ in range(r.randint(2, 8)):
        t = r.choice([0, 9, 10, 11, 500000000])
        x = r.randrange(6)
        k = r.randrange(n)
        if x == 0 and s.weighed:
            lines.append("%d insert %d big %d" % (t, k, r.choice([n, n - 1, 600, 900])))
        elif x == 1:
            lines.append("%d clear" % r.choice([0, 1, 5]))
        elif x == 2:
            lines.append("%d invalidate %d" % (t, k))
        elif x == 3:
            lines += ["%d insert %d w%s" % (t, k, one), "%d get %d" % (t, r.randrange(n))]
        if r.random() < 0.6:
            lines.append("%d sync" % t)
        lines += ["0 count", "0 weight"]
        lines += ["%d has %d" % (t, r.randrange(n)) for _ in range(5)]
    return lines


# ---------------------------------------------------------------- sketch

def gen_sketch(r):
    cap = r.choice([0, 0, 1, 1, 2, 3, 4, 5, 7, 8, 9, 16, 17, 31, 64, 100, 128, 1000, 1025, 4096, 65536, 65537])
    if r.random() < 0.3:
        cap = r.randint(0, 40)
    kind = r.randrange(3)
    if kind == 0:
        hashes = list(range(r.randint(1, 12)))
    elif kind == 1:
        hashes = [r.randrange(2**64) for _ in range(r.randint(1, 12))]
    else:
        hashes = [0, 1, 4, 8, U64, U64 - 1, U64 - 4, 2**63, 2**32, 3, 2][:r.randint(2, 11)]
    lines = ["sketch %d" % cap]
    w = jitter(r, [("inc", 30), ("freq", 20), ("index", 8), ("len", 3), ("ensure", 1.5), ("incs", 5), ("freqs", 4)])
    for _ in range(length_of(r)):
        name = pick(r, w)
        h = r.choice(hashes)
        if name == "inc":
            lines.append("inc %d %d" % (h, r.choice([0, 1, 1, 1, 2, 3, r.randint(0, 20), r.randint(0, 20), r.randint(0, 60)])))
        elif name == "incs":
            for _ in range(r.randint(2, 40)):
                lines.append("inc %d %d" % (r.choice(hashes), r.randint(1, 4)))
        elif name == "freq":
            lines.append("freq %d" % h)
        elif name == "freqs":
            lines += ["freq %d" % q for q in hashes]
        elif name == "index":
            lines.append("index %d %d" % (r.choice([h, r.randrange(2**64)]), r.randrange(4)))
        elif name == "len":
            lines.append("len")
        else:
            lines.append("ensure %d" % r.choice([0, 1, 2, 4, 5, 8, 9, 16, 33, 100, 128, 129, 300, 5000]))
    if r.random() < 0.03:
        lines += ["inc %d %d" % (r.choice(hashes), r.choice([65535, 65534, 5000]))]
    lines += ["freq %d" % q for q in hashes] + ["len"]
    return lines


def with_lives(r, lines):
    """Returns a script of `unsync` in which some inserts have a time to live of their own, rarely if the cache has none."""
    is_timed = " live " in lines[0]
    share = r.choice([0, 0.1, 0.5] if is_timed else [0] * 19 + [0.1])
    top = r.choice([5, 15, 45])

    def with_live(line):
        if line.split(" ")[1] != "insert" or r.random() >= share:
            return line
        return line + " live " + (duration_of(r) if r.random() < 0.3 else "%dns" % r.randint(0, top))
    return lines[:1] + [with_live(line) for line in lines[1:]]


GEN = {"unsync": gen_unsync, "core": gen_core, "recorded": gen_recorded, "sync": gen_sync, "sketch": gen_sketch}

# ---------------------------------------------------------------- malformed scripts

BYTES = [b" ", b"\n", b"\r", b"\t", b"\0", b"\xff", b"\xc3\xa9", b"-", b"+", b"_", b".", b"0", b"1", b"9", b"a", b"Z", b"/", b":",
         b"@", b"[", b"`", b"{", b"  ", b"\n\n"]
NUMBERS = ["00", "01", "007", "+1", "-1", "1.0", "0x1", "1_0", "", "18446744073709551615", "18446744073709551616", "18446744073709551617",
           "18446744073709551620", "28446744073709551615", "99999999999999999999", "100000000000000000000", "4294967295", "4294967296", "65535",
           "65536", "4", "3", "0000000000000000000000", "9" * 40, "1" * 300, "1e3", "\u0661"]
WORDS = ["max", "live", "idle", "weighed", "adaptive", "tickets", "max 3", "live 5ns", "idle 5ns", "tickets 3", "unsync", "core", "recorded", "sketch",
         "sync", "insert", "get", "INSERT", "Get", "fetch", "REMOVE", "remove", "count", "x" * 64, "x" * 65, "x" * 63 + "_", "a_b", "a.b", "-", "--", ""]
DURATIONS = ["5", "5ms", "s", "ns", "5sn", "5nss", "5us", "05ns", "00s", "18446744073709551615s", "18446744073709551616s",
             "18446744073709551615ns", "18446744073709551616ns", "5NS", "5S", "+5s", "-5s", "5n", "ns5", "5ns5", "0ns", "5sns", "5 s", "5 ns"]
FIRSTS = ["", "sync", "sync max 3", "sync tickets 3", "sync max 3 weighed tickets 3", "unsync max", "unsync max 3 max 3", "core weighed weighed", "core tickets 3 weighed", "unsync tickets 3",
          "recorded idle 3ns live 3ns", "recorded weighed max 3", "sketch", "sketch 4294967296", "sketch 3 3", "sketch max 3", "core tickets",
          "core live 3ns max 3", "core idle 3ns idle 3ns", "recorded live 3ns live 4ns", "unsync weighed 3", "unsync  max 3", " unsync", "unsync ",
          "Unsync", "unsynced", "core max 18446744073709551616", "core max 03", "recorded tickets 18446744073709551616", "unsync live 5", "max 3",
          "core max 3 live 3ns idle 3ns weighed tickets 3 ", "cores", "unsync max 3 5", "recorded tickets 3 tickets 3",
          "unsync adaptive", "unsync max 3 live 5s idle 5s weighed adaptive", "unsync max 100 adaptive", "unsync adaptive weighed", "unsync adaptive max 3",
          "unsync adaptive adaptive", "unsync adaptive 3", "unsync Adaptive", "unsync adapt", "unsync weighed adaptive tickets 3", "adaptive", "sync adaptive",
          "sync max 3 weighed adaptive", "recorded adaptive", "recorded adaptive tickets 3", "core adaptive", "core max 3 adaptive", "sketch adaptive",
          "sketch 3 adaptive"]
OTHERS = ["0 get 0", "0 get 1 0", "0 insert 0 a", "0 insert 1 0 a", "0 insert 0 a 1", "0 insert 1 0 a 1", "0 drop-if a", "0 iter", "0 policy",
          "0 sync", "0 push 1", "0 forget 1", "0 begin", "0 turn", "0 rest", "inc 0 1", "freq 0", "len", "ensure 3", "index 0 0", "0 len",
          "0 modify 0 a", "0 modify 0", "0 modify 0 a 1", "0 modify 0 a live 5ns", "0 modify 1 0 a", "0 expire", "0 expire 1", "expire",
          "0 has 0", "0 has 1 0", "0 invalidate 0", "0 invalidate 1 0", "0 remove 0", "0 remove 1 0", "0 remove", "0 clear", "clear", "0 count", "count", "0 weight", "0", "0 ", "",
          " ", "0 push", "0 turn 1", "0 clear 1", "0 count 0", "0 take 0", "index 0 4", "inc 0 65536", "inc 0", "len 0", "0 get", "0 insert 0",
          "0 policy 1", "0 iter 0", "0 drop-if", "0 drop-if a b", "insert 0 a", "get 0", "18446744073709551616 clear", "00 clear",
          "0 get 18446744073709551616", "0 push 4294967296", "0 push 4294967295", "0 insert 4294967296 0 a", "0 insert 0 a 4294967296",
          "0 insert 0 a live 5ns", "0 insert 0 a 1 live 5ns", "0 insert 1 0 a live 5ns", "0 insert 1 0 a 1 live 5ns", "0 insert 0 live live 5ns",
          "0 insert 0 a live", "0 insert 0 a live 5", "0 insert 0 a live 5ns 1", "0 insert 0 a live 5ns live 5ns", "0 insert 0 live 5ns",
          "0 insert 0 a idle 5ns", "0 insert 0 a LIVE 5ns", "0 insert 0 a live 18446744073709551615s", "0 insert 0 a live 18446744073709551616ns",
          "0 get 0 live 5ns"]


def mutate(r, lines):
    """Returns the bytes of a script with one to three changes, which may turn out to be no faults."""
    lines = list(lines)
    if r.random() < 0.5:
        lines = lines[:r.randint(1, 30)]
    joined = "\n"
    for _ in range(r.choice([1, 1, 1, 2, 3])):
        x = r.randrange(16)
        i = 0 if r.random() < 0.15 else r.randrange(len(lines))
        words = lines[i].split(" ")
        j = r.randrange(len(words))
        if x == 0:
            del words[j]
            lines[i] = " ".join(words)
        elif x == 1:
            words.insert(r.randint(0, len(words)), r.choice(WORDS + NUMBERS))
            lines[i] = " ".join(words)
        elif x == 2:
            lines[i] = r.choice([" " + lines[i], lines[i] + " ", lines[i].replace(" ", "  ", 1), lines[i].replace(" ", "\t", 1), lines[i] + "\r"])
        elif x in (3, 4):
            digits = [q for q, word in enumerate(words) if word.isdigit()]
            if digits:
                words[r.choice(digits)] = r.choice(NUMBERS)
                lines[i] = " ".join(words)
        elif x == 5:
            words[j] = r.choice(WORDS)
            lines[i] = " ".join(words)
        elif x == 6:
            lines[0] = r.choice(FIRSTS)
        elif x == 7:
            i = r.choice([0] + [q for q, line in enumerate(lines) if q > 0 and " live " in line][:1])
            words = lines[i].split(" ")
            for q, word in enumerate(words):
                if word in ("live", "idle") and q + 1 < len(words):
                    words[q + 1] = r.choice(DURATIONS)
            lines[i] = " ".join(words)
        elif x == 8:
            words = lines[0].split(" ")
            rest = words[1:]
            r.shuffle(rest)
            lines[0] = " ".join(words[:1] + rest)
        elif x in (9, 10):
            lines.insert(r.randint(1, len(lines)), r.choice(OTHERS))
        elif x == 11:
            lines.insert(r.randint(0, len(lines)), "")
        elif x == 12:
            lines[i] = lines[i] + " " + str(r.randint(0, 5))
        elif x == 13:
            words[j], words[-1] = words[-1], words[j]
            lines[i] = " ".join(words)
        elif x == 14:
            joined = r.choice(["\n", "\r\n"])
        else:
            pass
    data = (joined.join(lines) + joined).encode()
    x = r.random()
    if x < 0.12:
        data = data[:-1]
    elif x < 0.16:
        data = data[:r.randint(0, len(data))]
    elif x < 0.2:
        data = data + r.choice([b"\n", b" ", b"x", b"\0", b"0 clear", b"\r"])
    elif x < 0.4 and data:
        at = r.randrange(len(data))
        y = r.randrange(3)
        piece = r.choice(BYTES) if r.random() < 0.8 else bytes([r.randrange(256)])
        if y == 0:
            data = data[:at] + piece + data[at + 1:]
        elif y == 1:
            data = data[:at] + piece + data[at:]
        else:
            data = data[:at] + data[at + 1:]
    elif x < 0.405:
        data = r.choice([b"", b"\n", b" \n", b"\n\n", b"unsync", b"sync\n", b"core\n", b"recorded\n", b"sketch 0\n", b"unsync\n"])
    return data


def make(mode, seed, i, malformed):
    r = random.Random("%s/%d/%d" % (mode, seed, i))
    lines = GEN[mode](r)
    if mode == "unsync":
        lines = with_lives(random.Random("lives/%d/%d" % (seed, i)), lines)
    if r.random() < 0.125 or malformed:
        return mutate(r, lines)
    return "".join(line + "\n" for line in lines).encode()


# ---------------------------------------------------------------- comparing

PROGRAM = None


def setup(program):
    global PROGRAM
    PROGRAM = program


def answer(program, data):
    done = subprocess.run([program], input=data, stdout=subprocess.PIPE, stderr=subprocess.PIPE, timeout=120)
    return done.stdout, done.returncode, done.stderr


def is_said(out, status, err):
    """Returns True if standard error has what it should: after a bad line its number and a reason, else nothing."""
    if status != 2:
        return err == b""
    number = out.removeprefix(b"bad line ").strip()
    return re.fullmatch(rb"line " + number + rb": [a-z][^\n]+\n", err) is not None


def one(job):
    mode, seed, i, malformed = job
    data = make(mode, seed, i, malformed)
    model.SEEN.clear()
    try:
        want = model.reply_text(data)
    except model.Skip:
        return mode, "skipped", None, Counter()
    seen = Counter({k: 1 for k in model.SEEN})
    seen["status %d" % want[1]] += 1
    seen["lines"] += data.count(b"\n")
    if PROGRAM is None:
        return mode, "made", None, seen
    try:
        out, status, err = answer(PROGRAM, data)
    except subprocess.TimeoutExpired:
        out, status, err = b"", "timeout", b""
    if (out, status) == want and is_said(out, status, err):
        return mode, "same", None, seen
    name = os.path.join(HERE, "diff-%s-%d-%d.txt" % (mode, seed, i))
    got_lines, want_lines = out.split(b"\n"), want[0].split(b"\n")
    at = next((q for q, (a, b) in enumerate(zip(got_lines, want_lines)) if a != b), min(len(got_lines), len(want_lines)))
    with open(name, "wb") as f:
        f.write(data)
        f.write(b"\n==== first reply that differs: line %d\n==== model, status %d\n" % (at + 1, want[1]) + want[0])
        f.write(b"\n==== program, status %s\n" % str(status).encode() + out + b"\n==== its standard error\n" + err)
    with open(name[:-4] + ".script", "wb") as f:
        f.write(data)
    return mode, "differs", name, seen


def main():
    p = argparse.ArgumentParser(description=__doc__, formatter_class=argparse.RawDescriptionHelpFormatter)
    p.add_argument("--program")
    p.add_argument("--seed", type=int, default=1)
    p.add_argument("--count", type=int, default=100)
    p.add_argument("--jobs", type=int, default=os.cpu_count())
    p.add_argument("--mode", default="all", choices=("all",) + MODES)
    p.add_argument("--malformed", action="store_true", help="put faults into all scripts, not only into one in eight")
    a = p.parse_args()
    modes = MODES if a.mode == "all" else (a.mode,)
    jobs = [(m, a.seed, i, a.malformed) for i in range(a.count) for m in modes]
    start = time.time()
    results, seen = Counter(), Counter()
    with multiprocessing.Pool(a.jobs, setup, (a.program and os.path.abspath(a.program),)) as pool:
        for q, (mode, what, name, s) in enumerate(pool.imap_unordered(one, jobs, 8)):
            results[mode, what] += 1
            for k, v in s.items():
                seen["%s: %s" % (mode, k)] += v
            if name:
                print("differs:", name, flush=True)
            if q % 1000 == 999:
                print("... %d in %.0f s" % (q + 1, time.time() - start), flush=True)
    for (mode, what), n in sorted(results.items()):
        print("%s %s: %d" % (mode, what, n))
    same, differ = (sum(n for (_, what), n in results.items() if what == kind) for kind in ("same", "differs"))
    print("compared:", same + differ)
    print("events seen:")
    for k, v in sorted(seen.items()):
        print("  %s: %d" % (k, v))
    return 1 if differ or a.program and not same else 0


if __name__ == "__main__":
    sys.exit(main())
