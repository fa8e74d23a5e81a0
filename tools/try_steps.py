#!/usr/bin/env python3
"""An independent program of the steps of a throttle, on a small one: two CPUs, two writers, two contexts, 64 pages.

It tries steps that a plain generator picks, makes each that may be made, and checks after each that the count of each
domain is at most its bound and that every dirty page will be come back to. It prints the numbers that
crates/wbt_grant/specs/Tries.antt states of the same tries.

usage: try_steps.py [TRIES SEED]
"""
import sys
from collections import Counter as Tally

CPUS, CAP, PAGE_STEPS, CONTEXTS, PAGES, WRITERS = 2, 4, 100, 2, 64, 2
DOMAIN_BATCH = max(32, 2 * CPUS)
CONTEXT_BATCH = 8 * (1 + (CPUS.bit_length() - 1))
ERROR = CPUS * CONTEXT_BATCH
FIRST = (8, 4, 8)  # thresh, bg, hard
GREATEST_LIMIT = 2**32 - 1
LAST_SEQUENCE = 2**32 - 2


def home(page):
    return page % 2


inode = home


def group(context):
    return context


def inside(domain, context):
    return domain == 0 or domain == group(context)


class Cpu:
    def __init__(self):
        self.page_steps = 0
        self.last = None  # kind, page, what was found
        self.events = []
        self.debts = {}  # the newest first: counter -> (step that pays it, amount)
        self.held = []
        self.marks = []
        self.rescans = set()
        self.loading = {}  # domain -> the words that were found
        self.held_limits = {}  # domain -> (version, limits)


class Writer:
    def __init__(self, left):
        self.left = left
        self.kept = {}  # domain -> (limits, reading)
        self.context_reading = None


class Throttle:
    def __init__(self):
        self.dirty, self.writeback = set(), set()
        self.folds, self.own = {}, {}
        self.sequence, self.hard, self.thresh = {}, {}, {}  # what the words of limits have, by domain
        self.drafts, self.published = {}, {}  # domain -> limits in hand, limits in order of their versions
        self.peak, self.raised = {}, []
        self.marked = set()
        self.cpus = [Cpu() for _ in range(CPUS)]
        self.writers = [Writer(min(32, CAP)) for _ in range(WRITERS)]

    # what is known at a moment

    def sequence_word(self, domain):
        return self.sequence.get(domain, 0), self.hard.get(domain, FIRST[2])

    def thresh_word(self, domain):
        return self.thresh.get(domain, FIRST[:2])

    def peak_of(self, domain):
        return self.peak.get(domain, FIRST[2])

    def reading(self, counter):
        return max(0, sum(self.folds.get(counter, [])))

    def context_count(self, context):
        return sum((p in self.dirty) + (p in self.writeback) for p in range(PAGES) if home(p) == context)

    def domain_count(self, domain):
        return sum(self.context_count(k) for k in range(CONTEXTS) if inside(domain, k))

    def bound(self, domain):
        writers = sum(inside(domain, w) for w in range(WRITERS))
        contexts = sum(inside(domain, k) for k in range(CONTEXTS))
        return self.peak_of(domain) + CPUS * DOMAIN_BATCH + writers * CAP + 2 * ERROR * contexts

    def lets_through(self, domain, writer):
        w = self.writers[writer]
        limits, reading = w.kept.get(domain, (None, None))
        fits = limits is not None and reading is not None and reading <= limits[2]
        return fits or (w.context_reading is not None and w.context_reading <= ERROR)

    def word(self, page):
        return (page in self.dirty) + 2 * (page in self.writeback)

    def is_ready(self, cpu):
        return not self.cpus[cpu].debts and self.cpus[cpu].page_steps < PAGE_STEPS

    # the steps: each says whether it was made

    def owe(self, cpu, counter, debt):
        rest = {c: d for c, d in self.cpus[cpu].debts.items() if c != counter}
        self.cpus[cpu].debts = {counter: debt, **rest} if debt else rest

    def owe_event(self, cpu, page, amount):
        k = home(page)
        counters = [("context", k), ("domain", 0)] + ([("domain", group(k))] if group(k) else [])
        self.cpus[cpu].debts = {c: ("add", amount) for c in counters}

    def pay(self, kind, cpu, counter):
        debt = self.cpus[cpu].debts.get(counter)
        if debt is None or debt[0] != kind:
            return False
        local = self.own.get((counter, cpu), 0)
        if kind == "add":
            local += debt[1]
            batch = DOMAIN_BATCH if counter[0] == "domain" else CONTEXT_BATCH
            self.own[counter, cpu] = local
            self.owe(cpu, counter, ("fold", 0) if abs(local) == batch else None)
        elif kind == "fold":
            self.folds.setdefault(counter, []).append(local)
            self.owe(cpu, counter, ("clear", 0))
        else:
            self.own[counter, cpu] = 0
            self.owe(cpu, counter, None)
        self.cpus[cpu].last = (kind, None, None)
        return True

    def count(self, writer, counter):
        w, reading = self.writers[writer], self.reading(counter)
        if counter[0] == "domain":
            w.kept[counter[1]] = (w.kept.get(counter[1], (None, None))[0], reading)
        elif counter[1] == writer:
            w.context_reading = reading
        self.cpus[writer].last = ("count", None, None)
        return True

    def load_on(self, writer, domain):
        """The next step of a load: its first, its second or its last, of which each may be made."""
        c = self.cpus[writer]
        found = c.loading.get(domain, ())
        kind = ("first", "middle", "limits")[len(found)]
        c.last = (kind, None, None)
        if kind == "first":
            c.loading[domain] = (self.sequence_word(domain),)
        elif kind == "middle":
            c.loading[domain] = (*found, self.thresh_word(domain))
        else:
            sequence, hard = self.sequence_word(domain)
            if found[0] == (sequence, hard) and sequence % 2 == 0:
                version, limits = sequence // 2, (*found[1], hard)
                assert limits == [FIRST, *self.published.get(domain, [])][version]
                assert version >= c.held_limits.get(domain, (0, FIRST))[0]
                c.held_limits[domain] = (version, limits)
            self.writers[writer].kept[domain] = (c.held_limits.get(domain, (0, FIRST))[1], None)
            del c.loading[domain]
        return kind

    def make_dirty(self, writer, page):
        w, cpu = self.writers[writer], self.cpus[writer]
        if home(page) != writer or w.left == 0 or not self.is_ready(writer):
            return False
        cpu.last = ("dirty", page, self.word(page))
        cpu.page_steps += 1
        if page not in self.dirty:
            self.dirty.add(page)
            cpu.events.append(("dirty", page))
            cpu.marks.append(inode(page))
            self.owe_event(writer, page, 1)
            self.writers[writer] = Writer(w.left - 1)
        return True

    def look(self, cpu, page):
        c, found = self.cpus[cpu], self.word(page)
        if found != 1:
            c.rescans.discard(page)
        if found == 3:
            c.marks.append(inode(page))
        c.last = ("look", page, found)
        return True

    def claim(self, cpu, page):
        c = self.cpus[cpu]
        if c.last != ("look", page, 1):
            return False
        found = self.word(page)
        if found == 1:
            self.dirty.discard(page)
            self.writeback.add(page)
            c.events.append(("claim", page))
            c.held.insert(0, page)
            c.rescans.discard(page)
        c.last = ("claim", page, found)
        return True

    def complete(self, cpu, page):
        c = self.cpus[cpu]
        if page not in c.held or not self.is_ready(cpu):
            return False
        c.last = ("complete", page, self.word(page))
        c.page_steps += 1
        c.held.remove(page)
        self.writeback.discard(page)
        c.events.append(("complete", page))
        self.owe_event(cpu, page, -1)
        return True

    def raise_peak(self, domain, hard):
        self.peak[domain] = max(self.peak_of(domain), hard)
        self.raised.insert(0, (domain, hard))
        return True

    def publish_on(self, domain, limits):
        """The next step of a publication of limits, or of those in hand, and whether it was made."""
        sequence = self.sequence.get(domain, 0)
        if sequence % 2 == 0:
            if sequence >= LAST_SEQUENCE:
                return "unseal", False
            self.sequence[domain] = sequence + 1
            return "unseal", True
        if domain not in self.drafts:
            thresh, bg, hard = limits
            last = next((h for d, h in self.raised if d == domain), None)
            if not bg <= thresh <= hard <= GREATEST_LIMIT or last is None or hard > last:
                return "thresh", False
            self.thresh[domain], self.drafts[domain] = (thresh, bg), limits
            return "thresh", True
        in_hand = self.drafts.pop(domain)
        self.sequence[domain], self.hard[domain] = sequence + 1, in_hand[2]
        self.published.setdefault(domain, []).append(in_hand)
        return "publish", True

    def mark(self, cpu, n):
        c = self.cpus[cpu]
        self.marked.add(n)
        c.marks = [m for m in c.marks if m != n]
        c.rescans = {p for p in c.rescans if inode(p) != n}
        c.last = ("mark", None, None)
        return True

    def unmark(self, cpu, n):
        c = self.cpus[cpu]
        self.marked.discard(n)
        c.rescans |= {p for p in range(PAGES) if inode(p) == n}
        c.last = ("unmark", None, None)
        return True

    def grant(self, writer, pages):
        if not all(self.lets_through(d, writer) for d in {0, group(writer)}):
            return False
        self.writers[writer] = Writer(pages)
        return True

    # what is tried, by a number

    def attempt(self, number):
        i, page, act = number % 2, number // 2 % 32 * 2 + number % 2, number // 64 % 32
        c = self.cpus[i]
        if act < 2:
            if c.last and c.last[0] == "look":
                return "claim", self.claim(i, c.last[1])
            return "look", self.look(i, page)
        if act < 4:
            return "complete", self.complete(i, c.held[0] if c.held else 0)
        if act < 8:
            return self.load_on(i, act // 7), True
        if act < 11:
            return "count", self.count(i, [("domain", 0), ("domain", i), ("context", i)][act - 8])
        if act == 11:
            return "grant", self.grant(i, 4)
        if act == 12:
            return "mark", self.mark(i, i)
        if act == 13:
            return "unmark", self.unmark(i, i)
        if act == 14:
            return "peak", self.raise_peak(i, 8 + page)
        if act < 17:
            return self.publish_on(i, (page // 8, page // 16, 8))
        if c.debts:
            counter, (kind, _) = next(iter(c.debts.items()))
            return kind, self.pay(kind, i, counter)
        return "dirty", self.make_dirty(i, page)

    def check(self):
        for domain in range(CONTEXTS):
            assert self.domain_count(domain) <= self.bound(domain)
        for p in self.dirty:
            assert inode(p) in self.marked or any(inode(p) in c.marks or p in c.rescans for c in self.cpus)


def main():
    tries, seed = (int(w) for w in sys.argv[1:3]) if len(sys.argv) == 3 else (120, 203)
    throttle, made = Throttle(), Tally()
    for _ in range(tries):
        kind, done = throttle.attempt(seed // 65536)
        made[kind] += done
        seed = (seed * 1103515245 + 12345) % 2**31
        throttle.check()
    print("steps", " ".join(f"{kind}={n}" for kind, n in sorted(made.items()) if n))
    print("pages", throttle.domain_count(0), "bound", throttle.bound(0))
    print("events", *(len(c.events) for c in throttle.cpus), "left", *(w.left for w in throttle.writers))


if __name__ == "__main__":
    main()
