#!/usr/bin/env python3
"""An independent program of a replay: it reads a lawful trace and prints the journal that is wanted, or the forecast.

It is written from the laws and from the description of the turns alone, with a turn as a generator that stops before each of its
steps. The formulas are those of tools/laws. Nothing rests on it: worked runs and tools/check-runs take their texts from it, so that
a definition that is changed together with its code is noticed.

usage: tools/replay.py [--as-wbsim] [forecast EVERY] < TRACE
"""
import os
import re
import sys
from bisect import insort

sys.dont_write_bytecode = True
sys.path.insert(0, os.path.dirname(os.path.realpath(__file__)))

from journals.ranges import EVERY  # noqa: E402
from journals.trace import RestAction, Tick  # noqa: E402
from journals.trace_reader import trace_of  # noqa: E402
from journals.whole_text import WholeText, read_whole  # noqa: E402
from laws.age import MOST_NOTICED, due_after  # noqa: E402
from laws.allowance import FIRST_ALLOWANCE, page_done  # noqa: E402
from laws.counters import context_batch, domain_batch, error_of, fixed_bound  # noqa: E402
from laws.decision import DomainRead, Kind, Task  # noqa: E402
from laws.estimate import AGE, Estimate  # noqa: E402
from laws.limits import (  # noqa: E402
    Limits, cgroup_avail, context_thresh, flight_of, follow, page_at, place_after, quota_of, ratelimit_pages, setpoint_of, thresholds)
from laws.position import position  # noqa: E402
from laws.proportions import Half, fraction, may_add  # noqa: E402
from laws.strict import decide_for, is_over_own, strict_bound  # noqa: E402
from program.errors import Cause, Error, Fault, WriteFault  # noqa: E402
from program.parsers import Parser  # noqa: E402
from program.statuses import Status, sentence  # noqa: E402

MOST_STEPS = 1 << 22
LAST_MOMENT = 1 << 63
TIMER_REST, PERIOD, FLUSHER_REST = 200, 3000, 100


class Writer:
    """A task in a context: its numbers, the pages left to it, and whether its check is due."""

    def __init__(self, is_strict, cap):
        self.is_strict, self.task = is_strict, Task(0, FIRST_ALLOWANCE, 0)
        self.left, self.exceeded, self.due = min(FIRST_ALLOWANCE, cap), False, False

    def page(self, cpu, ratelimit_pages):
        """Counts a freshly dirtied page, and finds whether a check is due."""
        self.left -= 1
        dirtied, cpu.since_check, cpu.leaks, self.due = page_done(
            self.task.dirtied, self.task.allowance, self.exceeded, self.left, cpu.since_check, cpu.leaks, ratelimit_pages
        )
        self.task = self.task._replace(dirtied=dirtied)

    def check(self, now, reads, context_dirty, estimate, error, cap):
        """Decides by what was read of each domain: its limits, its pages, and the context's threshold in it."""
        rates = estimate.average, estimate.ratelimit
        verdict = decide_for(self.is_strict, reads, context_dirty, *rates, self.task, now, error, cap)
        self.task, self.left, self.exceeded, self.due = verdict.task, verdict.left, verdict.exceeded, verdict.kind is Kind.WAIT
        return verdict


class Works:
    """What a task is to do, one after another: pages of inodes, and rests in ticks. `next` is what it comes to, or None."""

    def __init__(self, actions, inodes):
        self.rest = self.each(actions, inodes)
        self.take()

    def take(self):
        """What it comes to is done."""
        self.next = next(self.rest, None)

    @staticmethod
    def each(actions, inodes):
        for it in actions:
            if isinstance(it, RestAction):
                yield it.ticks
            else:
                yield from ((inodes[it.inode], page) for page in range(it.first, it.first + it.pages))


# ---- the machine


class Thing:
    """What a trace declares, or what the run keeps of it."""

    def __init__(self, **fields):
        self.__dict__.update(fields)


def estimate_line(context, it):
    """The journal's line of an estimate."""
    rates = f"{it.bandwidth} {it.average} {it.ratelimit} {it.balanced}"
    return f"est {context} {it.version} {rates} {it.written} {it.dirtied} {it.at}"


class Machine:
    """The machine of a trace, and what has become of it so far."""

    def __init__(self, text):
        """Of the text of a trace. Raises `Fault` where it is none."""
        self.trace = trace = trace_of(WholeText("standard input", text.encode("latin-1")))
        self.settings, self.cap, self.halt, self.avail = trace.settings, trace.cap, trace.halt, trace.avail
        self.cpus = [Thing() for _ in range(trace.cpus)]
        self.devices = [Thing(rate=it.rate, least=it.least, most=it.greatest, is_strict=it.is_strict, chunk=it.chunk,
                              is_cyclic=it.is_cyclic, queue=[]) for it in trace.devices]
        self.domains = [Thing(group=None)] + [Thing(group=(it.file_pages, it.headroom)) for it in trace.cgroups]
        self.contexts = [Thing(device=self.devices[it.device], group=it.domain, expire=it.expire, first=it.estimate)
                         for it in trace.contexts]
        self.inodes = [Thing(number=number, context=it.context, first=it.first, pages=it.pages, marked=False)
                       for number, it in enumerate(trace.inodes)]
        self.tasks = [Thing(number=number, cpu=self.cpus[cpu], works=Works(trace.works(number), self.inodes), contexts=set(), until=0,
                            ended=False) for number, cpu in enumerate(trace.tasks)]
        self.flushers = [Thing(number=number, device=self.devices[it.device], cpu=self.cpus[it.cpu], is_ageing=trace.is_ageing(it.device))
                         for number, it in enumerate(trace.flushers)]
        for number, context in trace.writers():
            self.tasks[number].contexts.add(context)
        self.orders = [(None, it.ticks) if isinstance(it, Tick) else (len(self.cpus) if it.cpu is None else it.cpu, it.steps)
                       for it in trace.orders]
        self.open()

    def open(self):
        count = len(self.cpus)
        self.error = error_of(count)
        self.clock, self.steps, self.entries = 1, [], []
        for number, it in enumerate(self.domains):
            thresh, background = self.limits_of(number, self.clock, 0, 0)
            it.limits, it.peak, it.events, it.exact = Limits(thresh, background, thresh), thresh, Half(1), 0
            it.sequence, it.hard, it.low = 0, thresh, (thresh, background)
            it.inside = [number in (0, context.group) for context in self.contexts]
            writers = sum(sum(it.inside[context] for context in task.contexts) for task in self.tasks)
            it.base = fixed_bound(count, writers, self.cap, sum(it.inside))
            self.entries.append(f"limits {number} 1 {thresh} {background} {thresh}")
        self.ratelimit_pages = ratelimit_pages(self.domains[0].limits.thresh, count)
        self.counters = {}
        for name in [f"d{it}" for it in range(len(self.domains))] + [f"c{it}" for it in range(len(self.contexts))]:
            self.counters[name] = Thing(version=0, count=0, batch=(domain_batch if name[0] == "d" else context_batch)(count))
        for it in self.contexts:
            it.estimate = Estimate(it.first.bandwidth, it.first.average, it.first.ratelimit) if it.first else Estimate()
            it.written, it.parts = 0, {0: Half(0), it.group: Half(0)}
            it.exact, it.most, it.greatest_limit = 0, 0, 0
        self.dirty, self.writeback = set(), set()
        self.fresh = self.done = 0
        for number, it in enumerate(self.cpus):
            tasks = [task for task in self.tasks if task.cpu is it]
            jobs = [tasks] if tasks else []
            jobs += [flusher for flusher in self.flushers if flusher.cpu is it]
            it.__dict__.update(number=number, log=[], own={}, tasks=tasks, jobs=jobs, next_job=0, next_task=0, turn=None)
            it.__dict__.update(leaks=0, since_check=0, made=0, stopped=False)
            it.held = [(0, domain.limits) for domain in self.domains]
        for it in self.flushers:
            it.phase, it.until, it.kept, it.batch, it.hard = "idle", 0, False, [], self.domains[0].limits.hard
            it.waiting = []
            it.places = dict.fromkeys(range(len(self.inodes)), 0)
            it.is_first = next(other for other in self.flushers if other.device is it.device) is it
        for it in self.tasks:
            it.writers = {context: Writer(self.contexts[context].device.is_strict, self.cap) for context in it.contexts}
            it.writer, it.context, it.ended = None, None, it.works.next is None
        self.running = sum(not it.ended for it in self.tasks)
        self.timer = Thing(next=1 + TIMER_REST, period=1 + PERIOD, turn=None)
        self.stopped, self.spent = 0, False

    def limits_of(self, domain, moment, reading, global_reading):
        avail = [pages for tick, pages in self.avail if tick <= moment][-1]
        group = self.domains[domain].group
        if group is None:
            return thresholds(self.settings, avail)
        return thresholds(self.settings, cgroup_avail(*group, reading, avail, global_reading), avail)

    # ---- steps

    def step(self, who, kind):
        counts = " ".join([f"{it.exact} {it.peak + it.base}" for it in self.domains])
        self.steps.append(f"step {len(self.steps) + 1} {who} {kind} {counts}")

    def change(self, context, by):
        for it in self.domains:
            it.exact += by * it.inside[context]
        at = self.contexts[context]
        at.exact += by
        at.most = max(at.most, at.exact)

    def reading(self, name):
        return max(self.counters[name].count, 0)

    def settle(self, cpu, context, change):
        group = self.contexts[context].group
        for name in [f"c{context}", "d0"] + ([f"d{group}"] if group else []):
            counter = self.counters[name]
            yield
            cpu.own[name] = own = cpu.own.get(name, 0) + change
            self.step(cpu.number, "add")
            if abs(own) >= counter.batch:
                yield
                counter.version += 1
                counter.count += own
                cpu.log.append(f"fold {name} {counter.version} {own}")
                self.step(cpu.number, "fold")
                yield
                cpu.own[name] = 0
                self.step(cpu.number, "clear")

    def mark(self, cpu, inode):
        if not inode.marked:
            inode.marked = True
            self.contexts[inode.context].device.queue.append(inode)
        self.step(cpu.number, "mark")

    # ---- turns: each yield stands before a step

    def load(self, cpu, domain):
        """Loads the limits of a domain, which its CPU holds from then on with their version, unless the timer came between; then its count."""
        it = self.domains[domain]
        yield
        found = it.sequence
        self.step(cpu.number, "first")
        yield
        low = it.low
        self.step(cpu.number, "middle")
        yield
        if it.sequence == found and found % 2 == 0:
            cpu.held[domain] = found // 2, Limits(*low, it.hard)
        self.step(cpu.number, "limits")
        yield
        counter = self.counters[f"d{domain}"]
        self.step(cpu.number, "count")
        return cpu.held[domain], (counter.version, counter.count)

    def load_context(self, cpu, context):
        yield
        counter = self.counters[f"c{context}"]
        self.step(cpu.number, "count")
        return counter.version, counter.count

    def read(self, context, domain, held, count):
        """What the law reads of a domain, and the line that tells it."""
        version, limits = held
        at = self.contexts[context]
        share = fraction(at.parts[domain], self.domains[domain].events)
        line = " ".join(str(it) for it in ("read", domain, version, *limits, *count, *share))
        all_least = sum(it.least for it in self.devices)
        context_limit = context_thresh(limits.thresh, *share[1:], at.device.least, at.device.most, all_least)
        return DomainRead(limits, max(count[1], 0), context_limit), line

    def check(self, cpu, task):
        context = task.context
        group = self.contexts[context].group
        loads = [(0, (yield from self.load(cpu, 0)))]
        if group:
            loads.append((group, (yield from self.load(cpu, group))))
        count = yield from self.load_context(cpu, context)
        reads, lines = zip(*[self.read(context, domain, *load) for domain, load in loads])
        at = self.contexts[context]
        estimate = at.estimate
        at.greatest_limit = max(at.greatest_limit, *(it.context_limit for it in reads))
        verdict = task.writers[context].check(self.clock, reads, max(count[1], 0), estimate, self.error, self.cap)
        cpu.log += [*lines, f"count {context} {count[0]} {count[1]}"]
        cpu.log.append(
            f"check {task.number} {context} {self.clock} {estimate.version} {verdict.kind.value} {verdict.pause} {verdict.left} "
            f"{verdict.task.dirtied} {verdict.task.allowance} {verdict.task.ended}"
        )
        if verdict.pause:
            task.until = self.clock + verdict.pause

    def write(self, cpu, task):
        inode, page = task.works.next
        yield
        task.works.take()
        fresh = page not in self.dirty
        cpu.log.append(f"write {task.number} {page} {'fresh' if fresh else 'already'}")
        if fresh:
            self.dirty.add(page)
            self.fresh += 1
            self.change(inode.context, 1)
            task.context, task.writer = inode.context, task.writers[inode.context]
            task.writer.page(cpu, self.ratelimit_pages)
        self.step(cpu.number, "dirty")
        if fresh:
            yield from self.settle(cpu, inode.context, 1)
            yield
            self.mark(cpu, inode)

    def task_turn(self, cpu, task):
        if task.writer and task.writer.due:
            yield from self.check(cpu, task)
        elif isinstance(task.works.next, int):
            task.until = self.clock + task.works.next
            task.works.take()
        elif task.works.next:
            yield from self.write(cpu, task)
        if task.works.next is None and not (task.writer and task.writer.due):
            task.ended = True
            self.running -= 1
            cpu.leaks += sum(it.task.dirtied for it in task.writers.values())

    def rest(self, it, until, kept=False):
        it.phase, it.until, it.kept = "idle", until, kept

    def test(self, cpu, it):
        began, is_over = self.clock, False
        for domain in range(len(self.domains)):
            held, count = yield from self.load(cpu, domain)
            is_over |= max(count[1], 0) > held[1].background
            if domain == 0:
                it.hard, global_load = held[1].hard, (held, count)
        old = [
            number
            for number, at in enumerate(self.contexts)
            if it.is_first and at.device is it.device and at.estimate.at + AGE <= began
        ]
        for context in old:
            _, count = yield from self.load_context(cpu, context)
            at, dirty = self.contexts[context], max(count, 0)
            read, _ = self.read(context, 0, *global_load)
            ratio = position(*read, dirty, at.estimate.average).ratio
            at.estimate.update(began, at.written, at.written + dirty, ratio, read.dirty < setpoint_of(read.limits))
            cpu.log.append(estimate_line(context, at.estimate))
        if it.device.is_strict:
            is_over |= yield from self.weigh(cpu, it.device)
        self.notice(cpu, it, began)
        inode = self.due(cpu, it, began)
        if inode is None and is_over:
            inode = self.first(cpu, it) if it.is_ageing else self.queued(it)
        if inode:
            yield from self.take(cpu, it, inode)
        else:
            self.rest(it, began + FLUSHER_REST)

    def weigh(self, cpu, device):
        """Whether a context of a strict device has more than its part of a background threshold, by the limits that its CPU holds."""
        is_over = False
        for context, at in enumerate(self.contexts):
            if at.device is device:
                load = yield from self.load_context(cpu, context)
                for domain in {0, at.group}:
                    read, _ = self.read(context, domain, cpu.held[domain], load)
                    is_over |= is_over_own(max(load[1], 0), read)
        return is_over

    def notice(self, cpu, it, now):
        """A flusher of an ageing device puts inodes of the queue on its waiting list."""
        for inode in it.device.queue[:MOST_NOTICED] if it.is_ageing else []:
            it.device.queue.remove(inode)
            if all(inode is not other for _, _, other in it.waiting):
                due = due_after(now, self.contexts[inode.context].expire)
                insort(it.waiting, (due, inode.number, inode), key=lambda pair: pair[:2])
                cpu.log.append(f"notice {it.number} {inode.number} {now}")

    def due(self, cpu, it, now):
        """The first inode that waits, where it is due."""
        if not it.waiting or it.waiting[0][0] > now:
            return None
        due, number, inode = it.waiting.pop(0)
        cpu.log.append(f"age {it.number} {number} {due} {now}")
        return inode

    def first(self, cpu, it):
        """The first inode of the waiting list, due or not."""
        if not it.waiting:
            return None
        _, number, inode = it.waiting.pop(0)
        cpu.log.append(f"take {it.number} {number}")
        return inode

    def queued(self, it):
        """The first inode of the device's queue."""
        return it.device.queue.pop(0) if it.device.queue else None

    def take(self, cpu, it, inode):
        it.phase = "taken"
        yield
        inode.marked = False
        average = self.contexts[inode.context].estimate.average
        quota = quota_of(average, it.hard, it.device.chunk)
        it.__dict__.update(phase="scanning", inode=inode, start=it.places[inode.number], passed=0, batch=[], quota=quota, noted=False)
        self.step(cpu.number, "unmark")

    def idle(self, cpu, it):
        if self.running:
            yield from self.test(cpu, it)
            return
        inode = self.first(cpu, it) or self.queued(it)
        if inode:
            yield from self.take(cpu, it, inode)
        else:
            it.phase = "finished"

    def word(self, page):
        """The bits of the thirty-two pages that share the page's word."""
        first = page - page % 32
        return [(other in self.dirty, other in self.writeback) for other in range(first, first + 32)]

    def scan(self, cpu, it):
        inode = it.inode
        page = page_at(inode.first, inode.pages, it.start, it.passed)
        yield
        seen = self.word(page)
        is_dirty, is_written = seen[page % 32]
        self.step(cpu.number, "look")
        if is_dirty and not is_written:
            yield
            if self.word(page) != seen:
                self.step(cpu.number, "claim")
                return
            self.dirty.remove(page)
            self.writeback.add(page)
            cpu.log.append(f"claim {it.number} {page}")
            self.step(cpu.number, "claim")
            it.batch.append(page)
        it.noted |= is_dirty and is_written
        it.passed += 1
        if it.passed < inode.pages and len(it.batch) < it.quota:
            return
        if it.device.is_cyclic:
            it.places[inode.number] = place_after(inode.pages, it.start, it.passed)
        if it.passed < inode.pages or it.noted:
            yield
            self.mark(cpu, inode)
        pages = len(it.batch)
        if not pages:
            self.rest(it, self.clock + FLUSHER_REST if it.noted else 0, it.noted)
            return
        until = min(self.clock + flight_of(pages, it.device.rate), LAST_MOMENT)
        cpu.log.append(f"batch {it.number} {pages} {self.clock} {until}")
        it.phase, it.until, it.flown = "flying", until, pages

    def land(self, cpu, it):
        context = it.inode.context
        yield
        page = it.batch.pop(0)
        self.writeback.remove(page)
        cpu.log.append(f"done {it.number} {page}")
        self.done += 1
        self.change(context, -1)
        self.step(cpu.number, "complete")
        yield from self.settle(cpu, context, -1)
        if it.batch:
            return
        at = self.contexts[context]
        at.written += it.flown
        for domain in sorted({0, at.group}):
            whole = self.domains[domain].events
            _, num, den = fraction(at.parts[domain], whole)
            if may_add(num, den, at.device.most):
                at.parts[domain].events += it.flown
                whole.events += it.flown
                cpu.log.append(f"share {domain} {context} {it.flown}")
        self.rest(it, 0)

    def timer_turn(self):
        began = self.clock
        for number, it in enumerate(self.domains):
            yield
            reading = self.reading(f"d{number}")
            if number == 0:
                global_reading = reading
            thresh, background = self.limits_of(number, began, reading, global_reading)
            hard = max(thresh, follow(it.limits.hard, thresh, reading))
            self.step("timer", "count")
            yield
            it.peak = max(it.peak, hard)
            self.step("timer", "peak")
            yield
            it.sequence += 1
            self.step("timer", "unseal")
            yield
            it.low = thresh, background
            self.step("timer", "thresh")
            yield
            it.sequence, it.hard, it.limits = it.sequence + 1, hard, Limits(thresh, background, hard)
            self.entries.append(f"limits {number} {began} {thresh} {background} {hard}")
            self.step("timer", "publish")
        if self.timer.period <= began:
            k = (began - self.timer.period) // PERIOD + 1
            for number, it in enumerate(self.domains):
                if it.events.new_period(k):
                    self.entries.append(f"period {number} {k}")
            self.timer.period += k * PERIOD
        self.timer.next = began + TIMER_REST

    # ---- the order of turns

    def is_ready(self, it):
        if it.phase == "idle":
            return it.until <= self.clock or not self.running and not it.kept
        return it.phase == "scanning" or it.phase == "flying" and it.until <= self.clock

    def begin_job(self, cpu, job):
        """A turn of the job, or None."""
        if job is not cpu.tasks:
            if not self.is_ready(job):
                return None
            return {"idle": self.idle, "scanning": self.scan, "flying": self.land}[job.phase](cpu, job)
        for at in range(len(job)):
            place = (cpu.next_task + at) % len(job)
            if not job[place].ended and job[place].until <= self.clock:
                cpu.next_task = (place + 1) % len(job)
                return self.task_turn(cpu, job[place])
        return None

    def begin(self, actor):
        if actor is self.timer:
            return self.timer_turn() if self.timer.next <= self.clock else None
        for at in range(len(actor.jobs)):
            place = (actor.next_job + at) % len(actor.jobs)
            turn = self.begin_job(actor, actor.jobs[place])
            if turn:
                actor.next_job = (place + 1) % len(actor.jobs)
                return turn
        return None

    def can_move(self, actor):
        return self.running if actor is self.timer else not actor.stopped

    def ahead(self, actor):
        """Goes on to the next step of the actor's turn."""
        if next(actor.turn, "over") == "over":
            actor.turn = None

    def make_step(self, actor):
        """Makes the step that the actor's turn has come to, unless its CPU's halt line stops it or no further one may be made."""
        if actor is not self.timer and self.halt is not None and actor.made >= self.halt:
            actor.stopped = True
            self.stopped += 1
        elif self.is_full():
            self.spent = True
        else:
            if actor is not self.timer:
                actor.made += 1
            self.ahead(actor)

    def is_full(self):
        """Whether no further step may be made."""
        return len(self.steps) == MOST_STEPS

    def start(self, actor):
        """Begins a turn up to its first step, where the actor can begin one."""
        actor.turn = self.begin(actor)
        if actor.turn is None:
            return False
        self.ahead(actor)
        return True

    def stretch(self, actor, wanted):
        made = 0
        while made < wanted and not self.is_over() and self.can_move(actor):
            if actor.turn:
                self.make_step(actor)
                made += 1
            elif not self.start(actor):
                return

    def whole_turn(self, actor):
        if not self.can_move(actor) or not actor.turn and not self.start(actor):
            return False
        while actor.turn and not self.is_over() and self.can_move(actor):
            self.make_step(actor)
        return True

    def is_over(self):
        if self.spent or self.stopped == len(self.cpus):
            return True
        return not self.running and all(it.phase == "finished" or it.cpu.stopped for it in self.flushers)

    def run(self):
        actors = [*self.cpus, self.timer]
        for number, wanted in self.orders:
            if number is None:
                self.come(self.clock + wanted)
            else:
                self.stretch(actors[number], wanted)
        while not self.is_over():
            moved = False
            for actor in actors:
                moved |= not self.is_over() and self.whole_turn(actor)
            if not moved:
                moments = [it.until for it in self.tasks if not it.ended]
                moments += [it.until for it in self.flushers if it.phase in ("idle", "flying")]
                moments += [self.timer.next] if self.running else []
                self.come(min(it for it in moments if it > self.clock))

    def come(self, moment):
        """The clock comes to a later moment."""
        self.clock = moment

    def journal(self):
        yield "timer"
        yield from self.entries
        for it in self.cpus:
            yield f"cpu {it.number}"
            yield from it.log
        if self.steps:
            yield "steps"
            yield from self.steps
        for page in sorted(self.dirty | self.writeback):
            both = page in self.dirty and page in self.writeback
            yield f"left {page} {'both' if both else 'dirty' if page in self.dirty else 'writeback'}"
        yield f"census {len(self.dirty)} {len(self.writeback)}"
        yield f"totals {self.fresh} {self.done}"
        for number, it in enumerate(self.contexts):
            if it.device.is_strict:
                writers = sum(number in task.contexts for task in self.tasks)
                bound = strict_bound(it.greatest_limit, len(self.cpus), writers, self.cap)
                yield f"strict {number} {it.most} {bound}"
        yield self.ending()

    def ending(self):
        """The line of how the run has ended."""
        return "end " + ("spent" if self.spent else "halted" if self.stopped else "done")


NO_MEMORY, SPENT, INPUT_TOO_LONG = 6, 7, 8
"""Statuses of wbsim that no tool here has."""


def words():
    """What was given: whether the program ends as wbsim does, and how many ticks an interval of a forecast has, or None where the journal is
    wanted."""
    parser = Parser(prog="replay.py", usage="tools/replay.py [--as-wbsim] [forecast EVERY] < TRACE", description=__doc__.partition("\n")[0],
                    epilog=sentence())
    parser.add_argument("--as-wbsim", action="store_true", help="ends with the statuses and the sentences of 'wbsim'")
    parser.add_argument("words", nargs="*", metavar="forecast EVERY", help="the run by intervals of EVERY ticks, 1 to 10^9, while it goes on")
    given = parser.parse_args()
    if not given.words:
        return given.as_wbsim, None
    if len(given.words) != 2 or given.words[0] != "forecast" or not is_number(given.words[1], EVERY):
        parser.error(f"other words: {' '.join(given.words)}")
    return given.as_wbsim, int(given.words[1])


def is_number(text, within):
    """Whether a text is a number in a range, spelled as in a trace."""
    return re.fullmatch("0|[1-9][0-9]{0,17}", text) is not None and within.least <= int(text) <= within.greatest


def machine_of(text, every):
    """The machine of a trace, whose journal is wanted or whose forecast."""
    if every is None:
        return Machine(text)
    # The machine of a forecast is a machine of this file.
    from forecasting.machine import Forecast

    return Forecast(text, every, write)


def write(lines):
    """Prints lines, which are there at once."""
    sys.stdout.writelines(line + "\n" for line in lines)
    sys.stdout.flush()


def main():
    """Prints the journal or the forecast of standard input, and answers the status."""
    as_wbsim, every = words()
    machine = None
    try:
        machine = machine_of(read_whole("-").data.decode("latin-1"), every)
        machine.run()
        write(machine.journal())
    except Error as error:
        return ended_as_wbsim(error) if as_wbsim else say(f"replay.py: {error}", error.status)
    except OSError as error:
        # What is left in the buffer can't be written either. Python would complain when it closes standard output.
        os.dup2(os.open(os.devnull, os.O_WRONLY), sys.stdout.fileno())
        if as_wbsim:
            # A forecast ends where its output fails.
            return ended_as_wbsim(WriteFault(str(error)), machine if every is None else None)
        return Status.WRITE_FAULT if isinstance(error, BrokenPipeError) else say(f"replay.py: write fault: {error}", Status.WRITE_FAULT)
    except MemoryError:
        if as_wbsim:
            return say("wbsim: no memory", NO_MEMORY)
        raise
    return ended_as_wbsim(None, machine) if as_wbsim else Status.GOOD


def ended_as_wbsim(error, machine=None):
    """Says what wbsim says, and answers its status, which of a spent replay is its own even where the output failed."""
    if machine and machine.spent:
        return say("wbsim: spent", SPENT)
    if isinstance(error, Fault) and error.cause is Cause.TOO_LONG:
        return say("wbsim: input too long", INPUT_TOO_LONG)
    if isinstance(error, Fault):
        return say(f"wbsim: {error.verdict}", error.status)
    if error:
        return say(f"wbsim: {'read' if error.status is Status.READ_FAULT else 'write'} fault", error.status)
    return Status.GOOD


def say(sentence, status):
    """Says it, and answers the status."""
    print(sentence, file=sys.stderr)
    return status


if __name__ == "__main__":
    sys.exit(main())
