"""Wrong rules of the order of a replay: who takes the next turn, in which order its steps come, when the clock moves, and how a run ends.

Those of `WITHOUT_EFFECT` change no journal at all; beside each stands why.
"""
from __future__ import annotations

from .rule import REPLAY, Rule


def changed(text: str, *places: tuple[str, str]) -> tuple[str, str]:
    """A text of the program, and what becomes of it where each of these places of it is changed."""
    new = text
    for before, after in places:
        if new.count(before) != 1:
            raise ValueError(f"{before!r} stands {new.count(before)} times")
        new = new.replace(before, after)
    return text, new


def exchanged(first: str, second: str) -> tuple[str, str]:
    """Two texts of the program that stand one after the other, and both the other way round."""
    return first + second, second + first


# ---- texts of the program that more than one rule changes, or that are long

LOADS = """\
        loads = [(0, (yield from self.load(cpu, 0)))]
        if group:
            loads.append((group, (yield from self.load(cpu, group))))
"""
COUNT = "        count = yield from self.load_context(cpu, context)\n"
CHECK = LOADS + COUNT + """\
        reads, lines = zip(*[self.read(context, domain, *load) for domain, load in loads])
        at = self.contexts[context]
        estimate = at.estimate
        at.greatest_limit = max(at.greatest_limit, *(it.context_limit for it in reads))
        verdict = task.writers[context].check(self.clock,"""

OLD_ESTIMATES = """\
        old = [
            number
            for number, at in enumerate(self.contexts)
            if it.is_first and at.device is it.device and at.estimate.at + AGE <= began
        ]
        for context in old:
            _, count = yield from self.load_context(cpu, context)
            at, dirty = self.contexts[context], max(count, 0)
            read, _ = self.read(context, 0, *global_load)
            ratio = position(*read, dirty, at.estimate.average).ratio
            at.estimate.update(began, at.written, at.written + dirty, ratio, read.dirty < setpoint_of(read.limits))
            cpu.log.append(estimate_line(context, at.estimate))
"""
NOTICED = "        self.notice(cpu, it, began)\n"
LOADED = """\
        for domain in range(len(self.domains)):
            held, count = yield from self.load(cpu, domain)
            is_over |= max(count[1], 0) > held[1].background
            if domain == 0:
                it.hard, global_load = held[1].hard, (held, count)
"""
WEIGHING = """\
        if it.device.is_strict:
            is_over |= yield from self.weigh(cpu, it.device)
"""

UNMARKED = "        yield\n        inode.marked = False\n"
CHUNK = """\
        average = self.contexts[inode.context].estimate.average
        quota = quota_of(average, it.hard, it.device.chunk)
"""

HANDED_OVER = """\
        if it.passed < inode.pages or it.noted:
            yield
            self.mark(cpu, inode)
        pages = len(it.batch)
        if not pages:
            self.rest(it, self.clock + FLUSHER_REST if it.noted else 0, it.noted)
            return
        until = min(self.clock + flight_of(pages, it.device.rate), LAST_MOMENT)
        cpu.log.append(f"batch {it.number} {pages} {self.clock} {until}")
"""

COMPLETED = '        self.step(cpu.number, "complete")\n'
LANDED = """\
        yield from self.settle(cpu, context, -1)
        if it.batch:
            return
        at = self.contexts[context]
        at.written += it.flown
        for domain in sorted({0, at.group}):
            whole = self.domains[domain].events
            _, num, den = fraction(at.parts[domain], whole)
            if may_add(num, den, at.device.most):
                at.parts[domain].events += it.flown
                whole.events += it.flown
                cpu.log.append(f"share {domain} {context} {it.flown}")
"""

SETTLED = "            yield from self.settle(cpu, inode.context, 1)\n"
MARKED = "            yield\n            self.mark(cpu, inode)\n"
COUNTERS_OF = '[f"c{context}", "d0"] + ([f"d{group}"] if group else [])'
FOLDED = """\
                yield
                counter.version += 1
                counter.count += own
                cpu.log.append(f"fold {name} {counter.version} {own}")
                self.step(cpu.number, "fold")
"""
CLEARED = """\
                yield
                cpu.own[name] = 0
                self.step(cpu.number, "clear")
"""
DIRTIED = """\
            task.writer.page(cpu, self.ratelimit_pages)
        self.step(cpu.number, "dirty")
        if fresh:
            yield from self.settle(cpu, inode.context, 1)
"""

PEAK = """\
            yield
            it.peak = max(it.peak, hard)
            self.step("timer", "peak")
"""
UNSEALED = """\
            yield
            it.sequence += 1
            self.step("timer", "unseal")
"""
SEALED = """\
            it.low = thresh, background
            self.step("timer", "thresh")
            yield
            it.sequence, it.hard,"""
TIMER_TURN = "        for number, it in enumerate(self.domains):\n            yield\n            reading ="
PERIODS = """\
        if self.timer.period <= began:
            k = (began - self.timer.period) // PERIOD + 1
            for number, it in enumerate(self.domains):
                if it.events.new_period(k):
                    self.entries.append(f"period {number} {k}")
            self.timer.period += k * PERIOD
"""

TURN = """\
            yield from self.check(cpu, task)
        elif isinstance(task.works.next, int):
"""
JOBS = """\
            jobs = [tasks] if tasks else []
            jobs += [flusher for flusher in self.flushers if flusher.cpu is it]
"""
ROUND = """\
            for actor in actors:
                moved |= not self.is_over() and self.whole_turn(actor)
"""
STRETCH = """\
                self.make_step(actor)
                made += 1
            elif not self.start(actor):
                return
"""
STOPPED = "            actor.stopped = True\n            self.stopped += 1\n"
STEP = """\
                actor.made += 1
            self.ahead(actor)
"""
MADE = """\
actor.made >= self.halt:
""" + STOPPED + """\
        elif self.is_full():
            self.spent = True
        else:
            if actor is not self.timer:
""" + STEP
NEXT_TURN = "        return self.running if actor is self.timer else not actor.stopped\n"

OF_STEPS = (
    # Of a check.
    Rule("a check loads the cgroup before the global domain", REPLAY, LOADS,
         "        own = [(group, (yield from self.load(cpu, group)))] if group else []\n"
         "        loads = [(0, (yield from self.load(cpu, 0))), *own]\n"),
    Rule("a check counts its context before it loads a domain", REPLAY, *exchanged(LOADS, COUNT)),
    Rule("a check decides by the estimate that stood at its first load", REPLAY,
         *changed(CHECK, ("        loads = [", "        estimate = Thing(**self.contexts[context].estimate.__dict__)\n        loads = ["),
                  ("        estimate = at.estimate\n", ""))),
    Rule("a check takes a context's fraction when it has loaded the domain, not when it has loaded all", REPLAY,
         *changed(CHECK, ("loads = [(0, (yield from self.load(cpu, 0)))]", "loads = [self.read(context, 0, *(yield from self.load(cpu, 0)))]"),
                  ("(group, (yield from self.load(cpu, group)))", "self.read(context, group, *(yield from self.load(cpu, group)))"),
                  ("[self.read(context, domain, *load) for domain, load in loads]", "loads"))),
    Rule("a check decides for the moment of its first load", REPLAY,
         *changed(CHECK, ("        loads = [", "        began = self.clock\n        loads = ["), ("check(self.clock,", "check(began,"))),
    # Of a flusher's test.
    Rule("a test loads the global domain last", REPLAY, "        for domain in range(len(self.domains)):\n            held,",
         "        for domain in reversed(range(len(self.domains))):\n            held,"),
    Rule("a test updates the estimates of the last context first", REPLAY, "for context in old:", "for context in reversed(old):"),
    Rule("an estimate is old by the moment at which a test has loaded all domains", REPLAY,
         "at.estimate.at + AGE <= began", "at.estimate.at + AGE <= self.clock"),
    Rule("a test weighs a strict device's contexts before it updates their estimates", REPLAY, *exchanged(OLD_ESTIMATES, WEIGHING)),
    Rule("a test notices inodes where it begins, not where it has loaded all", REPLAY,
         *exchanged(LOADED + OLD_ESTIMATES + WEIGHING, NOTICED)),
    # Of a scan and a flight.
    Rule("a quota is by the hard limit that is published", REPLAY, "quota_of(average, it.hard,", "quota_of(average, self.domains[0].limits.hard,"),
    Rule("a quota is by the estimate before the inode is unmarked", REPLAY, *exchanged(UNMARKED, CHUNK)),
    Rule("a batch's moment is taken before the mark", REPLAY,
         *changed(HANDED_OVER, ("        if it.passed", "        handed = self.clock\n        if it.passed"),
                  ("min(self.clock + flight", "min(handed + flight"), ("{self.clock} {until}", "{handed} {until}"))),
    Rule("a page whose claim fails is passed over", REPLAY,
         'self.step(cpu.number, "claim")\n                return',
         'self.step(cpu.number, "claim")\n                it.passed += 1\n'
         '                if it.passed == inode.pages and not it.batch:\n                    self.rest(it, 0, False)\n                return'),
    Rule("an inode is scanned in one turn", REPLAY, "len(it.batch) < it.quota:\n            return",
         "len(it.batch) < it.quota:\n            yield from self.scan(cpu, it)\n            return"),
    Rule("a batch lands in one turn", REPLAY, "        if it.batch:\n            return",
         "        if it.batch:\n            yield from self.land(cpu, it)\n            return"),
    Rule("the last page of a batch lands first", REPLAY, "it.batch.pop(0)", "it.batch.pop()"),
    Rule("what a context wrote is counted when its batch is handed over", REPLAY, "update(began, at.written, at.written + dirty,",
         "update(began, *(at.written + more + sum(it.flown for it in self.flushers if it.phase == 'flying' and it.inode.context == context)\n"
         "                for more in (0, dirty)),"),
    Rule("what a context wrote is counted page by page", REPLAY, "update(began, at.written, at.written + dirty,",
         "update(began, *(at.written + more + sum(it.flown - len(it.batch) for it in self.flushers\n"
         "                                        if it.phase == 'flying' and it.inode.context == context) for more in (0, dirty)),"),
    Rule("a share is added before the last page of its batch is counted", REPLAY,
         *changed(LANDED, ("        yield from self.settle(cpu, context, -1)\n        if it.batch:\n",
                           "        if it.batch:\n            yield from self.settle(cpu, context, -1)\n"),
                  ("{it.flown}\")\n", "{it.flown}\")\n        yield from self.settle(cpu, context, -1)\n"))),
    # Of a write.
    Rule("a write marks its inode before it counts the page", REPLAY, *exchanged(SETTLED, MARKED)),
    Rule("a page is counted for the global domain before its context", REPLAY, COUNTERS_OF,
         '["d0", f"c{context}"] + ([f"d{group}"] if group else [])'),
    Rule("a page is counted for the cgroup before the global domain", REPLAY, COUNTERS_OF,
         '[f"c{context}"] + ([f"d{group}"] if group else []) + ["d0"]'),
    Rule("an own number is cleared before it is folded", REPLAY, *exchanged(FOLDED, CLEARED)),
    # Of the timer.
    Rule("the timer judges a cgroup by the global count of that moment", REPLAY,
         "self.limits_of(number, began, reading, global_reading)", 'self.limits_of(number, began, reading, self.reading("d0"))'),
    Rule("the timer opens a sequence before it raises the peak", REPLAY, *exchanged(PEAK, UNSEALED)),
    Rule("periods begin before limits are published", REPLAY, *changed(TIMER_TURN, ("        for number", PERIODS + "        for number"))),
    Rule("periods are counted by the moment at which the timer's turn ends", REPLAY,
         *changed(PERIODS, ("period <= began", "period <= self.clock"), ("(began - ", "(self.clock - "))),
)

OF_NEXT_TURNS = (
    # Who takes the next turn.
    Rule("the timer takes its turn before the CPUs", REPLAY, *changed(ROUND, ("in actors:", "in [self.timer, *self.cpus]:"))),
    Rule("CPUs take turns from the last to the first", REPLAY, *changed(ROUND, ("in actors:", "in [*reversed(self.cpus), self.timer]:"))),
    Rule("a round is over with the first turn that is taken", REPLAY, *changed(ROUND, ("moved |= not", "moved = moved or not"))),
    Rule("a CPU takes turns until it has none", REPLAY,
         *changed(ROUND, ("                moved |= not self.is_over() and self.whole_turn(actor)\n",
                          "                while not self.is_over() and self.whole_turn(actor):\n                    moved = True\n"))),
    Rule("the timer takes a turn only where no CPU can", REPLAY,
         *changed(ROUND, ("moved |= not", "moved |= not (moved and actor is self.timer) and not"))),
    Rule("the rotation begins after the CPU of the last order line", REPLAY, "        while not self.is_over():\n            moved = False\n",
         "        last = [number for number, _ in self.orders if number is not None][-1:] or [len(actors) - 1]\n"
         "        actors = actors[last[0] + 1:] + actors[:last[0] + 1]\n        while not self.is_over():\n            moved = False\n"),
    Rule("a writer that is let through writes in the turn of its check", REPLAY,
         *changed(TURN, ("        elif isinstance", "        if task.writer and (task.writer.due or task.until > self.clock):\n            pass\n"
                         "        elif isinstance"))),
    Rule("a task that has written all pages ends without its last check", REPLAY,
         "if task.works.next is None and not (task.writer and task.writer.due):", "if task.works.next is None:"),
    # From which place tasks, flushers and devices are sought.
    Rule("a CPU's flushers come before its writers", REPLAY,
         *changed(JOBS, ("jobs = [tasks] if tasks else []", "jobs = [flusher for flusher in self.flushers if flusher.cpu is it]"),
                  ("jobs += [flusher for flusher in self.flushers if flusher.cpu is it]", "jobs += [tasks] if tasks else []"))),
    Rule("a CPU's flushers are sought from the last to the first", REPLAY, *changed(JOBS, ("in self.flushers if", "in reversed(self.flushers) if"))),
    Rule("a CPU's tasks are sought from the last to the first", REPLAY,
         "tasks = [task for task in self.tasks if task.cpu is it]", "tasks = [task for task in reversed(self.tasks) if task.cpu is it]"),
    Rule("a job keeps the turn while it can move", REPLAY, "actor.next_job = (place + 1) % len(actor.jobs)", "actor.next_job = place"),
    Rule("a task keeps the turn while it can move", REPLAY, "cpu.next_task = (place + 1) % len(job)", "cpu.next_task = place"),
    Rule("the next job is sought from the place after the last search, not after the job that was found", REPLAY,
         "actor.next_job = (place + 1) % len(actor.jobs)", "actor.next_job = (actor.next_job + 1) % len(actor.jobs)"),
    Rule("the next task is sought from the place after the last search, not after the task that was found", REPLAY,
         "cpu.next_task = (place + 1) % len(job)", "cpu.next_task = (cpu.next_task + 1) % len(job)"),
    Rule("a device's last flusher updates its estimates", REPLAY,
         "next(other for other in self.flushers if", "next(other for other in reversed(self.flushers) if"),
    Rule("the last inode of a queue is taken first", REPLAY, "it.device.queue.pop(0) if", "it.device.queue.pop() if"),
    Rule("an inode that is marked goes to the head of its queue", REPLAY, "device.queue.append(inode)", "device.queue.insert(0, inode)"),
    # What order lines do.
    Rule("an order line goes on to the end of the turn", REPLAY,
         *changed(STRETCH, ("made += 1", "made += actor.turn is None or made + 1 < wanted"))),
    Rule("an order line counts turns", REPLAY, *changed(STRETCH, ("made += 1", "made += actor.turn is None"))),
    Rule("a turn that an order line stops is begun anew", REPLAY, "    def stretch(self, actor, wanted):\n        made = 0\n",
         "    def stretch(self, actor, wanted):\n        made, actor.turn = 0, None\n"),
)

OF_MOMENTS = (
    Rule("a tick line moves the clock to that moment", REPLAY, "self.come(self.clock + wanted)", "self.come(max(self.clock, wanted))"),
    Rule("the clock moves to the timer's moment only where nothing else waits", REPLAY,
         "moments += [self.timer.next] if self.running else []",
         "moments += [self.timer.next] if self.running and max(moments) <= self.clock else []"),
    Rule("the clock moves to the moments of flushers only where no task waits", REPLAY,
         '[it.until for it in self.flushers if it.phase in ("idle", "flying")]',
         '[it.until for it in self.flushers if it.phase in ("idle", "flying") and not any(at > self.clock for at in moments)]'),
    Rule("the clock moves to the greatest of the moments that it waits for", REPLAY,
         "self.come(min(it for it in moments", "self.come(max(it for it in moments"),
    Rule("a task goes on after its moment, not at it", REPLAY, "job[place].until <= self.clock", "job[place].until < self.clock"),
    Rule("a flusher's rest is over after its moment, not at it", REPLAY,
         "return it.until <= self.clock or not self.running", "return it.until < self.clock or not self.running"),
    Rule("a flight is over after its moment, not at it", REPLAY, '"flying" and it.until <= self.clock', '"flying" and it.until < self.clock'),
    Rule("the timer takes its turn after its moment, not at it", REPLAY, "if self.timer.next <= self.clock", "if self.timer.next < self.clock"),
    Rule("the timer's first turn is a tick early", REPLAY, "next=1 + TIMER_REST", "next=TIMER_REST"),
    Rule("the first period begins a tick early", REPLAY, "period=1 + PERIOD", "period=PERIOD"),
    Rule("a rest begins where the task's last rest or pause ended", REPLAY,
         "task.until = self.clock + task.works.next", "task.until = max(task.until, 1) + task.works.next"),
    Rule("flushers keep their rests in the drain", REPLAY, "self.clock or not self.running and not it.kept", "self.clock"),
)

OF_ENDINGS = (
    Rule("a halt line stops the timer too", REPLAY, NEXT_TURN,
         NEXT_TURN.replace("self.running if", "self.running and (self.halt is None or sum(' timer ' in it for it in self.steps) < self.halt) if")),
    Rule("the timer stops with the first CPU that a halt line stops", REPLAY, NEXT_TURN,
         NEXT_TURN.replace("self.running if", "self.running and not self.stopped if")),
    Rule("a CPU that a halt line stops finishes its turn", REPLAY,
         *changed(MADE, (">= self.halt:", ">= self.halt and not actor.__dict__.get('goes_on'):"),
                  ("self.ahead(actor)\n", "self.ahead(actor)\n            actor.goes_on = actor.turn is not None\n"))),
    Rule("tasks of a CPU that is stopped count as ended", REPLAY, STOPPED,
         STOPPED + "            self.running -= sum(not it.ended for it in actor.tasks)\n"),
    Rule("a run is over where one CPU is stopped", REPLAY, "self.stopped == len(self.cpus)", "self.stopped"),
    Rule("a run is halted only where all CPUs are stopped", REPLAY,
         '"halted" if self.stopped else', '"halted" if self.stopped == len(self.cpus) else'),
    Rule("a CPU is stopped where it has made its steps, with none to make", REPLAY, STEP,
         STEP + "            if actor is not self.timer and actor.made == self.halt:\n"
         "                actor.stopped = True\n                self.stopped += 1\n"),
    Rule("a run waits for the flushers of a CPU that is stopped", REPLAY,
         'it.phase == "finished" or it.cpu.stopped for', 'it.phase == "finished" for'),
    Rule("a run is spent where it has made all its steps, with none to make", REPLAY, STEP,
         STEP + "            self.spent |= len(self.steps) == MOST_STEPS\n"),
)

OF_ORDER = (*OF_STEPS, *OF_NEXT_TURNS, *OF_MOMENTS, *OF_ENDINGS)

WITHOUT_EFFECT = (
    # A CPU takes one turn at a time, and what this counts is of the CPU and the task alone: none of its steps comes between.
    Rule("whether a check is due is found when the page is counted", REPLAY,
         *changed(DIRTIED, ("            task.writer.page(cpu, self.ratelimit_pages)\n", ""),
                  ("            yield from self.settle(cpu, inode.context, 1)\n",
                   "            yield from self.settle(cpu, inode.context, 1)\n            task.writer.page(cpu, self.ratelimit_pages)\n"))),
    # The sequence is odd from the unsealing to the publication, and even otherwise: a load that meets either store keeps what its CPU held.
    Rule("thresholds are stored together with the hard limit", REPLAY,
         *changed(SEALED, ("            it.low = thresh, background\n", ""),
                  ("it.sequence, it.hard,", "it.low = thresh, background\n            it.sequence, it.hard,"))),
    # At a moment more where nobody can move the clock moves on.
    Rule("the clock stops at the next period too", REPLAY,
         "moments += [self.timer.next] if self.running else []", "moments += [self.timer.next, self.timer.period] if self.running else []"),
    Rule("the clock stops at the timer's moment in the drain too", REPLAY,
         "moments += [self.timer.next] if self.running else []", "moments += [self.timer.next]"),
    Rule("the clock stops at the moments of tasks that have ended too", REPLAY,
         "moments = [it.until for it in self.tasks if not it.ended]", "moments = [it.until for it in self.tasks]"),
    # A CPU that is stopped makes no move at such a moment, and no other waits for it.
    Rule("the clock doesn't stop at the moments of tasks of a CPU that is stopped", REPLAY,
         "moments = [it.until for it in self.tasks if not it.ended]",
         "moments = [it.until for it in self.tasks if not it.ended and not it.cpu.stopped]"),
)
