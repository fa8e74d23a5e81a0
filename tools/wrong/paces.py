"""Wrong rules of paces: how a task's pages are counted, and where it rests between them."""
from __future__ import annotations

from .order import changed
from .rule import REPLAY, WORKS, Rule

CUT = """\
        pace, number = self.paces.get(task), 0
        for action in self.actions.get(task, []):
            if pace is None or isinstance(action, RestAction):
                yield action
                continue
            done = 0
            while done < action.pages:
                if number and number % pace.pages == 0:
                    yield RestAction(pace.ticks)
                many = min(action.pages - done, pace.pages - number % pace.pages)
                yield WriteAction(action.inode, action.first + done, many)
                done, number = done + many, number + many
"""

OF_PACES = (
    Rule("no task has a pace", WORKS, "pace, number = self.paces.get(task), 0\n", "pace, number = None, 0\n"),
    Rule("all tasks have one pace", WORKS, "self.paces.get(task), 0\n", "next(iter(self.paces.values()), None), 0\n"),
    Rule("a pace is counted over the tasks of a CPU", WORKS,
         *changed(CUT, ("pace, number = self.paces.get(task), 0", "pace, numbers, cpu = self.paces.get(task), self.__dict__.setdefault('numbers', {}), "
                        "self.tasks[task]"),
                  ("            done = 0\n", "            done, numbers[cpu] = 0, numbers.get(cpu, 0)\n"),
                  ("                if number and", "                number = numbers[cpu]\n                if number and"),
                  ("done, number = done + many, number + many", "done, numbers[cpu] = done + many, numbers[cpu] + many"))),
    Rule("a pace is counted anew at each write line", WORKS, *changed(CUT, ("            done = 0\n", "            done = number = 0\n"))),
    Rule("a pace is counted anew after each rest line", WORKS,
         *changed(CUT, ("                continue\n", "                number = 0\n                continue\n"))),
    Rule("a pace is counted for each inode", WORKS,
         *changed(CUT, ("self.paces.get(task), 0\n", "self.paces.get(task), 0\n        counts: dict[int, int] = {}\n"),
                  ("            done = 0\n", "            done, number = 0, counts.get(action.inode, 0)\n"),
                  ("done, number = done + many, number + many", "done, number = done + many, number + many\n                counts[action.inode] = number"))),
    Rule("a pace has a rest before a task's first page", WORKS, "if number and number % pace.pages == 0:", "if number % pace.pages == 0:"),
    Rule("a pace has a rest after a task's last page", WORKS,
         *changed(CUT, ("number + many\n", "number + many\n        if pace and number and number % pace.pages == 0:\n"
                        "            yield RestAction(pace.ticks)\n"))),
    Rule("a pace has a rest at the end of a write line alone", WORKS,
         *changed(CUT, ("if number and number % pace.pages == 0:", "if number and not done and number % pace.pages == 0:"))),
    Rule("a pace has a rest at each write line's first page", WORKS,
         *changed(CUT, ("if number and number % pace.pages == 0:", "if number and (not done or number % pace.pages == 0):"))),
    Rule("a pace rests before a rest line of the same place", WORKS,
         *changed(CUT, ("            if pace is None or isinstance(action, RestAction):\n",
                        "            if pace is None or isinstance(action, RestAction):\n"
                        "                if pace and number and number % pace.pages == 0 and not rested:\n"
                        "                    yield RestAction(pace.ticks)\n                    rested = True\n"),
                  ("            done = 0\n", "            done = 0\n"),
                  ("pace, number = self.paces.get(task), 0", "pace, number, rested = self.paces.get(task), 0, False"),
                  ("number % pace.pages == 0:\n", "number % pace.pages == 0 and not rested:\n"),
                  ("                many =", "                rested = False\n                many ="))),
    Rule("a pace counts a rest line's ticks as its own", WORKS,
         *changed(CUT, ("pace, number = self.paces.get(task), 0", "pace, number, rested = self.paces.get(task), 0, 0"),
                  ("                yield action\n", "                yield action\n                rested += action.ticks if isinstance(action, RestAction) else 0\n"),
                  ("                    yield RestAction(pace.ticks)\n", "                    yield RestAction(max(pace.ticks - rested, 1))\n"),
                  ("                many =", "                rested = 0\n                many ="))),
    Rule("a task rests before its check that is due", REPLAY,
         "        if task.writer and task.writer.due:\n            yield from self.check",
         "        if task.writer and task.writer.due and not isinstance(task.works.next, int):\n            yield from self.check"),
    Rule("a pace's rest is in tenths of ticks", WORKS, "yield RestAction(pace.ticks)", "yield RestAction(max(pace.ticks // 10, 1))"),
)
