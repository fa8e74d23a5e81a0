"""The words of the program, each with its module."""
from __future__ import annotations

from typing import NamedTuple


class Word(NamedTuple):
    """A word: its name, the module that has `add` and `run`, what it does, for the help, and its parts that take a command after `--`."""

    name: str
    module: str
    about: str
    commands: tuple[str, ...] = ()


WORDS = (
    Word("summary", "journals.words.summary", "tables by task, by device and by domain, and the ending"),
    Word("csv", "journals.words.csv", "steps, checks, limits, estimates and folds as tables into a directory"),
    Word("plot", "journals.words.plot", "a picture of each domain: counts and limits, pauses, estimates"),
    Word("report", "report.words.report", "a page to look at in a browser: counts, limits, pauses and causes of a journal or a kernel's text"),
    Word("annotate", "journals.words.annotate", "each line with a sentence of what it says"),
    Word("why", "journals.words.why", "why a trace or a law text is refused: line, column and fault"),
    Word("explain", "laws.words.explain", "the decision of a law text, with every number behind it, one line each"),
    Word("forecast", "forecasting.words.forecast", "a run of any length by intervals: tables by task, domain and context, and a picture"),
    Word("sweep", "search.words.sweep", "one parameter of a trace over values: a replay for each, a table and a picture"),
    Word("study", "study.words.study", "a study, which is a file: traces, parameters over values, repeats; a table with a line a run"),
    Word("plot-study", "study.words.plot_study", "pictures of such a table: lines over one variable, a map over two"),
    Word("nearest", "search.words.nearest", "the interleaving of a trace that comes nearest to a bound"),
    Word("job", "jobs.words.job", "one job of a sweep, a study, a search or judged runs, as their lists have them"),
    Word("from-machine", "machine.words.from_machine", "a trace's first lines from a machine in use, its tasks from a job file of fio"),
    Word("kernel", "kernel.words.kernel", "a running kernel's tracepoints beside the laws: explain, compare, plot, trace, beside, record",
         ("record",)),
)
"""In the order of the help."""
