"""Journals of runs over threads, and what a judge says of them. No proof stands on it.

    traces      small traces, each made from a number alone
    making      a run of such a trace, and the verdict on its journal, as a run of a job
    telling     what all verdicts come to
"""
