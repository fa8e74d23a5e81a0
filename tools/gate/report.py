"""The table of what the gate takes."""
from __future__ import annotations

from collections.abc import Iterator, Mapping, Sequence

from .costs import Chain, Costs, costs_of, longest_chain
from .process import Log, below
from .serving import Served, Work, served


def minutes(seconds: float) -> str:
    """Seconds as minutes, to a tenth."""
    return f"{seconds / 60:.1f}"


def report(log: Log, uses: Mapping[str, Sequence[str]], root: int) -> list[str]:
    """The lines of the table and of what stands below it. With a root only the processes below that one count."""
    processes = below(log.processes, root) if root else log.processes
    costs = costs_of(served(processes, uses))
    return [*heading(log), "", *rows(costs, uses), "", *sentences(log, costs, uses)]


def heading(log: Log) -> Iterator[str]:
    """Of what the table is."""
    commit = f"commit {log.commit}" if log.commit else "a commit that its log doesn't tell"
    processors = f"{log.processors} processors" if log.processors else "processors whose number its log doesn't tell"
    yield f"`rt ci --anew` of {commit}, on {processors}, in processor minutes{'' if log.is_whole else ', of a run that was cut off or still goes on'}:"


def rows(costs: Costs, uses: Mapping[str, Sequence[str]]) -> Iterator[str]:
    """A row for each crate in the order of `crates.txt`, then of each that it doesn't have any more, and their sum."""
    yield "| Crate | Proof | Tests | Seed | Edits | Sum |"
    yield "|---|--:|--:|--:|--:|--:|"
    for crate in [*uses, *sorted({crate for crate, _ in costs.cpu} - set(uses))]:
        yield row(f"`{crate}`", [costs.cpu.get((crate, work), 0) for work in Work])
    yield row("all", [sum(value for (_, own), value in costs.cpu.items() if own is work) for work in Work])


def row(name: str, seconds: Sequence[float]) -> str:
    """One row."""
    cells = [minutes(it) if it else "" for it in seconds]
    return f"| {' | '.join([name, *cells, minutes(sum(seconds))])} |"


def sentences(log: Log, costs: Costs, uses: Mapping[str, Sequence[str]]) -> Iterator[str]:
    """The longest chain in both measures, the peak of memory, and what belongs to no crate."""
    yield f"- Longest chain in processor time: {chain_text(longest_chain(uses, costs.cpu))}."
    yield f"- Longest chain in elapsed time: {chain_text(longest_chain(uses, costs.elapsed))}."
    yield f"- Peak of memory of one check: {costs.peak.kilobytes * 1024 / 1e9:.2f} GB, {served_text(costs.peak.served)}."
    whole = f"; `rt` and all below it took {minutes(log.total)}" if log.total else ""
    yield f"- All crates: {minutes(costs.sum())} processor minutes, and {minutes(costs.other)} that serve no one crate{whole}."


def chain_text(chain: Chain) -> str:
    """A chain with its minutes."""
    last = " and ".join(work.value for work in chain.last)
    way = ", ".join(f"`{it}`" for it in chain.crates[:-1])
    before = f"the proofs of {way}, then " if way else ""
    return f"{minutes(chain.seconds)} minutes: {before}{last} of `{chain.crates[-1]}`" if chain.crates else "none"


def served_text(served_by: Served | None) -> str:
    """What a process served."""
    return f"{served_by[1].value} of `{served_by[0]}`" if served_by else "of no one crate"
