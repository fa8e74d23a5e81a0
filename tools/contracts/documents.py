"""What documents say of crates and calls, against the sources: which calls CLAIMS.md names, and the rows of MAP.md."""
from __future__ import annotations

import os
import re
from collections.abc import Iterator

from gate.crates import read_crates

from .tables import House

BRACKET = re.compile(r"\[(`[^\]]*`)\]")
CODE = re.compile(r"`([^`]*)`")
SEVERAL = re.compile(r"(?P<path>[\w:]*)\{(?P<names>[^}]*)\}")
ROW = re.compile(r"\| `(\w+)` \|")


def content(root: str, *path: str) -> str:
    with open(os.path.join(root, *path), encoding="utf-8") as file:
        return file.read()


def named_calls(text: str) -> Iterator[str]:
    """The calls that stand in brackets: `a::{b, c}` names two."""
    for bracket in BRACKET.findall(text):
        for code in CODE.findall(" ".join(bracket.split())):
            several = SEVERAL.fullmatch(code)
            yield from (several["path"] + name.strip() for name in several["names"].split(",")) if several else (code,)


def is_there(house: House, name: str) -> bool:
    """Whether there is such a crate, module or call; or, without a crate, a call that ends so."""
    crate, _, rest = name.partition("::")
    if crate in house.crates:
        known = house.crates[crate]
        return not rest or bool(known.named(rest)) or any(path.startswith(f"{rest}::") for path in known.every)
    return any(path == name or path.endswith(f"::{name}") for known in house.crates.values() for path in known.every)


def claims_problems(root: str, house: House) -> list[str]:
    """The calls that CLAIMS.md names and that aren't there."""
    names = dict.fromkeys(named_calls(content(root, "docs", "CLAIMS.md")))
    return [f"docs/CLAIMS.md: there is no call {name}" for name in names if not is_there(house, name)]


def map_problems(root: str) -> list[str]:
    """Crates without a row in MAP.md, or with two, rows without a crate, and rows above one of a crate that theirs depends on."""
    uses = read_crates(os.path.join(root, "crates.txt"))
    table = content(root, "docs", "MAP.md").partition("## The crates")[2].partition("\n## ")[0]
    rows = [row[1] for row in map(ROW.match, table.split("\n")) if row]
    found = [f"docs/MAP.md: {rows.count(crate) or 'no'} rows for {crate}" for crate in uses if rows.count(crate) != 1]
    found += [f"docs/MAP.md: a row for {crate}, which is no crate" for crate in rows if crate not in uses]
    for crate, below in uses.items():
        found += [f"docs/MAP.md: {crate} above {it}, on which it depends" for it in below if {crate, it} <= set(rows) and rows.index(crate) < rows.index(it)]
    return found
