"""Which crate stands on which."""
from __future__ import annotations


def read_crates(path: str) -> dict[str, list[str]]:
    """The crates of a `crates.txt` in its order, each with those that it uses; what the file doesn't list is the kit's."""
    uses: dict[str, list[str]] = {}
    with open(path, encoding="utf-8") as lines:
        for line in lines:
            name, colon, below = line.partition("#")[0].partition(":")
            if colon:
                uses[name.split()[0]] = below.split()
    return {crate: [it for it in below if it in uses] for crate, below in uses.items()}
