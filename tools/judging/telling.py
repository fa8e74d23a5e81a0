"""What all verdicts come to."""
from __future__ import annotations

import os
from collections import Counter

from jobs.kinds import Row

from .making import GOOD, PARTS

KINDS = (*GOOD, "broken", "not judged")


def kind_of(row: Row) -> str:
    """The kind of a verdict."""
    return row["verdict"] if row["verdict"] in (*GOOD, "broken") else "not judged"


def said_of(count: Counter[str], which: str) -> str:
    """How many there are of each kind."""
    return ", ".join(f"{count[which + kind]} {kind}" for kind in KINDS)


def tell(rows: list[Row], folder: str) -> bool:
    """Prints what they come to, and keeps the texts of those that aren't lawful or unsettled. The answer is whether all is well."""
    count: Counter[str] = Counter()
    for row in rows:
        kind = kind_of(row)
        count[kind] += 1
        count[f"ageing {kind}"] += row["all age"]
        if row["status"] != row["wanted"]:
            count["other status"] += 1
            print(f"{row['run']}: status {row['status']}")
        if kind not in GOOD:
            print(f"{row['run']}: {row['verdict']}")
            keep(row, folder)
            continue
        count.update(f"tell {part}" for part in row["tells"])
    parts = ", ".join(f"{part}: {count[f'tell {part}']}" for part in PARTS)
    print(f"of the lawful or unsettled ones tell {parts}")
    print(f"where all contexts age: {said_of(count, 'ageing ')}")
    print(said_of(count, ""))
    return not (count["broken"] or count["not judged"] or count["other status"])


def keep(row: Row, folder: str) -> None:
    """The trace and the journal of a row as files."""
    os.makedirs(folder, exist_ok=True)
    for what in ("trace", "journal"):
        with open(os.path.join(folder, f"{row['run']}.{what}"), "w", encoding="utf-8") as file:
            file.write(row[what])
