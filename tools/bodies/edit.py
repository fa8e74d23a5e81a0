"""Reads an edit, and says why it can't be put in: what `rt` asks of one, without a proof."""
from __future__ import annotations

import os

PARTS = ("src/", "specs/", "proofs/")
COMMENTS = ("#", "--", "//")


def changes_of(text: str) -> list[tuple[str, str, str]]:
    """The changes of an edit: the file, its old text and its new one. Raises `ValueError` where the text is no edit."""
    changes, file, old = [], "", ""
    for number, line in enumerate(text.split("\n"), 1):
        head, _, rest = line.partition(":")
        rest = rest.removeprefix(" ")
        if head == "file" and rest:
            file = rest.strip()
        elif head == "old" and rest:
            old = rest
        elif head == "new":
            if not file or not old:
                raise ValueError(f"line {number}: a new text stands before its file or its old text")
            changes.append((file, old, rest))
            old = ""
        elif line.strip() and not line.startswith(COMMENTS):
            raise ValueError(f"line {number} isn't read: it is no 'file:', 'old:' or 'new:'")
    if not changes or old:
        raise ValueError("an old text has no new one" if old else "it changes nothing")
    return changes


def problem(crate: str, path: str) -> str:
    """Why an edit can't be put into the crate in this folder; nothing where it can."""
    try:
        with open(path, encoding="utf-8") as file:
            changes = changes_of(file.read())
        changed: dict[str, str] = {}
        for name, old, new in changes:
            changed[name] = changed_text(changed.get(name) or text_of(crate, name), name, old, new)
        same = all(text == text_of(crate, name) for name, text in changed.items())
        return "it changes nothing" if same else ""
    except (OSError, ValueError) as error:
        return str(getattr(error, "strerror", None) or error)


# The text of a file that an edit names.
def text_of(crate: str, name: str) -> str:
    path = os.path.join(crate, name)
    if os.path.normpath(name) != name or not name.startswith(PARTS) or not os.path.isfile(path):
        raise ValueError(f"there is no file {name} in src/, specs/ or proofs/")
    with open(path, encoding="utf-8") as file:
        return file.read()


# The text with a change made, where the old text stands just once.
def changed_text(text: str, name: str, old: str, new: str) -> str:
    count = text.count(old)
    if count != 1:
        raise ValueError(f"its old text stands {count} times in {name}, and not once: {old.strip()[:80]}")
    return text.replace(old, new)
