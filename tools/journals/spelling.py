"""How a line of a trace or of a law text is spelled: a word, or two, and then numbers, one space between two fields.

A line that isn't spelled so is a bad line, and its leftmost fault is told.
"""
from __future__ import annotations

import re
from collections.abc import Callable, Iterator, Mapping

from program.errors import Cause

from .whole_text import Refused

NUMBER = re.compile("0|[1-9][0-9]{0,17}")
MOST_DIGITS = 18
BYTE_ORDER_MARK = "\xef\xbb\xbf"
STRANGE = re.compile("[^!-~]")

Counts = Mapping[str, int]
"""How many numbers follow each word, or each two words with a space between them."""


def cut(text: str, counts: Counts, unknown: Callable[[str], str]) -> tuple[str, list[int]]:
    """The word of a line and its numbers. `unknown` says what is wrong with another word than those of `counts`."""
    word, *fields = text.split(" ")
    if fields and f"{word} {fields[0]}" in counts:
        word = f"{word} {fields.pop(0)}"
    if len(fields) != counts.get(word) or not all(map(NUMBER.fullmatch, fields)):
        column, found = misspelling(text, counts, unknown)
        raise Refused(Cause.BAD_LINE, found, column)
    return word, list(map(int, fields))


def column_of(text: str, place: int) -> int:
    """The column of a number of a line, numbered from 0."""
    columns = [column for column, field in fields_of(text) if NUMBER.fullmatch(field)]
    return columns[place]


def fields_of(text: str) -> Iterator[tuple[int, str]]:
    """What stands between single spaces, and where it begins."""
    column = 1
    for field in text.split(" "):
        yield column, field
        column += len(field) + 1


def misspelling(text: str, counts: Counts, unknown: Callable[[str], str]) -> tuple[int, str]:
    """The leftmost fault of a line that isn't spelled as one of the words asks, and its column."""
    if not text:
        return 1, "empty line"
    word, numbers = "", 0
    for column, field in fields_of(text):
        strange = strange_byte(text, column, field) or strange_space(text, column, field)
        if strange:
            return strange
        if field.startswith("#"):
            return column, "comment"
        if word not in counts or f"{word} {field}" in counts:
            word = f"{word} {field}".lstrip()
            if not any(known == word or known.startswith(f"{word} ") for known in counts):
                return column, unknown(word)
        elif numbers == counts[word]:
            return column, f"a field too many: '{word}' has {numbers_of(counts[word])}"
        elif not NUMBER.fullmatch(field):
            return column, misspelled_number(field)
        else:
            numbers += 1
    return len(text) + 1, f"a field is missing: '{word}' has {numbers_of(counts[word]) if word in counts else 'a second word'}"


def numbers_of(count: int) -> str:
    """So many numbers."""
    return "1 number" if count == 1 else f"{count} numbers"


def strange_byte(text: str, column: int, field: str) -> tuple[int, str] | None:
    """The first byte of a field that no field has."""
    match = STRANGE.search(field)
    if match is None:
        return None
    at = column + match.start()
    if text.startswith(BYTE_ORDER_MARK, at - 1):
        return at, "byte order mark"
    if match[0] == "\t":
        edge = "beginning" if at == 1 else "end" if at == len(text) else ""
        return at, f"tab at the {edge} of the line" if edge else "tab where one space is wanted"
    if match[0] == "\r":
        return at, "carriage return"
    return at, f"byte {ord(match[0]):#04x}, which no line has"


def strange_space(text: str, column: int, field: str) -> tuple[int, str] | None:
    """The space that follows another one, or begins or ends the line: it has an empty field beside it."""
    if field:
        return None
    if column == 1:
        return 1, "space at the beginning of the line"
    if column > len(text):
        return column - 1, "space at the end of the line"
    return column, "second space where one is wanted"


def misspelled_number(field: str) -> str:
    """What is wrong with a number."""
    if re.fullmatch("0[0-9]+", field):
        return "number spelled with a leading zero"
    if re.fullmatch("[0-9]+", field):
        return f"number of {len(field)} digits: the most are {MOST_DIGITS}"
    if re.fullmatch("[+-][0-9]+", field):
        return "number spelled with a sign"
    return f"'{field}' where a number is wanted"
