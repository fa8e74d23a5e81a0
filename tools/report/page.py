"""The file of a report: page.html, in which the style, the content, plotly's script and the page's own stand in their places."""
from __future__ import annotations

import html
import json
import os
import re
from collections.abc import Mapping

from .content import Report

HERE = os.path.dirname(os.path.abspath(__file__))
PLACE = re.compile(r"\{\{(\w+)\}\}")
"""Where something goes into page.html."""


def page_of(report: Report, plotly: str) -> str:
    """The text of the file."""
    return filled(part("page.html"), {
        "title": html.escape(report.title), "style": part("page.css"), "content": as_data(report), "plotly": as_script(plotly),
        "page": as_script(part("page.js"))})


def part(name: str) -> str:
    """A file that lies beside this one."""
    with open(os.path.join(HERE, name), encoding="utf-8") as file:
        return file.read()


def filled(text: str, parts: Mapping[str, str]) -> str:
    """The text with the parts in their places. A part is put in as it is, also where it looks like a place."""
    return PLACE.sub(lambda found: parts[found[1]], text)


def as_data(report: Report) -> str:
    """The content as data in a page: nothing in it ends the element."""
    return json.dumps(report.as_json(), separators=(",", ":")).replace("<", "\\u003c")


def as_script(text: str) -> str:
    """A script in a page: nothing in it ends the element."""
    return text.replace("</script", "<\\/script").replace("<!--", "<\\!--")
