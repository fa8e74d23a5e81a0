"""Plotly's script, which goes into each report, so that it needs no network."""
from __future__ import annotations

import os
from importlib.util import find_spec

from program.errors import NotThere, ReadFault

OF_DEBIAN = "/usr/share/python3-plotly/plotly.js"
"""Where Debian's package has it. Another Python than Debian's finds it there too."""

OF_WHEEL = os.path.join("package_data", "plotly.min.js")
"""Where it lies in a plotly that was installed for this Python."""

MISSING = "plotly's script isn't there (Debian's package is python3-plotly)"


def path() -> str | None:
    """Where the script is, if it is there."""
    found = find_spec("plotly")
    own = [os.path.join(place, OF_WHEEL) for place in found.submodule_search_locations or ()] if found else []
    return next((place for place in (OF_DEBIAN, *own) if os.path.isfile(place)), None)


def is_there() -> bool:
    """Whether a report can be made."""
    return path() is not None


def text() -> str:
    """The script. Raises `NotThere`."""
    place = path()
    if place is None:
        raise NotThere(MISSING)
    try:
        with open(place, encoding="utf-8") as file:
            return file.read()
    except OSError as error:
        raise ReadFault(f"{place}: {error.strerror or error}") from error
