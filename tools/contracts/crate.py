"""A crate: what its callers see of it."""
from __future__ import annotations

import os

from .calls import Call, Module, Reader


class Crate:
    """A crate. `says` is what its root says that it is, `every` has each call by the path at which it stands, and `public` the calls that
    callers see, by the name that they use. Where a program has no public module, what its modules show each other counts."""

    def __init__(self, folder: str) -> None:
        source = os.path.join(folder, "src")
        library = os.path.exists(os.path.join(source, "lib.rt"))
        reader = Reader(os.path.join(source, "lib.rt" if library else "main.rt"), source)
        self.says = reader.head()
        self.root = reader.module
        self.every: dict[str, Call] = {}
        self.public: dict[str, list[Call]] = {}
        self.names: dict[tuple[int, str], str] = {}
        self.show(self.root, "", not library and not self.root.shown)
        self.gather(self.root, "")

    def named(self, name: str) -> list[Call]:
        """The calls that callers know by this name, or else the one that stands at this path."""
        return self.public.get(name) or [self.every[name]] if name in self.public or name in self.every else []

    # Notes by which name callers know what each module declares. A thing that has two names has the shorter one.
    def show(self, module: Module, path: str, every: bool) -> None:
        shown = [(module, call.name, call.name) for call in module.calls if call.is_open and "::" not in call.name]
        shown += [(module, name, name) for name in sorted(module.types & module.shown)]
        for use in module.uses:
            found = self.declared_at(module, use.name) if use.is_open else None
            if found:
                shown.append((*found, use.name))
        for declaring, word, name in shown:
            key = (id(declaring), word)
            if key not in self.names or (path + name).count("::") < self.names[key].count("::"):
                self.names[key] = path + name
        for name, inner in module.modules.items():
            if name in module.shown or every:
                self.show(inner, f"{path}{name}::", every)

    # The module that declares what a name means in a module, and its name there; None where that is another crate's.
    def declared_at(self, module: Module, name: str) -> tuple[Module, str] | None:
        for _ in range(9):
            if name in module.types or any(call.name == name for call in module.calls):
                return module, name
            used = next((use.path for use in module.uses if use.name == name), "")
            found = self.follow(module, used.split("::"))
            if not found:
                return None
            module, name = found
        return None

    # The module in which the last name of a path stands, and that name.
    def follow(self, module: Module | None, names: list[str]) -> tuple[Module, str] | None:
        if names[0] == "crate":
            module, names = self.root, names[1:]
        while names[0] in ("self", "super") and module:
            module, names = module.parent if names[0] == "super" else module, names[1:]
        for name in names[:-1]:
            module = module.modules.get(name) if module else None
        return (module, names[-1]) if module and len(names) > 0 and names[-1] else None

    # Puts each call where it belongs.
    def gather(self, module: Module, path: str) -> None:
        for call in module.calls:
            self.every.setdefault(path + call.name, call)
            owner, _, method = call.name.rpartition("::")
            found = self.declared_at(module, owner) if owner else (module, method)
            name = self.names.get((id(found[0]), found[1])) if found else None
            if name and call.is_open:
                self.public.setdefault(f"{name}::{method}" if owner else name, []).append(call)
        for name, inner in module.modules.items():
            self.gather(inner, f"{path}{name}::")
