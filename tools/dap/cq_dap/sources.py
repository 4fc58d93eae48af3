"""Which class is which file. The class of `scripts/n-body.lua` has the signature `Lscripts/n_body;` and the file `n-body.lua`."""
from __future__ import annotations

import os
import re
from collections.abc import Iterable
from dataclasses import dataclass, field

from .jdwp import Class

SUFFIX = re.compile(r"\.(lua|py)$")


def java_name(part: str) -> str:
    """A part of a path, as the runtime makes it a part of a Java name, byte by byte."""
    name = re.sub(rb"[^A-Za-z0-9_$]", b"_", part.encode(errors="surrogateescape")).decode()
    return "_" + name if not name or name[0].isdigit() else name


def signature_of(path: str) -> str:
    """The signature of the class of a file, by the path that the runtime has of it."""
    *folders, last = SUFFIX.sub("", path).removeprefix("./").split("/")
    return "L" + "/".join(map(java_name, [*filter(None, folders), last])) + ";"


@dataclass
class Sources:
    """`base` is the directory in which the runtime runs. `mappings` are pairs of a directory here and the same directory there."""
    base: str = ""
    mappings: list[tuple[str, str]] = field(default_factory=list)
    known: dict[int, str] = field(default_factory=dict)  # paths here, by the ids of classes

    def is_class_of(self, class_: Class, path: str) -> bool:
        """Whether the class is that of the file with this path here."""
        there = _moved(path, self.mappings)
        if not class_.file or class_.file != os.path.basename(there):
            return False
        for one in there, os.path.realpath(there):
            if class_.signature in (signature_of(one), signature_of(os.path.relpath(one, self.base or "/"))):
                self.known[class_.id] = path
                return True
        return False

    def path_of(self, class_: Class) -> str:
        """The path of the class's file here, whether or not the file is here."""
        if class_.id not in self.known:
            folders = class_.signature[1:-1].split("/")[:-1]
            found = next(filter(None, (self._find(root, folders, class_.file) for root in (self.base, "/"))), None)
            self.known[class_.id] = found or self._here(os.path.join(self.base, *folders, class_.file))
        return self.known[class_.id]

    def _here(self, path: str) -> str:
        return _moved(path, [(there, here) for here, there in self.mappings])

    def _find(self, root: str, folders: list[str], file: str) -> str | None:
        """The file whose folders have these Java names. More than one folder may have the same."""
        paths = [self._here(root)]
        for folder in folders:
            paths = [entry.path for path in paths for entry in _folders(path) if java_name(entry.name) == folder]
        return next((path for folder in paths if os.path.isfile(path := os.path.join(folder, file))), None)


def _folders(path: str) -> Iterable[os.DirEntry]:
    try:
        with os.scandir(path) as entries:
            return [entry for entry in entries if entry.is_dir()]
    except OSError:
        return []


def _moved(path: str, mappings: list[tuple[str, str]]) -> str:
    for source, target in mappings:
        source, target = source.rstrip("/"), target.rstrip("/")
        if path == source or path.startswith(source + "/"):
            return target + path[len(source):]
    return path
