"""Files: which are meant, what they hold, and writing one whole or not at all."""
from __future__ import annotations

import os
import stat
import sys
from typing import Callable, List

from programs import MOST_BYTES


class Unreadable(Exception):
    """A file that cannot be read, and why."""


class Unwritable(Exception):
    """A file that is not written, and why."""


def shown(name: str) -> str:
    """A name for people: on one line, whatever is in it."""
    if name == "-":
        return "standard input"
    clean = name.encode("utf-8", "backslashreplace").decode("utf-8")
    return "".join(c if c.isprintable() else c.encode("unicode_escape").decode("ascii") for c in clean)


def named(names: List[str]) -> List[str]:
    """The files that are meant, in the order of the names; a folder means the files *.lxp in it, by name."""
    found: List[str] = []
    for name in names:
        if os.path.isdir(name):
            try:
                inside = sorted(each for each in os.listdir(name) if each.lower().endswith(".lxp"))
            except OSError as why:
                raise Unreadable(f"{shown(name)}: {why.strerror}") from None
            if not inside:
                raise Unreadable(f"{shown(name)}: no file *.lxp in this folder")
            found += [os.path.join(name, each) for each in inside]
        else:
            found.append(name)
    return found


def whole(name: str, most: int) -> bytes:
    """The bytes of a file, as many as `most` of them; `-` is standard input."""
    try:
        if name == "-":
            if sys.stdin is None:
                raise Unreadable("standard input is closed")
            return sys.stdin.buffer.read(most)
        with open(name, "rb") as held:
            return held.read(most)
    except OSError as why:
        raise Unreadable(f"{shown(name)}: cannot be read: {why.strerror}") from None


def panel_bytes(name: str) -> bytes:
    """As much of a file as the programs hold; a longer one is refused for its length all the same."""
    return whole(name, MOST_BYTES)


def is_stream(name: str) -> bool:
    """Whether a name is written to as it comes: standard output, a pipe or a device."""
    return name == "-" or os.path.exists(name) and not os.path.isfile(name) and not os.path.isdir(name)


def leave(name: str, replaceable: Callable[[bytes], bool], what: str) -> None:
    """Stops where a file is there that is not to be replaced, by its first bytes; an empty one may always be."""
    if is_stream(name) or not os.path.lexists(name):
        return
    front = whole(name, 4096)
    if front and not replaceable(front):
        raise Unwritable(f"{shown(name)} is there and is no {what}: it is left as it is")


def put(name: str, made: bytes) -> None:
    """Writes a file whole, beside the place first, so that nobody sees half of it; `-` is standard output."""
    try:
        if is_stream(name):
            with (os.fdopen(os.dup(1), "wb") if name == "-" else open(name, "wb")) as out:
                out.write(made)
        else:
            replace(os.path.realpath(name), made)
    except OSError as why:
        raise Unwritable(f"{shown(name)} could not be written: {why.strerror}") from None


def replace(path: str, made: bytes) -> None:
    """Writes a file beside another and puts it in the place of that, with its rights."""
    part = f"{path}.{os.getpid()}.part"
    try:
        with open(part, "xb") as out:
            out.write(made)
        if os.path.exists(path):
            os.chmod(part, stat.S_IMODE(os.stat(path).st_mode))
        os.replace(part, path)
    except OSError:
        if os.path.exists(part):
            os.unlink(part)
        raise
