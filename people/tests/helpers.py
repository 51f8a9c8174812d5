"""What several tests use: the programs' stand-ins in the test's own process, and files."""
from __future__ import annotations

import os
import struct
import sys
from typing import List

import stand_in

TOP = stand_in.TOP
sys.path.insert(0, os.path.join(TOP, "people"))
from programs import Programs  # noqa: E402


class StandIns(Programs):
    """All programs but those that are left out."""

    def __init__(self, *left_out: str) -> None:
        super().__init__("stand-ins", [])
        self.left_out = left_out

    def has(self, name: str) -> bool:
        """Whether it is not left out."""
        return name not in self.left_out

    def printed(self, name: str, given: bytes, *words: str) -> bytes:
        """What it prints."""
        return stand_in.answer(name, given, words)


def held(path: str) -> bytes:
    """The bytes of a file."""
    with open(path, "rb") as file:
        return file.read()


def put(path: str, text: str, mode: int = 0o755) -> None:
    """Writes a file."""
    os.makedirs(os.path.dirname(path), exist_ok=True)
    with open(path, "w", encoding="utf-8") as out:
        out.write(text)
    os.chmod(path, mode)


def crossing(name: str) -> bytes:
    """A file of crossings/."""
    return held(os.path.join(TOP, "crossings", name))


def panel(columns: List[List[float]], readings: List[float]) -> bytes:
    """The bytes of a panel file."""
    numbers = [number for column in columns for number in column] + readings
    return b"LXP\1\0" + bytes([len(readings)]) + struct.pack(f"<{len(numbers)}d", *numbers)
