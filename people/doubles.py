"""Doubles as people and as programs write them: shortest decimal digits, and 16 hex digits of the bits."""
from __future__ import annotations

import struct
from decimal import Decimal


def from_hex(digits: str) -> float:
    """The double whose 64 bits are these 16 hex digits."""
    number: float = struct.unpack(">d", bytes.fromhex(digits))[0]
    return number


def to_hex(number: float) -> str:
    """The 16 small hex digits of a double's bits."""
    return struct.pack(">d", number).hex()


def shortest(number: float) -> str:
    """The fewest decimal digits that give the bits back."""
    digits = repr(number)
    return digits[:-2] if digits.endswith(".0") else digits


def orders_between(greater: float, less: float) -> int:
    """How many whole orders of magnitude lie between two positive numbers."""
    return (Decimal(greater) / Decimal(less)).adjusted()
