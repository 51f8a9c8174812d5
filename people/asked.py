"""What is asked for: the words behind `panel-order`, taken apart."""
from __future__ import annotations

import os
import sys
from dataclasses import dataclass, field
from typing import List, Optional

TOP = os.path.dirname(os.path.dirname(os.path.abspath(__file__)))


class Usage(Exception):
    """A question that is not put as `panel-order --help` says."""


@dataclass
class Asked:
    """The options and the files that were given."""

    question: str = ""
    moves: bool = False
    out: Optional[str] = None
    example: bool = False
    names: List[str] = field(default_factory=list)


def asked(words: List[str]) -> Asked:
    """The question, from the words."""
    found, left, options = Asked(), list(words), True
    while left:
        word = left.pop(0)
        if not options or word in ("", "-") or not word.startswith("-"):
            found.names.append(word)
        elif word == "--":
            options = False
        else:
            option(found, word, left)
    return checked(found)


def option(found: Asked, word: str, left: List[str]) -> None:
    """One option, with the word that it takes."""
    if word in ("--sheet", "--make", "--csv", "--season"):
        if found.question not in ("", word):
            raise Usage(f"{found.question} and {word} are two questions")
        found.question = word
    elif word == "--html":
        if found.out is not None:
            raise Usage("--html is given twice")
        if not left:
            raise Usage("--html needs the name of the page")
        found.out = left.pop(0)
    elif word == "--moves":
        if left[:1] != ["all"]:
            raise Usage("on a page --moves takes the word all, and shows every pad")
        found.moves = bool(left.pop(0))
    elif word == "--example":
        found.example = True
    elif word in ("--why", "--stiffness"):
        raise Usage(f"{word} and another question are two questions")
    else:
        raise Usage(f"unknown option {word}")


def checked(found: Asked) -> Asked:
    """The question with its files, where it makes sense."""
    if found.moves and found.question not in ("", "--sheet"):
        raise Usage(f"--moves and {found.question} are two questions")
    if not found.question and not found.moves:
        raise Usage("--html goes with --sheet, with --moves all or with --season")
    found.question = found.question or "--moves"
    if found.question == "--season" and found.out is None or found.moves and found.out is None:
        raise Usage(f"{found.question} is for a page here: it needs --html and the name of the page")
    if found.out is not None and found.question in ("--make", "--csv"):
        raise Usage(f"{found.question} makes no page")
    if "" in found.names or found.out == "":
        raise Usage("the name of a file is empty")
    return with_files(found)


def with_files(found: Asked) -> Asked:
    """The question with the example's file, or standard input, where none is given."""
    if found.example:
        if found.names or found.question in ("--make", "--season"):
            raise Usage("--example takes no file, and is no spreadsheet and no season")
        found.names = [os.path.join(TOP, "crossings", "whole-case.lxp")]
    if found.question == "--make" and len(found.names) != 2:
        raise Usage("--make takes two files: a spreadsheet, and the panel file to write")
    if found.question in ("--csv", "--season") and len(found.names) > 1:
        raise Usage("more than one file")
    if not found.names:
        if sys.stdin is None or sys.stdin.isatty():
            raise Usage("no file given")
        found.names = ["-"]
    return found
