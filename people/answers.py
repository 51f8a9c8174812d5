"""The answers to what is asked for, and the status of the run."""
from __future__ import annotations

import os
import struct
import sys
from collections import deque
from concurrent.futures import Future, ThreadPoolExecutor
from typing import Deque, Iterator, List

import files
import night
import page
import reasons
import spreadsheet
from asked import TOP, Asked, Usage, asked
from figures import season_of
from programs import Failed, Programs, Refused
from progress import Progress
from sheets import Sheet, counted, sheet_of, status

MOST_LIST = 64 * 1024 * 1024
AHEAD = 64  # files that are begun before the first of them is shown
LONGEST_NAME = 255  # of the names that `panel_season` takes


class Stop(Exception):
    """Why nothing is answered, a line each: status 2."""


def say(*lines: str) -> None:
    """Says something on standard error."""
    for line in lines if sys.stderr is not None else ():
        print("panel-order: " + files.shown(line), file=sys.stderr)


def main(words: List[str]) -> int:
    """Answers the words of the front command: the folder of the programs, how to run one, `--`, and what the user typed.

    With no folder yet, where the programs are still to be built, it only looks for what is wrong with the question."""
    ends = words.index("--")
    sys.stdout.reconfigure(encoding="utf-8", errors="surrogateescape", newline="\n")  # type: ignore[union-attr]
    try:
        found = asked(words[ends + 1:])
        look_over(found)
        return answered(Programs(words[0], words[1:ends]), found) if ends else 0
    except Usage as why:
        say(f"{why}; panel-order --help says how it is used")
    except (Stop, Failed, files.Unreadable, files.Unwritable) as why:
        say(*why.args)
    except Exception as why:  # no answer must look like a refusal, which has status 1
        say(f"this should not happen, and nothing more is answered: {type(why).__name__}: {why}")
    return 2


def look_over(found: Asked) -> None:
    """Finds what is wrong with the files of a question, without the programs; standard input is not read yet."""
    if found.out is not None:
        files.leave(found.out, page.is_page, "page of panel-order")
    if found.question == "--make":
        sheet, name = found.names
        if name == "-" and sys.stdout.isatty():
            raise Usage("a panel file is no text, and is not written to a terminal")
        files.leave(name, lambda front: front.startswith(b"LXP"), "panel file")
        if sheet != "-":
            read_sheet(sheet)
    elif found.question in ("--csv", "--season"):
        if found.names != ["-"]:
            files.whole(found.names[0], 1)
    else:
        names = files.named(found.names)
        missing = [f"{name}: no such file" for name in names if name != "-" and not os.path.lexists(name)]
        if len(missing) == len(names):
            raise Stop(*missing)


def read_sheet(name: str) -> spreadsheet.Crossing:
    """The crossing of a spreadsheet."""
    try:
        return spreadsheet.read(files.whole(name, spreadsheet.MOST_BYTES + 1))
    except spreadsheet.BadSheet as why:
        raise Stop(*(f"{name}: {fault}" for fault in why.faults), "nothing was written") from None


def answered(programs: Programs, found: Asked) -> int:
    """Answers the question; the status."""
    if found.question == "--make":
        return made(programs, *found.names)
    if found.question == "--csv":
        return given_back(programs, found.names[0])
    if found.question == "--season":
        names = files.whole(found.names[0], MOST_LIST)
        put_page(found, "A season's figures", [page.season_page(season_of(programs.season(names)))])
        return 0
    return sheets_of(programs, found)


def made(programs: Programs, sheet: str, name: str) -> int:
    """Writes the panel file of a spreadsheet."""
    crossing = read_sheet(sheet)
    pads = len(crossing.readings)
    files.put(name, programs.write(crossing.numbers(), pads))
    if name != "-":
        say(f"{name}: a panel file of {counted(pads, 'pad')}")
    return 0


def given_back(programs: Programs, name: str) -> int:
    """Prints the spreadsheet of a panel file that the proved reader takes."""
    file = files.panel_bytes(name)
    refused = programs.stiffness(file)
    if isinstance(refused, Refused) and refused.number != 7:  # 7 is factoring's: the file was read
        put_text(f"refused {refused.number}\n")
        say(reasons.sentence(refused))
        return 1
    numbers = struct.unpack_from(f"<{(len(file) - 6) // 8}d", file, 6)
    put_text(spreadsheet.written(spreadsheet.crossing_of(file[5], numbers)))
    return 0


def sheets_of(programs: Programs, found: Asked) -> int:
    """Shows the sheets of all files, as text or as a page."""
    names = files.named(found.names)
    shown: List[Sheet] = []
    progress = Progress(len(names))
    for sheet in in_order(programs, names, found.moves):
        if found.out is None:
            progress.make_way()
            put_text(("\n" if shown else "") + night.text(sheet))
        shown.append(sheet)
        progress.at(len(shown))
    progress.clear()
    if found.out is not None:
        put_page(found, "Night sheets" if found.question == "--sheet" else "Moves", sections(programs, found, shown))
    elif len(shown) > 1:
        put_text("\n" + night.ending(shown))
    say(*(each.unreadable for each in shown if each.unreadable))
    return status(shown)


def in_order(programs: Programs, names: List[str], moves: bool) -> Iterator[Sheet]:
    """The sheets in the order of the names, some at a time; whoever stops waits for no more than those at work."""
    begun: Deque[Future[Sheet]] = deque()
    with ThreadPoolExecutor(max_workers=min(8, os.cpu_count() or 1)) as pool:
        try:
            for name in names:
                begun.append(pool.submit(sheet_of, programs, name, moves))
                if len(begun) > AHEAD:
                    yield begun.popleft().result()
            while begun:
                yield begun.popleft().result()
        finally:
            for each in begun:
                each.cancel()


def sections(programs: Programs, found: Asked, sheets: List[Sheet]) -> List[str]:
    """The parts of a page; in front of several files their summary, with the season's figures where the names can be listed."""
    parts = []
    if len(sheets) > 1:
        names = [os.fsencode(sheet.name) for sheet in sheets]
        listable = all(len(name) <= LONGEST_NAME and b"\n" not in name and name != b"-" for name in names)
        counts = programs.season(b"".join(name + b"\n" for name in names)) if listable else None
        parts.append(page.overview(sheets, season_of(counts) if counts else None))
    for sheet in sheets:
        night_too = found.question == "--sheet"
        parts += [page.night(sheet)] * night_too + [page.moves(sheet)] * (found.moves and not (night_too and sheet.reason))
    return parts


# ---- what is written

def put_text(text: str) -> None:
    """Writes to standard output at once."""
    try:
        sys.stdout.write(text)
        sys.stdout.flush()
    except OSError:
        os.dup2(os.open(os.devnull, os.O_WRONLY), 1)
        raise Stop("the answer could not be written: standard output is closed, or its disk is full") from None


def put_page(found: Asked, title: str, parts: List[str]) -> None:
    """Writes the page that was asked for."""
    version = files.whole(os.path.join(TOP, "VERSION"), 100).decode("ascii", "replace").strip()
    name = found.out or "-"
    files.put(name, page.page(title, parts, version).encode("utf-8", "backslashreplace"))
    if name != "-":
        say(f"{name}: a page to print on A4")
