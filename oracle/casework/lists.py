"""Cases with the lines that they must give, in batches; and a replay program's lines held against them."""
import collections
import itertools
import subprocess

from .fixed import BAD, BAD_LINE, fixed
from .judge import together
from .make import make, op_of
from .rules import expected
from .wire import encode, show, show_difference

LISTED = 6500       # the cases of the committed list, the bad one at its end among them


def with_line(maker):
    case = yield from maker
    return case, (yield from expected(case))


def batches(seed, count, size=1000, ops=()):
    """Batches of (case, line), `count` in all: the fixed cases first, then those of the seed; where ops are given, those of the seed alone,
    of these ops."""
    of_seed = (make(seed, index) for index in itertools.count() if not ops or op_of(index) in ops)
    makers = itertools.islice(of_seed if ops else itertools.chain(fixed(), of_seed), count)
    while batch := list(itertools.islice(makers, size)):
        yield together([with_line(maker) for maker in batch])


class Difference(Exception):
    """The first case whose line is another: its bytes, and a text for a reader."""

    def __init__(self, raw, text):
        super().__init__(text)
        self.raw = raw


def replay(command, batch, bad=b'', before=0):
    """Runs the command on the batch and a bad case after it, if there is one; raises at the first line that differs.
    `before` is the number of cases that came before the batch."""
    done = subprocess.run(command, shell=True, input=b''.join(encode(case) for case, _ in batch) + bad, stdout=subprocess.PIPE)
    if done.returncode in (126, 127):   # the shell's own: it found no such program, or one that this machine cannot run
        raise Difference(b'', f'the command could not be run (status {done.returncode}): {command}')
    printed = done.stdout.decode('ascii', 'replace').split('\n')
    if printed[-1] == '':
        printed.pop()
    for at, (case, line) in enumerate(batch):
        if at >= len(printed):
            raise Difference(encode(case), f'case {before + at + 1}, {show(case)}\nno line printed (status {done.returncode})')
        if printed[at] != line:
            raise Difference(encode(case), f'case {before + at + 1}, {show(case)}\n{show_difference(line, printed[at])}')
    if printed[len(batch):] != ([BAD_LINE] if bad else []):
        raise Difference(bad, f'after case {before + len(batch)} a bad case of {len(bad)} bytes, beginning {bad[:40].hex(" ")}:\n'
                              f"'{BAD_LINE}' expected, {printed[len(batch):][:3]} printed")
    if done.returncode < 0 or done.returncode >= 128:
        raise Difference(b'', f'all lines are right, but the program was ended by a signal (status {done.returncode})')


def replay_all(command, seed, count, size=1000, tell=lambda cases: None, ops=()):
    """Runs the empty list, each bad case alone and `count` cases through the command; raises at the first line that differs. Gives how many
    cases have which refusal number."""
    replay(command, [])
    for bad in BAD:
        replay(command, [], bad)
    numbers, cases = collections.Counter(), 0
    for turn, batch in enumerate(batches(seed, count, size, ops)):
        replay(command, batch, BAD[turn % len(BAD)], cases)
        numbers.update(line.split(' ', 1)[0] for _, line in batch)
        cases += len(batch)
        tell(cases)
    return numbers
