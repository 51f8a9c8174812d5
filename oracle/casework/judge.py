"""Asks the crate's own loops (the Rust program beside this folder), many cases at a time."""
import os
import subprocess
import sys

PROGRAM = os.path.join(os.path.dirname(os.path.dirname(os.path.abspath(__file__))), 'target', 'release', 'rustoracle')


def ask(requests):
    """One line for each request; a request is a case in the replay program's format."""
    if not requests:
        return []
    if not os.path.exists(PROGRAM):
        sys.exit("the oracle is not built: run oracle/build FOLDER, FOLDER being the text of nalgebra 0.35.0")
    done = subprocess.run([PROGRAM], input=b''.join(requests), stdout=subprocess.PIPE, check=True)
    lines = done.stdout.decode('ascii').split('\n')[:-1]
    assert len(lines) == len(requests), 'the oracle answered another number of lines'
    return lines


def together(tasks):
    """Runs generators side by side. What one yields is a request; it is sent the oracle's line. Gives what each returns."""
    results = [None] * len(tasks)
    waiting = [(i, task, None) for i, task in enumerate(tasks)]
    while waiting:
        asking = []
        for i, task, answer in waiting:
            try:
                asking.append((i, task, task.send(answer)))
            except StopIteration as end:
                results[i] = end.value
        answers = ask([request for _, _, request in asking])
        assert 'panic' not in answers, 'the crate panicked on a case that the tests let through'
        waiting = [(i, task, answer) for (i, task, _), answer in zip(asking, answers)]
    return results


def finite(text):
    """The oracle's numbers are all finite."""
    return 'nan' not in text and '7ff0000000000000' not in text and 'fff0000000000000' not in text
