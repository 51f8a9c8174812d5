"""Refusals: what a call cannot answer."""
from typing import Dict

# The words of include/wejdarox.h; tests/front compares them.
WORDS: Dict[int, str] = {
    1: "a size is outside its limits: 1 to 64 rows, right-hand columns or pads, 0 to 64 columns",
    2: "the matrix is not square",
    3: "a length differs from what the sizes ask for",
    4: "the swap list has a pair of equal numbers, a number that is not a row's, or too many pairs",
    5: "a number is not finite",
    6: "the matrix is singular: a zero on the diagonal of its factors",
    7: "a result is too large for a finite number",
    8: "this is no panel file of version 1: under 6 bytes, another mark or another version",
    9: "the number of dead columns is not that of the factors",
    10: "the season is full: it has 4,000 files",
}


class Refused(ValueError):
    """A call was refused: `number` is the refusal's number, `words` says it in words, and nothing was changed."""

    number: int
    words: str

    def __init__(self, number: int) -> None:
        self.number = number
        self.words = WORDS[number]
        super().__init__("refused %d: %s" % (number, self.words))

    def __reduce__(self):
        return Refused, (self.number,)


def told(answer: int) -> None:
    """Raises what a call's answer says; 0 is no refusal."""
    if answer:
        raise Refused(answer)
