"""Faults, and what a code means."""

from dataclasses import dataclass
from typing import List

from ._library import Answer, run


@dataclass(frozen=True)
class Explanation:
    """What a code means, and what to do about it."""

    code: str
    sentence: str
    action: str


class Fault(ValueError):
    """What was asked has no answer. `code` is the program's, as `A6` or `value session`; `sentence` says what it means."""

    def __init__(self, code: str):
        self.code = code
        self.sentence = _sentence(code)
        super().__init__(f"{code}: {self.sentence}" if self.sentence else code)


def _sentence(code: str) -> str:
    """What the first word of a code means."""
    answer = run(["explain", code.split(" ")[0]])
    return _explained(answer).sentence if answer.status == 0 else ""


def _explained(answer: Answer) -> Explanation:
    code, _, rest = answer.text.decode("ascii").splitlines()[0].partition(": ")
    sentence, _, action = rest.partition(" - ")
    return Explanation(code, sentence, action)


def explain(code: str) -> Explanation:
    """What a code of the program means: `explain("L9")`. Raises Fault("value code") where there is none of this name."""
    answer = run(["explain", code])
    lines(answer)
    return _explained(answer)


def lines(answer: Answer) -> List[str]:
    """The lines of an answer, or the fault that it is."""
    told = answer.text.decode("ascii").splitlines()
    if answer.status == 2 and len(told) == 1 and told[0].startswith("fault "):
        raise Fault(told[0][len("fault ") :])
    return told
