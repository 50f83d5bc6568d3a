"""Why references fit nothing, counted: answers to `why`."""

from collections import Counter

from olr.model.answers import Why
from olr.model.fault import Fault

CONDITIONS = ("radius", "bearing", "class", "end")


class ReasonCounts:
    """Counts of answers to `why`."""

    def __init__(self) -> None:
        self.verdicts: Counter[str] = Counter()
        """The first thing in the way; `refused` where there is no answer."""
        self.points = 0
        """Points without a candidate, of all references."""
        self.nearest: Counter[str] = Counter()
        """The conditions that the line nearest to such a point fails."""
        self.all_near: Counter[str] = Counter()
        """The conditions that all lines shown near such a point fail."""
        self.first: Counter[str] = Counter()
        """The first remedy with which there is a matching; an empty text where there is none."""
        self.named: Counter[str] = Counter()
        """Each such remedy."""

    def add(self, answer: Why | Fault) -> None:
        """Counts an answer."""
        if isinstance(answer, Fault):
            self.verdicts["refused"] += 1
            return
        self.verdicts[answer.verdict.word] += 1
        for point in answer.points:
            if point.candidates == 0:
                self.points += 1
                failed = [set(line.not_) for line in point.nearest]
                if failed:
                    self.nearest.update(failed[0])
                    self.all_near.update(set.intersection(*failed))
        options = [it.option for it in answer.remedies if it.matching is not None]
        self.first[options[0] if options else ""] += 1
        self.named.update(set(options))

    def references(self) -> int:
        """How many were asked about."""
        return self.verdicts.total()
