"""Why a call is refused: an exception for each of the order's numbers."""
from __future__ import annotations


class Refused(Exception):
    """A call that cannot be served. Nothing has changed, except where the call says so."""

    number: int = 0
    meaning: str = ""

    def __str__(self) -> str:
        return f"refused {self.number}: {self.meaning}"


class Tables(Refused):
    number, meaning = 1, "rows above the limit, counts above the rows, or tables that disagree in rows"


class Full(Refused):
    number, meaning = 2, "no row for one more, or image counts above the rows"


class NoNode(Refused):
    number, meaning = 3, "the named node is not there"


class NoEdge(Refused):
    number, meaning = 4, "the named edge is not there"


class Nothing(Refused):
    number, meaning = 5, "nothing found: the end of a list, a walker at its end, a number that no row bears"


class Broken(Refused):
    """Where `Network.check` raises it, `direction` and `node` say where the first fault is.

    A directory that is not that of the rows is told as incoming, at one more than the number of nodes.
    """

    number, meaning = 6, "broken links"
    direction: int | None = None
    node: int | None = None

    def __str__(self) -> str:
        if self.node is None:
            return super().__str__()
        return f"{super().__str__()}, first {self.direction.name.lower()} at node {self.node}"


class Short(Refused):
    number, meaning = 7, "the output holds fewer items than the answer needs"


class NotImage(Refused):
    number, meaning = 8, "an image that is too short, has a wrong mark or a wrong length"


class Version(Refused):
    number, meaning = 9, "an image of an unknown version"


class NotCommand(Refused):
    number, meaning = 10, "a script line that is no command"


class Taken(Refused):
    number, meaning = 11, "the directory's entry of that register number names a row"


class Beyond(Refused):
    number, meaning = 12, "a register number that is not below the directory's length"


# No call gives these yet.


class NotBare(Refused):
    number, meaning = 13, "a node to be dropped that still has edges"


class NoRanking(Refused):
    number, meaning = 14, "lists that no ranking of the edges gives"


class Outside(Refused):
    number, meaning = 15, "outside the planning profile"


class TooDeep(Refused):
    number, meaning = 16, "a walk that would stand 65 nodes deep"


class Fell(Refused):
    number, meaning = 17, "a counter lower than the last"


class Overflow(Refused):
    number, meaning = 18, "a weight that would leave 32 bits"


REFUSALS = {refusal.number: refusal for refusal in Refused.__subclasses__()}
