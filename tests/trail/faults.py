"""What a judge says of a trail."""
from typing import NamedTuple


class Fault(NamedTuple):
    """A check that a trail doesn't pass, the place where, and what stands there."""

    check: str
    where: str
    what: str

    def __str__(self):
        return f"check '{self.check}': {self.where}: {self.what}"
