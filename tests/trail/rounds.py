"""All roles end a round before any begins the next: in each history the rounds of the entries never fall."""
from trail.faults import Fault
from trail.steps import Placed, histories


def faults_of_rounds(trail, rounds_of):
    """The first entry of each history that stands behind one of a later round; `rounds_of` has the round of each role's step."""
    for history, entries in histories(trail):
        latest = 0
        for place, entry in enumerate(entries, 1):
            round_ = rounds_of.get((entry.role, entry.step), latest)
            if round_ < latest:
                yield Fault("rounds", Placed(history, place, entry).where, f"'{entry}' of round {round_} behind one of round {latest}")
                break
            latest = round_
