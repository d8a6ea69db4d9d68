"""hume test --cover: the coverage of examples, added up for each source."""
import io
import os
from dataclasses import dataclass

from cover import Report
from coverage import Coverage, run_covered
from program import Usage, is_number
from room import Room, read, words_of
from tracing import MOST_STEPS

# which words of a call are STEPS and SOURCE, and from which on there are PORTs
WORDS_AT = {"run": (1, 3, 4), "trace": (1, 3, 4), "record": (1, 2, 4)}


@dataclass
class Covered:
    """What examples of one source covered; `name` is the source in the first of them."""

    name: str
    count: int
    coverage: Coverage


def covered_in_room(example, steps, source, ports):
    """The run of an example's call and what it covers, or nothing where it is no run."""
    back = os.getcwd()
    with Room(example) as room:
        os.chdir(room.path)
        try:
            run, coverage, _ = run_covered(steps, source, ports, io.BytesIO(read(example, "stdin")))
        except Usage:
            return None, None
        finally:
            os.chdir(back)
    return run, coverage


class Sources:
    """The sources of the examples, told apart by their bytes, and how many examples aren't counted."""

    def __init__(self):
        self.known, self.others = {}, 0

    def add(self, example):
        """Adds what the call of an example covers."""
        words = words_of(example)
        steps_at, source_at, ports_at = WORDS_AT.get(words[0], (0, 0, 0))
        if not steps_at or len(words) <= source_at or not is_number(words[steps_at]):
            self.others += 1
            return
        steps, source = int(words[steps_at]), words[source_at]
        run, coverage = covered_in_room(example, str(min(steps, MOST_STEPS)), source, words[ports_at:])
        if run is None:
            self.others += 1
            return
        coverage.wanted = max(coverage.wanted, steps if run.status == 0 else 0)
        found = self.known.setdefault(run.source, Covered(os.path.relpath(os.path.join(example, source)), 0, Coverage()))
        found.count += 1
        found.coverage.add(coverage)

    def lines(self):
        """The counts of each source, and last the rules that nothing fires."""
        unfired = []
        for source, it in self.known.items():
            report = Report(source, it.name, it.coverage)
            yield f"cover of {it.name}, {it.count} example{'s' * (it.count > 1)}"
            yield from report.lines()
            unfired += report.untaken(True)
        if self.others:
            yield f"not counted: {self.others} example{'s' * (self.others > 1)}, no run, trace or record of an accepted source"
        yield from unfired or ["each rule fired" if self.known else "no rule is counted"]
