"""Follows a session superstep by superstep: passes on what it writes, and knows its wires and peaks as of its last block of commands."""
import sys
import time
from collections import deque
from enum import Enum

from session import MOST_COMMANDS
from standing import Standing

# While one block is worked on, the next one waits in the pipe.
MOST_BLOCKS = 2
MOST_STEPS = 64
# A block takes about so many seconds.
SHORT, LONG = 0.1, 0.2
ENDING = ("bad value ", "refused ")


class Outcome(Enum):
    """Why the session isn't followed any further."""

    STANDS = "nothing can change"
    RUNG = "a signal came"
    ENDED = "the session ended"
    USED_UP = "there are no commands left"


class Pace:
    """How many supersteps a block of commands makes: as few as let this process rest while the session works."""

    def __init__(self):
        self.steps = 1

    def note(self, seconds):
        """A block took so long."""
        if seconds < SHORT:
            self.steps = min(2 * self.steps, MOST_STEPS)
        elif seconds > LONG:
            self.steps = max(self.steps // 2, 1)


class Following:
    """What is known of a session. `made` counts the supersteps of the blocks that are done, and `peaks` has their peaks."""

    def __init__(self, net, session):
        self.net, self.session = net, session
        self.standing, self.pace = Standing(net), Pace()
        self.blocks, self.begun = deque(), time.monotonic()
        self.wires, self.told = [], []
        self.made, self.peaks, self.state, self.ending = 0, [], [], ""

    def follow(self):
        """Goes on until there is a reason to stop."""
        while True:
            self.feed()
            lines = self.session.lines()
            if lines is None:
                return Outcome.ENDED
            if not lines:
                return Outcome.RUNG
            if self.read(lines):
                return Outcome.STANDS
            if not self.blocks and self.is_used_up():
                return Outcome.USED_UP

    def is_used_up(self):
        """Whether there are no commands for a further block, and for the two of the end."""
        return self.session.sent + self.pace.steps + 4 > MOST_COMMANDS

    def feed(self):
        """Sends blocks ahead."""
        while len(self.blocks) < MOST_BLOCKS and not self.is_used_up():
            self.session.send(*["step 1"] * self.pace.steps, "wires", "peaks")
            self.blocks.append(self.pace.steps)

    def read(self, lines):
        """Takes lines; says whether the net stands still after a block."""
        stands = False
        for line in lines:
            if line.startswith("wire "):
                self.wires.append(line.split(" ", 4)[4])
            elif line.startswith("peak "):
                self.told.append(line)
                stands = len(self.told) == len(self.net.boxes) and self.close_block() or stands
            else:
                self.ending = line if line.startswith(ENDING) else self.ending
                sys.stdout.write(f"{line}\n")
        sys.stdout.flush()
        return stands

    def close_block(self):
        """A block is done, or the `peaks` of the end: whether the net stands still."""
        self.peaks, self.told = self.told, []
        if not self.blocks:
            return False
        steps, now = self.blocks.popleft(), time.monotonic()
        self.made += steps
        self.state, self.wires = self.wires, []
        stands = self.standing.look(self.state, steps)
        if self.standing.same or self.standing.is_doubtful():
            self.pace.steps = 1
        else:
            self.pace.note(now - self.begun)
        self.begun = now
        return stands

    def close(self, seconds):
        """Ends the session; says whether it ended within so many seconds."""
        self.session.send("peaks", "end")
        until = time.monotonic() + seconds
        while (left := until - time.monotonic()) > 0:
            lines = self.session.lines(left)
            if lines is None:
                return True
            self.read(lines)
        return False
