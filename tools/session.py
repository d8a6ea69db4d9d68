"""A session of the proved program (docs/CONSOLE.md): its words, its commands, which go to it ahead, and its answers."""
import errno
import fcntl
import os
import select
import signal
import tempfile

from lexing import tokens
from program import TOP, read_source
from source import read_net

MOST_COMMANDS = 1_000_000


def standard_input():
    """Another descriptor of it. Where the caller closed it, the command has opened it so that nothing can be read."""
    if fcntl.fcntl(0, fcntl.F_GETFL) & os.O_ACCMODE == os.O_WRONLY:
        raise OSError(errno.EBADF, "it is closed", "std_in")
    return os.dup(0)


class SessionWords:
    """The words of the session. Commands come to it as its standard input, so a stream that has `std_in` gets another name of it."""

    def __init__(self, source, ports, workers, stack):
        self.source, self.input = source, None
        text = read_source(source)
        self.net = read_net(text)
        if any(it.incoming and it.port == "std_in" for it in self.net.streams):
            self.input = standard_input()
            stack.callback(os.close, self.input)
            folder = stack.enter_context(tempfile.TemporaryDirectory(prefix="hume-live-"))
            source, ports = os.path.join(folder, "source"), [*ports, self.name]
            with open(source, "wb") as file:
                file.write(self.renamed(text))
        self.given, self.words = source, [os.path.join(TOP, "hume"), "console", workers, source, *ports]

    @property
    def name(self):
        """What the session calls the standard input."""
        return f"/dev/fd/{self.input}"

    def renamed(self, text):
        """The source, with that name for the port `std_in`; each line stays where it is."""
        for it in reversed(tokens(text)):
            if it.kind == "quoted" and it.text == '"std_in"':
                text = text[: it.place] + f'"{self.name}"'.encode() + text[it.place + len(it.text) :]
        return text

    def told(self, text):
        """What was told of the session, in the words of the call."""
        if self.input is not None:
            text = text.replace(self.given, self.source).replace(f"port '{self.name}'", "standard input").replace(self.name, "std_in")
        return text


class Bell:
    """Rings where Ctrl-C is pressed. The session doesn't hear it, since it is to end by a command."""

    def __init__(self, stack):
        self.file, ringing = os.pipe()
        os.set_blocking(ringing, False)
        stack.callback(os.close, self.file)
        stack.callback(os.close, ringing)
        self.hears = signal.getsignal(signal.SIGINT) != signal.SIG_IGN
        signal.signal(signal.SIGINT, signal.SIG_IGN)
        signal.set_wakeup_fd(ringing)
        stack.callback(signal.set_wakeup_fd, -1)

    def listen(self):
        """From now on; what was started before ignores Ctrl-C."""
        if self.hears:
            signal.signal(signal.SIGINT, lambda *_: None)


class Session:
    """The pipes of the program. `bell` is a file that can be read once a signal has come."""

    def __init__(self, process, bell):
        self.commands, self.answers, self.bell = process.stdin.fileno(), process.stdout.fileno(), bell
        self.rest, self.sent = b"", 0

    def send(self, *commands):
        """Hands on commands; a session that has ended doesn't take them."""
        self.sent += len(commands)
        text = "".join(f"{it}\n" for it in commands).encode()
        try:
            while text:
                text = text[os.write(self.commands, text) :]
        except BrokenPipeError:
            pass

    def lines(self, seconds=None):
        """The lines that have come, once there is one; none where the bell rings, which then is still, or the time is over; and None where the session ended."""
        while b"\n" not in self.rest:
            ready, _, _ = select.select([self.answers, self.bell], [], [], seconds)
            if self.bell in ready:
                os.read(self.bell, 64)
            if self.answers not in ready or self.bell in ready:
                return []
            part = os.read(self.answers, 1 << 16)
            if not part:
                return None
            self.rest += part
        *found, self.rest = self.rest.split(b"\n")
        return [it.decode("latin-1") for it in found]
