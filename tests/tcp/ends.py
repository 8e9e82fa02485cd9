"""One end of a connection with time: a socket of crates/tcp_steps, or of the model, by the same lines."""
import subprocess

from lines import event_of, happens, line_of, parsed, segment_of, text_of
from socket_model import Socket


class Program:
    """The program, which answers each line at once."""

    def __init__(self, program):
        self.process = subprocess.Popen([program], stdin=subprocess.PIPE, stdout=subprocess.PIPE)

    def ask(self, line):
        self.process.stdin.write(line.encode() + b"\n")
        self.process.stdin.flush()
        return self.process.stdout.readline().decode()

    def close(self):
        self.process.stdin.close()
        self.process.stdout.close()
        self.process.wait()


class Model:
    """The model."""

    one = None

    def ask(self, line):
        name, operands = event_of(line)
        if name == "socket":
            self.one = Socket(*operands)
            return "Closed - -"
        return happens(self.one, name, operands)[1]

    def close(self):
        pass


def machine_of(program):
    return Model() if program == "model" else Program(program)


class End:
    """A socket, with its state and when `tick` is due. `watch` looks at each line and its answer."""

    def __init__(self, machine, watch, *options):
        self.machine, self.watch, self.now = machine, watch, 0
        self.call(0, "socket", *options)

    def call(self, now, name, *operands):
        """Lets an event happen at a time. Returns the words of the result."""
        if now != self.now:
            self.now = now
            self.ask("at", (now,))
        return self.ask(name, operands)

    def ask(self, name, operands):
        answer = parsed(self.machine.ask(line_of(name, operands)))
        self.state, _, words, self.due = answer
        self.watch.sees(name, operands, answer)
        return words

    def segment(self, now, name, *operands):
        """An event that may send: the segment, or None."""
        return segment_of(self.call(now, name, *operands))

    def ticks(self, now):
        """All segments that go out now."""
        while segment := self.segment(now, "tick"):
            yield segment

    def write(self, now, text):
        return int(self.call(now, "write", text)[0])

    def read(self, now, count):
        return text_of(self.call(now, "read", count)[0])
