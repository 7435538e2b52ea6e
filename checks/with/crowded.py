"""A row of checks/failures: threads that the system refuses a server of many connections. The clock's is its first; a
connection whose thread is refused is served by the one that takes connections, while others wait."""
import signal

import served
from stored import BASE, HELLO, MARK, RUNNING, Device, request, values
from traced import calls_of, tracing

CONNECTIONS = 4


class Caller:
    """A connection of a user who may read, in the framing of base:1.0."""

    def __init__(self, server):
        self.line, self.left = server.dial(), b""
        self.line.sendall(b"alice\n" + HELLO.encode() + MARK)

    def message(self):
        while MARK not in self.left:
            piece = self.line.recv(65536)
            if not piece:
                raise OSError("the line was hung up")
            self.left += piece
        told, _, self.left = self.left.partition(MARK)
        return told.decode()

    def ask(self, operation):
        self.line.sendall(request(operation).encode() + MARK)
        return self.message()

    def fault(self):
        """What is not as wanted of its session, from the hello to the end."""
        try:
            hello, found = self.message(), values(self.ask(RUNNING))
            closed, rest = self.ask("<close-session/>"), served.rest_of(self.line)
        except OSError as error:
            return repr(error)
        as_wanted = f'<hello xmlns="{BASE}">' in hello and found == (1, None) and "<ok/>" in closed and rest == 0
        return "" if as_wanted else f"{found}, {closed}, {rest}"


def threads(table, say):
    """From each number of a thread on they are refused; all connections are open before the first is asked anything."""
    cases = table.part(range(1, CONNECTIONS + 3), 3)
    for first in cases:
        device = Device(table.room)
        failing = [(call, "EAGAIN", f"{first}+") for call in ("clone", "clone3")]
        server = served.Server(table.program, device.folder, f"unix:{device.folder}/sock",
                               before=tracing(table.log, ["clone", "clone3"], failing=failing))
        callers = [Caller(server) for _ in range(CONNECTIONS)]
        told = [it.fault() for it in callers]
        server.signal(signal.SIGTERM)
        refused = sum("(INJECTED)" in rest for *_, rest in calls_of(table.log))
        fault = next((f"connection {at + 1}: {it}" for at, it in enumerate(told) if it), "")
        say(f"threads from the {first}. on", fault or ("" if refused else "no thread was refused"))
    return f"{CONNECTIONS} connections, {len(cases)} times"


ROWS = [("a thread that the system refuses", threads)]
