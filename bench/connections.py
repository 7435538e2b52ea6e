"""A server on a socket of its own, and sessions at it, for the scripts of bench/ that want many of them.

A session is a bare connection of base:1.0, whose first line names its peer as netconf-relay would.
"""
import os
import resource
import shutil
import socket
import subprocess
import tempfile
import time

from payloads import BASE, TOP, interfaces

MARK = b"]]>]]>"
HELLO = (f'<hello xmlns="{BASE}"><capabilities><capability>urn:ietf:params:netconf:base:1.0</capability></capabilities>'
         "</hello>").encode() + MARK
PATIENCE = 60


def many_files():
    """Lets this process and the server have as many connections as the system allows."""
    _, most = resource.getrlimit(resource.RLIMIT_NOFILE)
    resource.setrlimit(resource.RLIMIT_NOFILE, (most, most))


def demo_device(room, count):
    """A folder of demo/device with so many interfaces in place of its own."""
    folder = tempfile.mkdtemp(dir=room)
    shutil.copytree(f"{TOP}/demo/device", folder, dirs_exist_ok=True)
    with open(f"{folder}/initial.xml") as file:
        text = file.read()
    begin = text.index("<interfaces")
    end = text.index("</interfaces>") + len("</interfaces>")
    with open(f"{folder}/initial.xml", "w") as file:
        file.write(text[:begin] + interfaces(count) + text[end:])
    return folder


class Server:
    """A server of a folder, which listens once it is made, and is ended where the block is left. It begins without a store,
    or over the one that is there."""

    def __init__(self, program, folder, keeps=False):
        self.path = f"{folder}/sock"
        if os.path.exists(f"{folder}/running.nc") and not keeps:
            os.remove(f"{folder}/running.nc")
        self.process = subprocess.Popen([program, "serve", folder, f"unix:{self.path}"], stdin=subprocess.DEVNULL,
                                        stdout=subprocess.DEVNULL, stderr=subprocess.PIPE)
        end = time.time() + PATIENCE
        while time.time() < end and self.process.poll() is None:
            try:
                self.dial().close()
                return
            except OSError:
                time.sleep(0.01)
        self.process.kill()
        raise SystemExit(f"the server does not listen: {self.process.stderr.read().decode().strip()}")

    def __enter__(self):
        return self

    def __exit__(self, *_):
        self.process.kill()
        self.process.wait()

    def dial(self):
        """A bare connection."""
        it = socket.socket(socket.AF_UNIX)
        it.settimeout(PATIENCE)
        it.connect(self.path)
        return it

    def seconds(self):
        """The processor time that it has taken."""
        with open(f"/proc/{self.process.pid}/stat") as stat:
            user, system = stat.read().rpartition(")")[2].split()[11:13]
        return (int(user) + int(system)) / os.sysconf("SC_CLK_TCK")

    def memory(self, what="VmHWM"):
        """Its memory in kB, at its peak or as it is (`VmRSS`)."""
        with open(f"/proc/{self.process.pid}/status") as status:
            return next(int(line.split()[1]) for line in status if line.startswith(what))


class Session:
    """A session of a user, greeted on both sides."""

    def __init__(self, server, user="root", groups=("root",)):
        self.socket = server.dial()
        self.buffer = b""
        self.socket.sendall(" ".join((user, *groups)).encode() + b"\n" + HELLO)
        told = self.message()
        self.number = int(told.partition(b"<session-id>")[2].partition(b"<")[0])

    def message(self):
        """The next message of the server."""
        while MARK not in self.buffer:
            piece = self.socket.recv(1 << 20)
            if not piece:
                raise ConnectionError("the server closed the connection")
            self.buffer += piece
        told, _, self.buffer = self.buffer.partition(MARK)
        return told

    def send(self, operation, number=1):
        self.socket.sendall(f'<rpc xmlns="{BASE}" message-id="{number}">{operation}</rpc>'.encode() + MARK)

    def ask(self, operation):
        """The reply to an operation."""
        self.send(operation)
        return self.message()

    def close(self):
        self.ask("<close-session/>")
        self.socket.close()
