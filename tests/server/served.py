"""Starts `amqr serve` for tests: a configuration, a port, and what the program printed."""
import contextlib
import os
import signal
import socket
import subprocess
import tempfile
import time

TOP = os.path.dirname(os.path.dirname(os.path.dirname(os.path.realpath(__file__))))
PROGRAM = os.environ.get("AMQR", f"{TOP}/crates/amqr/out/amqr")
HEADER = bytes.fromhex("414D515000010000")
OPEN = bytes.fromhex("0000001102000000005310C00401A10163")
CLOSE = bytes.fromhex("0000000C0200000000531845")
# what memory may grow by: what the allocator keeps, and a thread's stack
GROWTH = 8_000


def free_port():
    with socket.socket() as s:
        s.bind(("127.0.0.1", 0))
        return s.getsockname()[1]


class Served:
    """The program, serving on ports of its own; `listeners` are the attributes of each listener, `addresses` those of each address."""

    def __init__(self, listeners=("",), users=(), addresses=(), words=(), before=(), program=PROGRAM):
        self.folder = tempfile.TemporaryDirectory()
        self.ports = [free_port() for _ in listeners]
        lines = []
        for port, more in zip(self.ports, listeners):
            lines += ["listener {", f"port: {port}", *more.split("\n"), "}"]
        for name, password in users:
            lines += ["user {", f"name: {name}", f"password: {password}", "}"]
        for more in addresses:
            lines += ["address {", *more.split("\n"), "}"]
        self.config = f"{self.folder.name}/config"
        with open(self.config, "w", encoding="utf-8") as file:
            file.write("\n".join(it for it in lines if it) + "\n")
        self.told = open(f"{self.folder.name}/told", "w+", encoding="utf-8")
        started = time.monotonic()
        self.process = subprocess.Popen(
            [*before, program, "serve", "--config", self.config, *words],
            stdout=subprocess.PIPE, stderr=self.told, text=True)
        self.listening = [self.process.stdout.readline().strip() for _ in listeners]
        # the seconds until it listened
        self.took = time.monotonic() - started

    @property
    def port(self):
        return self.ports[0]

    def connect(self, timeout=5, port=None):
        s = socket.create_connection(("127.0.0.1", port or self.port), timeout)
        s.settimeout(timeout)
        return s

    def opened(self):
        """A connection that has sent its header and open, and read the router's."""
        s = self.connect()
        s.sendall(HEADER + OPEN)
        read_bytes(s, 8 + 27)
        return s

    def memory(self):
        """The resident size, in kilobytes."""
        with open(f"/proc/{self.process.pid}/status", encoding="utf-8") as file:
            return next(int(line.split()[1]) for line in file if line.startswith("VmRSS:"))

    def lines(self):
        self.told.flush()
        with open(self.told.name, encoding="utf-8") as file:
            return file.read().splitlines()

    def said(self):
        """The lines without their times."""
        return [it.split(" ", 1)[1] for it in self.lines()]

    def lives(self):
        return self.process.poll() is None

    @contextlib.contextmanager
    def stopped(self):
        """All its threads stand still meanwhile, unless it has ended: what it writes can be read as it is at one moment."""
        self.process.send_signal(signal.SIGSTOP)
        if self.process.returncode is None:
            os.waitid(os.P_PID, self.process.pid, os.WSTOPPED | os.WEXITED | os.WNOWAIT)
        try:
            yield
        finally:
            self.process.send_signal(signal.SIGCONT)

    def wait(self, seconds=10):
        try:
            return self.process.wait(seconds)
        except subprocess.TimeoutExpired:
            return None

    def __enter__(self):
        return self

    def __exit__(self, *_):
        if self.lives():
            self.process.terminate()
            self.process.wait(10)
        self.process.stdout.close()
        self.told.close()
        self.folder.cleanup()


def read_bytes(s, count):
    """This many bytes, or those that came before the end."""
    data = b""
    while len(data) < count:
        piece = s.recv(count - len(data))
        if not piece:
            break
        data += piece
    return data


def read_end(s):
    """All bytes up to the end."""
    data = b""
    while True:
        try:
            piece = s.recv(65536)
        except ConnectionResetError:
            return data
        if not piece:
            return data
        data += piece


class Grown(Exception):
    """Memory didn't come back."""


def grown(before, after, most=GROWTH):
    if after > before + most:
        raise Grown(f"memory {before} before, {after} after")
    return f"memory {before} before, {after} after"


def settled(served):
    """Memory once all connections have left."""
    time.sleep(2.5)
    return served.memory()


class Rows:
    """Prints each row, and how many passed."""

    def __init__(self):
        self.passed = self.failed = self.known = 0

    def row(self, name, body, known=None):
        """A row: its name, and what its body says. `known` is a class of faults and why the row is known to fail with one: that is printed as
        such, and not counted as failed."""
        started = time.monotonic()
        word = "FAILED"
        try:
            said = body()
            if said is None or said is True or isinstance(said, str):
                word = "ok"
        except Exception as fault:  # a row that breaks fails, and the others go on
            said = f"{type(fault).__name__}: {fault}"
            if known and isinstance(fault, known[0]):
                word, said = "known", f"{fault}; known to fail: {known[1]}"
        self.passed += word == "ok"
        self.failed += word == "FAILED"
        self.known += word == "known"
        more = f": {said}" if isinstance(said, str) else ""
        if known and word == "ok":
            more += f"; it was known to fail: {known[1]}"
        print(f"{word} {name}{more} ({time.monotonic() - started:.1f} s)", flush=True)

    def rows_of(self, whose, words):
        """The rows that another program tells in the same words; its status is 0, or 1 where one failed."""
        told = subprocess.Popen(words, stdout=subprocess.PIPE, text=True)
        last = ""
        for line in told.stdout:
            last = line.strip()
            word, _, name = last.partition(" ")
            if word in ("ok", "FAILED"):
                print(f"{word} {whose}: {name}", flush=True)
                self.passed += word == "ok"
                self.failed += word == "FAILED"
        if told.wait() not in (0, 1) or not last.endswith(" failed"):
            print(f"FAILED {whose}: it ended with status {told.returncode} after {last!r}", flush=True)
            self.failed += 1

    def end(self):
        print(f"{self.passed} ok, {self.failed} failed" + (f", {self.known} known to fail" if self.known else ""))
        return 0 if self.failed == 0 else 1


def expect(found, wanted):
    if found != wanted:
        raise AssertionError(f"{found!r} in place of {wanted!r}")
