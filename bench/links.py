"""A desk that serves HTTP on loopback, and links to it: shared by the scripts beside this file."""
import random, signal, socket, subprocess, sys, time

PATIENCE = 60.0
HEAD_END = b"\r\n\r\n"
LENGTH = b"Content-Length: "
OFTEN = 1_000_000
PORTS = range(10_000, 32_000)

# A script that is told to end leaves no desk behind that serves on.
signal.signal(signal.SIGTERM, lambda *_: sys.exit(128 + signal.SIGTERM))


def free_address():
    """An address of loopback that nobody has just now. Its port is none that the system hands out, since a connection from such a port to itself would succeed."""
    while True:
        address = "127.0.0.1", random.SystemRandom().choice(PORTS)
        with socket.socket() as it:
            try:
                it.bind(address)
                return address
            except OSError:
                continue


def start_serving(desk, workers, file=None):
    """Starts `serve` on a free address, and gives the process and the address."""
    address = free_address()
    words = [desk, "serve", "--listen", "%s:%d" % address, "--workers", str(workers), "--turns", str(OFTEN)]
    words += ["--db", file] if file else []
    return subprocess.Popen(words, stdin=subprocess.DEVNULL, stdout=subprocess.DEVNULL, stderr=subprocess.DEVNULL), address


def open_link(address, process=None):
    """A socket to the address once the program listens there. Ends the script where it has ended, or does not listen for long."""
    end = time.monotonic() + PATIENCE
    while time.monotonic() < end and not (process and process.poll() is not None):
        try:
            link = socket.create_connection(address, timeout=PATIENCE)
            link.setsockopt(socket.IPPROTO_TCP, socket.TCP_NODELAY, 1)
            return link
        except OSError:
            time.sleep(0.002)
    sys.exit(f"nobody listens at {address[0]}:{address[1]}; the program's status is {process and process.poll()}")


def post(record):
    """The bytes of a request that sends a record."""
    body = record.encode()
    return b"POST /record HTTP/1.1\r\nHost: desk\r\nContent-Length: %d\r\n\r\n" % len(body) + body


class Link:
    """A link that is kept open, with what was read behind the last response."""

    def __init__(self, socket):
        self.socket, self.held = socket, b""

    def more(self):
        got = self.socket.recv(65536)
        if not got:
            raise ConnectionError("the link was closed")
        self.held += got

    def response(self, request):
        """Sends a request and gives the head and the body of its response. Raises OSError where the link ends before it is whole."""
        self.socket.sendall(request)
        while (at := self.held.find(HEAD_END)) < 0:
            self.more()
        head = self.held[:at] + b"\r\n"
        length = head.index(LENGTH) + len(LENGTH)
        end = at + len(HEAD_END) + int(head[length:head.index(b"\r", length)])
        while len(self.held) < end:
            self.more()
        body, self.held = self.held[at + len(HEAD_END):end], self.held[end:]
        return head, body

    def ask(self, request):
        """Sends a request and gives the body of its response."""
        return self.response(request)[1]
