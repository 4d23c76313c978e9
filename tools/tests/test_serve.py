"""A desk that is served on loopback: what one link is answered over what another has put, and a desk that goes on from what another kept.

The replies are those of the rules, worked out by hand."""
import socket
import subprocess
import time
import unittest
from types import TracebackType

from tests.trial import NO_OUTPUT, PROGRAM, STREAMS, Trial, program

SECONDS = 60
AIRPORT = [("airport,u,1,AAA,public,0,0,1000", "ok,1,published,airport"), ("runway,u,2,AAA,09/27,other,hard,-50000,0,1000,P,50000,0,1000,NA", "ok,2,published,runway"),
           ("heliport,u,3,HHH,public,0,0,1000,0,1000,500", "ok,3,published,heliport")]
REFUSALS = [
    ("droprunway,u,4,ZZZ,09/27", "no,3,UnknownAirfield"), ("droprunway,u,4,AAA,01/19", "no,4,UnknownRunway"),
    ("runway,u,4,AAA,01/19,other,soft,0,0,1000,V,999,0,1000,V", "no,5,RunwayLength"), ("airport,u,4,BBB,public,0,0,200001", "no,9,ElevationRange"),
    ("heliport,u,4,KKK,public,0,0,1000,0,5001,500", "no,10,HeliportShape"), ("airport,u,4,HHH,public,0,0,500", "no,11,WrongKind"), ("abandon,u,4,7", "no,29,NoDay"),
    ("day,u,4,2026-01-15", "ok,4,published,day"), ("abandon,u,5,7", "no,14,UnknownCase"), ("airport,u,5,bbb,public,0,0,0", "no,13,Malformed,4"),
    ("screen,20000001,0,0,0,object,0,-,-", "no,13,Malformed,2"), ("sync", "sync,4"), ("verdict,-152000,0,1000,2001,object,0,-,-", "verdict,4,yes,yes,5")]
NOTICE = ("file,u,2,2026-03-01,-,-,normal,-,0,0,1000,2001,object,0,-,-", "ok,2,published,case,1,timely,-,-")
FIRST = [("day,u,1,2026-01-15", "ok,1,published,day"), NOTICE, NOTICE, (NOTICE[0].replace(",2001,", ",2002,"), "no,28,KeyReused,2"), ("abandon,u,3,1", "ok,3,published,abandon,1")]
AGAIN = [("sync", "sync,3"), NOTICE, ("abandon,u,4,1", "no,17,NotStanding,abandoned")]


def post(record: str) -> bytes:
    """The request that sends a record."""
    body = f"{record}\n".encode()
    return b"POST /record HTTP/1.1\r\nContent-Length: %d\r\n\r\n%s" % (len(body), body)


class Link:
    """A link that is kept open."""

    def __init__(self, port: int) -> None:
        self.socket = socket.create_connection(("127.0.0.1", port), timeout=SECONDS)
        self.read = self.socket.makefile("rb")

    def reply(self, record: str) -> str:
        self.socket.sendall(post(record))
        return self.response()

    def response(self) -> str:
        """The body of the next response, without its last line end."""
        length = 0
        for line in iter(self.read.readline, b"\r\n"):
            name, _, value = line.partition(b":")
            if not line:
                raise EOFError("the link was closed")
            if name.lower() == b"content-length":
                length = int(value)
        return self.read.read(length).decode().rstrip("\n")

    def __enter__(self) -> "Link":
        return self

    def __exit__(self, *_: type[BaseException] | BaseException | TracebackType | None) -> None:
        self.read.close()
        self.socket.close()


@unittest.skipUnless(PROGRAM, "no program is named")
class Served(Trial):
    def serve(self, workers: int, *words: str, closed: str = "") -> tuple["subprocess.Popen[bytes]", int]:
        """A desk of which each worker serves one link, and its port; a standard stream of it may be closed."""
        with socket.socket() as it:
            it.bind(("127.0.0.1", 0))
            port = it.getsockname()[1]
        listen = ["--listen", f"127.0.0.1:{port}", "--workers", str(workers), "--turns", "1"]
        served = subprocess.Popen(program("serve", *listen, *words, closed=closed), cwd=self.folder, stdin=subprocess.DEVNULL, stdout=subprocess.PIPE, stderr=subprocess.PIPE)
        self.addCleanup(served.communicate)
        self.addCleanup(served.kill)
        return served, port

    def link(self, served: "subprocess.Popen[bytes]", port: int) -> Link:
        """A link to the desk, once it listens."""
        until = time.time() + SECONDS
        while True:
            try:
                return Link(port)
            except ConnectionRefusedError:
                if served.poll() is not None or time.time() > until:
                    raise
                time.sleep(0.05)

    def assert_ended(self, served: "subprocess.Popen[bytes]", count: int) -> None:
        out, err = served.communicate(timeout=SECONDS)
        self.assertEqual((served.returncode, out, err), (0, b"served %d\n" % count, b""))

    def test_addresses_at_which_nobody_listens(self) -> None:
        """A network's, a name, one without a port, and one that another listens at."""
        with socket.socket() as other:
            other.bind(("127.0.0.1", 0))
            other.listen()
            taken = f"127.0.0.1:{other.getsockname()[1]}"
            for address in ("0.0.0.0:0", "[::ffff:127.0.0.1]:0", "localhost:0", "127.0.0.1", taken):
                with self.subTest(address):
                    ended = subprocess.run([str(PROGRAM), "serve", "--listen", address, "--workers", "1", "--turns", "1"], cwd=self.folder, stdin=subprocess.DEVNULL,
                                           capture_output=True, check=False, timeout=SECONDS)
                    self.assertEqual((ended.returncode, ended.stdout, ended.stderr), (9, b"served 0\n", b"oe: gate fault\n"))

    def test_a_link_is_refused_over_what_another_put(self) -> None:
        served, port = self.serve(2)
        with self.link(served, port) as first, self.link(served, port) as second:
            self.assertEqual([first.reply(record) for record, _ in AIRPORT], [reply for _, reply in AIRPORT])
            self.assertEqual([second.reply(record) for record, _ in REFUSALS], [reply for _, reply in REFUSALS])
        self.assert_ended(served, 2)

    def test_responses_that_are_longer_than_what_may_wait(self) -> None:
        """Requests sent at once: the short responses come before and after a report of more than 64 KiB, and together are longer than that too."""
        ids = [f"A{number:04d}" for number in range(2_100)]
        airports = [f"airport,u,{key},{id},public,0,0,1000" for key, id in enumerate(ids, 1)]
        report = "\n".join([f"report,airfields,{len(ids)}", *[f"{id}     airport      1000   0" for id in ids]])
        short = ("airfield,A0007", "airfield,airport,public,0,0,1000")
        asked = [*[short] * 700, ("report,airfields", report), short, ("report,airfields", report), ("report,airfields", report), *[short] * 700]
        served, port = self.serve(1)
        with self.link(served, port) as link:
            self.assertEqual([link.reply(record) for record in airports], [f"ok,{number},published,airport" for number in range(1, len(ids) + 1)])
            link.socket.sendall(b"".join(post(record) for record, _ in asked))
            self.assertEqual([link.response() for _ in asked], [reply for _, reply in asked])
        self.assert_ended(served, 1)

    def test_a_desk_goes_on_from_what_another_kept(self) -> None:
        for said in (FIRST, AGAIN):
            served, port = self.serve(1, "--db", "office.db")
            with self.link(served, port) as link:
                self.assertEqual([link.reply(record) for record, _ in said], [reply for _, reply in said])
            self.assert_ended(served, 1)

    def test_a_standard_stream_that_is_closed(self) -> None:
        for kind in ("db", "oej"):
            files = []
            for closed in ("", *STREAMS):
                place = f"office{len(files)}.{kind}"
                served, port = self.serve(1, "--db", place, closed=closed)
                with self.link(served, port) as link:
                    self.assertEqual([link.reply(record) for record, _ in FIRST], [reply for _, reply in FIRST])
                out, err = served.communicate(timeout=SECONDS)
                self.assertEqual((served.returncode, out, err), (4, b"", b"oe: write fault\n") if closed == NO_OUTPUT else (0, b"served 1\n", b""))
                files.append((self.folder / place).read_bytes())
            self.assertEqual(files, files[:1] * len(files))
            self.assertNotIn(b"served", files[0])
