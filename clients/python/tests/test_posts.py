"""The part of HTTP by which etcd is asked, with a thread that answers."""

import functools
import os
import socket
import sys
import threading
import unittest

sys.path.insert(0, os.path.dirname(os.path.dirname(os.path.abspath(__file__))))
sys.path.insert(0, os.path.join(os.path.dirname(os.path.abspath(__file__)), "..", "..", "..", "server", "tests"))

from harness import PATIENCE, by_the_clock, needs_loopback  # noqa: E402
from wozgirt import etcd  # noqa: E402
from wozgirt.etcd import Denied, NoAnswer, Silent  # noqa: E402

Member = functools.partial(etcd.Member, patience=PATIENCE)
CHUNKED = b"HTTP/1.1 200 OK\r\nTransfer-Encoding: chunked\r\n\r\n"


def answer(body, status="200 OK", more=""):
    """An answer whose length is said."""
    return b"HTTP/1.1 %s\r\nContent-Length: %d\r\n%s\r\n%s" % (status.encode(), len(body), more.encode(), body)


def chunks(*parts):
    """The parts as chunks."""
    return b"".join(b"%x\r\n%s\r\n" % (len(part), part) for part in parts)


class Door:
    """Has a connection for each of `connections`, and answers its posts one after the other; a context manager. An answer is sent piece
    by piece. For None nothing is sent until the other end goes."""

    def __init__(self, *connections):
        self.posts, self._connections = [], connections
        self._door = socket.create_server(("127.0.0.1", 0))
        self.place = (False, *self._door.getsockname())
        self._thread = threading.Thread(target=self._serve, daemon=True)
        self._thread.start()

    def _serve(self):
        for answers in self._connections:
            sock = self._door.accept()[0]
            sock.setsockopt(socket.IPPROTO_TCP, socket.TCP_NODELAY, 1)
            with sock, sock.makefile("rb") as file:
                for pieces in answers:
                    if pieces is None:
                        file.read()
                    else:
                        self._hear(file)
                        [sock.sendall(piece) for piece in pieces]

    def _hear(self, file):
        head = {}
        first = file.readline()
        while (line := file.readline()) != b"\r\n":
            name, _, value = line.partition(b":")
            head[name.lower()] = value.strip()
        self.posts.append((first, head, file.read(int(head[b"content-length"]))))

    def __enter__(self):
        return self

    def __exit__(self, *_):
        self._thread.join(PATIENCE)
        self._door.close()


@needs_loopback
class Posts(unittest.TestCase):
    def test_a_post_and_its_answer(self):
        with Door([[answer(b'{"a": 1}')], [answer(b'{"b": 2}')]]) as door:
            member = Member([door.place])
            self.assertEqual([member.ask("kv/put", {"x": 1}), member.ask("kv/range", {})], [{"a": 1}, {"b": 2}])
            member.turn()
        first, head, body = door.posts[0]
        self.assertEqual((first, body), (b"POST /v3/kv/put HTTP/1.1\r\n", b'{"x": 1}'))
        self.assertEqual((head[b"host"], head[b"grpc-metadata-hasleader"]), (b"127.0.0.1:%d" % door.place[2], b"true"))
        self.assertEqual(door.posts[1][0], b"POST /v3/kv/range HTTP/1.1\r\n")

    def test_an_answer_byte_by_byte(self):
        for text in (answer(b'{"a": [1, 2]}'), CHUNKED + chunks(b'{"a": ', b"[1, 2]", b"}", b"")):
            with Door([[text[i:i + 1] for i in range(len(text))]]) as door:
                member = Member([door.place])
                self.assertEqual(member.ask("x", {}), {"a": [1, 2]})
                member.turn()

    def told(self, door, end, why, **more):
        """What a stream tells, until it ends so."""
        found = []
        with self.assertRaisesRegex(end, why):
            for it in Member([door.place], **more).stream("watch", [{}]):
                found.append(it)
        return found

    def test_a_stream(self):
        lines = [b'{"result": {"n": %d}}\n' % i for i in range(5)]
        text = b"".join(lines)
        for parts in (lines, [text], [text[:7], text[7:50], text[50:]]):
            with Door([[CHUNKED + chunks(*parts, b"")]]) as door:
                self.assertEqual(self.told(door, NoAnswer, "it ended the stream"), [{"n": i} for i in range(5)])

    @by_the_clock
    def test_a_stream_that_is_silent(self, longer):
        with Door([[CHUNKED + chunks(b'{"result": {"n": 1}}\n')], None]) as door:
            self.assertEqual(self.told(door, Silent, "timed out", patience=0.1 * longer), [{"n": 1}])

    def test_a_stream_that_has_an_error(self):
        with Door([[CHUNKED + chunks(b'{"result": {"n": 1}}\n{"error": {"message": "no leader"}}\n')]]) as door:
            self.assertEqual(self.told(door, NoAnswer, "etcd says: no leader"), [{"n": 1}])

    def test_a_refusal_and_the_same_connection(self):
        with Door([[answer(b'{"error": "no"}', "400 Bad Request")], [answer(b"{}")]]) as door:
            member = Member([door.place])
            with self.assertRaisesRegex(Denied, "127.0.0.1:[0-9]*: no$"):
                member.ask("x", {})
            self.assertEqual(member.ask("x", {}), {})
            member.turn()

    def test_an_end_behind_the_answer(self):
        with Door([[answer(b'{"error": "no"}', "400 Bad Request", "Connection: close\r\n")]], [[answer(b"{}", more="Connection: close\r\n")]],
                  [[answer(b"{}")]]) as door:
            member = Member([door.place])
            with self.assertRaises(Denied):
                member.ask("x", {})
            self.assertEqual([member.ask("x", {}), member.ask("x", {})], [{}, {}])
            member.turn()

    def test_what_is_no_answer(self):
        for text in (b"", b"SSH-2.0\r\n\r\n", b"HTTP/1.1 20\r\n\r\n", b"HTTP/1.1 200 OK\r\n\r\n", answer(b"{}")[:-1], answer(b"[1]"), answer(b"{"),
                     b"HTTP/1.1 200 OK\r\nContent-Length: x\r\n\r\n", CHUNKED + b"x\r\n", CHUNKED + b"2\r\n{}12",
                     b"HTTP/1.1 200 OK\r\n" + b"x" * 200_000, answer(b'{"error": {"message": "no"}}')):
            with self.subTest(text=text[:60]), Door([[text]], [[answer(b"{}")]]) as door:
                member = Member([door.place])
                with self.assertRaises(NoAnswer):
                    member.ask("x", {})
                member.turn()
                self.assertEqual(member.ask("x", {}), {})  # over another connection
                member.turn()


if __name__ == "__main__":
    unittest.main()
