"""Serves texts by redis's protocol, so that redis-cli, redis-benchmark and redis's clients use it.

    python3 texts_server.py 6379        then redis-cli -p 6379
    python3 texts_server.py             serves some clients of its own, and ends

It knows GET, MGET, SET, DEL, INCR and PING. A command that reads has a snapshot, and each other one
is a transaction. So are all commands between MULTI and EXEC: they are done at one moment, if the
client still finds there what it watches.
"""

import re
import socket
import socketserver
import sys
import threading
from typing import Any, Callable, Dict, Iterator, List, Optional, Tuple

import cupolanettle
from texts import Texts

Command = Tuple[Callable[..., bytes], List[bytes]]
MOST = 1 << 20  # words of a command
TRIES = 10_000  # of a transaction
NUMBER = re.compile(rb"0|-?[1-9][0-9]{0,17}")  # has 64 bits

# ---- Answers, as the protocol writes them


def text_answer(text: Optional[bytes]) -> bytes:
    return b"$-1\r\n" if text is None else b"$%d\r\n%s\r\n" % (len(text), text)


def number_answer(number: int) -> bytes:
    return b":%d\r\n" % number


def array_answer(parts: List[bytes]) -> bytes:
    return b"*%d\r\n%s" % (len(parts), b"".join(parts))


def refusal(why: object, kind: str = "ERR") -> bytes:
    return f"-{kind} {why}\r\n".encode(errors="replace")


# ---- Commands, in a transaction


def mget(texts: Texts, *keys: bytes) -> bytes:
    return array_answer([text_answer(text) for text in texts.get_many(keys)])


def put(texts: Texts, key: bytes, text: bytes) -> bytes:
    texts.set(key, text)
    return b"+OK\r\n"


def delete(texts: Texts, *keys: bytes) -> bytes:
    return number_answer(sum(texts.set(key, None) for key in keys))


def incr(texts: Texts, key: bytes) -> bytes:
    text = texts.get(key)
    if text is not None and not NUMBER.fullmatch(text):
        return refusal("value is not an integer or out of range")
    number = int(text or 0) + 1
    texts.set(key, b"%d" % number)
    return number_answer(number)


# By name, with the number of words: the least and the most.
COMMANDS: Dict[bytes, Tuple[Callable[..., bytes], int, int]] = {
    b"GET": (lambda texts, key: text_answer(texts.get(key)), 1, 1),
    b"MGET": (mget, 1, MOST),
    b"SET": (put, 2, 2),
    b"DEL": (delete, 1, MOST),
    b"INCR": (incr, 1, 1),
    b"PING": (lambda _, *said: text_answer(*said) if said else b"+PONG\r\n", 0, 1),
}
READS = {b"GET", b"MGET", b"PING"}

# ---- Clients


class Client:
    """What a client watches, as it found it, and the commands since its MULTI."""

    def __init__(self, store: cupolanettle.Store[int, Any]) -> None:
        self.store = store
        self.forget()

    def forget(self) -> None:
        self.watched: Dict[bytes, Optional[bytes]] = {}
        self.queue: Optional[List[Command]] = None
        self.is_wrong = False

    def answer(self, words: List[bytes]) -> bytes:
        name, words = words[0].upper(), words[1:]
        function, least, most = CONTROLS.get(name) or COMMANDS.get(name) or (None, 0, 0)
        shown = name.decode(errors="replace").lower()
        try:
            if function is None:
                raise ValueError(f"unknown command '{shown}'")
            if not least <= len(words) <= most:
                raise ValueError(f"wrong number of arguments for '{shown}' command")
            if name in CONTROLS:
                return function(self, *words)
            if self.queue is None and name in READS:
                with self.store.snapshot() as rows:
                    return function(Texts(rows), *words)
            if self.queue is None:
                return self.store.transact(lambda rows: function(Texts(rows), *words), TRIES)
        except (cupolanettle.Error, ValueError) as error:  # or there is no room
            self.is_wrong = True
            return refusal(error)
        return self.keep(function, words)

    def keep(self, function: Callable[..., bytes], words: List[bytes]) -> bytes:
        """Keeps the command for EXEC."""
        self.queue.append((function, words))
        return b"+QUEUED\r\n"

    def watch(self, *keys: bytes) -> bytes:
        if self.queue is not None:
            return refusal("WATCH inside MULTI is not allowed")
        with self.store.snapshot() as rows:
            found = dict(zip(keys, Texts(rows).get_many(keys)))
        self.watched = {**found, **self.watched}  # as it found them first
        return b"+OK\r\n"

    def multi(self) -> bytes:
        if self.queue is not None:
            return refusal("MULTI calls can not be nested")
        self.queue, self.is_wrong = [], False
        return b"+OK\r\n"

    def discard(self) -> bytes:
        if self.queue is None:
            return refusal("DISCARD without MULTI")
        self.forget()
        return b"+OK\r\n"

    def unwatch(self) -> bytes:
        if self.queue is None:
            self.watched = {}
        return b"+OK\r\n" if self.queue is None else self.keep(lambda _: b"+OK\r\n", [])

    def exec(self) -> bytes:
        if self.queue is None:
            return refusal("EXEC without MULTI")
        watched, queue, is_wrong = self.watched, self.queue, self.is_wrong
        self.forget()
        if is_wrong:
            return refusal("Transaction discarded because of previous errors.", "EXECABORT")

        def all_of(rows: cupolanettle.Transaction) -> bytes:
            texts = Texts(rows)
            if texts.get_many(watched) != list(watched.values()):
                return b"*-1\r\n"
            return array_answer([function(texts, *words) for function, words in queue])

        return self.store.transact(all_of, TRIES)


CONTROLS: Dict[bytes, Tuple[Callable[..., bytes], int, int]] = {
    b"WATCH": (Client.watch, 1, MOST),
    b"UNWATCH": (Client.unwatch, 0, 0),
    b"MULTI": (Client.multi, 0, 0),
    b"DISCARD": (Client.discard, 0, 0),
    b"EXEC": (Client.exec, 0, 0),
}

# ---- Connections


def parse(came: bytes, at: int) -> Optional[Tuple[List[bytes], int]]:
    """The command here, and where it ends; None if it has not come whole."""
    end = came.find(b"\r\n", at)
    if end < 0 or not came.startswith(b"*", at):
        return None if end < 0 else (came[at:end].split(), end + 2)
    words = []
    for _ in range(int(came[at + 1 : end])):
        at = end + 2
        end = came.find(b"\r\n", at)
        if end < 0:
            return None
        begin = end + 2
        end = begin + int(came[at + 1 : end])
        if end + 2 > len(came):
            return None
        words.append(came[begin:end])
    return words, end + 2


class Connection(socketserver.StreamRequestHandler):
    disable_nagle_algorithm = True
    server: "Server"

    def handle(self) -> None:
        """Answers all commands that came together at one time."""
        client, came = Client(self.server.store), b""
        for part in iter(lambda: self.request.recv(1 << 16), b""):
            came, at, answers = came + part, 0, []
            for words, at in iter(lambda: parse(came, at), None):
                answers.append(client.answer(words) if words else b"")
            came = came[at:]
            self.request.sendall(b"".join(answers))


class Server(socketserver.ThreadingTCPServer):
    allow_reuse_address = daemon_threads = True
    request_queue_size = 64

    def __init__(self, port: int, store: cupolanettle.Store[int, Any]) -> None:
        super().__init__(("127.0.0.1", port), Connection)
        self.store = store


# ---- Some clients


def ask(link: socket.socket, command: str) -> str:
    """The answer to a command, of which all comes at one time."""
    words = command.encode().split()
    link.sendall(array_answer([text_answer(word) for word in words]))
    return link.recv(1 << 16).decode().replace("\r\n", " ").rstrip()


def count(address: Tuple[str, int]) -> None:
    with socket.create_connection(address) as link:
        for _ in range(100):
            ask(link, "INCR hits")


def talk(address: Tuple[str, int]) -> None:
    threads = [threading.Thread(target=count, args=(address,)) for _ in range(4)]
    for thread in threads:
        thread.start()
    for thread in threads:
        thread.join()
    with socket.create_connection(address) as one, socket.create_connection(address) as other:
        for link, command in [
            (one, "PING"),
            (one, "GET hits"),
            (one, "SET pear 5"),
            (one, "MGET pear fig"),
            (one, "WATCH pear"),
            (other, "INCR pear"),
            (one, "MULTI"),
            (one, "DEL pear"),
            (one, "EXEC"),  # nothing, as the other client came between
            (one, "WATCH pear"),
            (one, "MULTI"),
            (one, "INCR pear"),
            (one, "SET fig 1"),
            (one, "GET fig"),
            (one, "EXEC"),
            (one, "DEL pear fig plum"),
            (one, "GET"),
        ]:
            print("one  " if link is one else "other", command, "->", ask(link, command))


def main() -> None:
    with cupolanettle.Store(keys=1_000_000) as store:
        with Server(int(sys.argv[1]) if len(sys.argv) > 1 else 0, store) as server:
            if len(sys.argv) > 1:
                server.serve_forever()
            threading.Thread(target=server.serve_forever).start()
            talk(server.server_address)
            server.shutdown()


if __name__ == "__main__":
    main()
