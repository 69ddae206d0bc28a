"""A line that is slow: a proxy on this machine that reads all that comes, as networks and proxies
do, and gives so many bytes a second on."""
import contextlib
import socket
import threading
import time

PIECE = 1500


class Slow:
    """A proxy to a port, of so many bytes a second in answers, which holds so many at most."""

    def __init__(self, port, rate=60_000, holds=1 << 22):
        self.to, self.rate, self.holds = port, rate, holds
        self.server = socket.create_server(("127.0.0.1", 0))
        self.port, self.sockets = self.server.getsockname()[1], [self.server]
        # One line for all connections, as a house has it.
        self.turn, self.free = threading.Lock(), time.monotonic()
        threading.Thread(target=self.serve, daemon=True).start()

    def serve(self):
        """Takes connections, until it is closed."""
        with contextlib.suppress(OSError):
            while True:
                client, _ = self.server.accept()
                page = socket.create_connection(("127.0.0.1", self.to))
                self.sockets += [client, page]
                for work in (self.ask, self.answer):
                    threading.Thread(target=work, args=(client, page), daemon=True).start()

    def ask(self, client, page):
        """What the client sends comes at once."""
        with contextlib.suppress(OSError):
            while data := client.recv(65536):
                page.sendall(data)
            page.shutdown(socket.SHUT_WR)

    def answer(self, client, page):
        """What the page answers is read at once, and comes as the line has room."""
        held, has_more = bytearray(), threading.Condition()
        over = threading.Event()

        def give():
            """Gives on what is held."""
            with contextlib.suppress(OSError):
                while True:
                    with has_more:
                        has_more.wait_for(lambda: held or over.is_set(), 60)
                        data = bytes(held[:PIECE])
                        del held[:PIECE]
                        has_more.notify_all()
                    if not data:
                        client.shutdown(socket.SHUT_WR)
                        return
                    self.pause(len(data))
                    client.sendall(data)

        threading.Thread(target=give, daemon=True).start()
        with contextlib.suppress(OSError):
            while data := page.recv(65536):
                with has_more:
                    has_more.wait_for(lambda: len(held) < self.holds, 600)
                    held.extend(data)
                    has_more.notify_all()
        over.set()
        with has_more:
            has_more.notify_all()

    def pause(self, count):
        """Waits until the line has room for so many bytes."""
        with self.turn:
            self.free = max(self.free, time.monotonic()) + count / self.rate
            left = self.free - time.monotonic()
        time.sleep(max(0, left))

    def close(self):
        """Ends it, with all connections."""
        for it in self.sockets:
            with contextlib.suppress(OSError):
                it.close()
