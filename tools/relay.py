"""Connections that pass through a script, which holds, cuts, delays or slows them."""
import socket
import threading
import time


class Relay:
    """Listens on a port, and passes on what comes by each connection to another port, and what is
    answered. `gates` has an event for what goes there, and one for what is answered: while it is
    not set nothing passes that way, and what comes waits. Of what is passed on `most` bytes go at
    once, each after `delay` seconds, and so many a second as `rate`."""

    def __init__(self, port):
        self.target = port
        self.gates = [threading.Event(), threading.Event()]
        self.most, self.delay, self.rate, self.is_broken = 65536, 0.0, 0, False
        self.door = socket.create_server(("127.0.0.1", 0))
        self.port = self.door.getsockname()[1]
        self.open()
        threading.Thread(target=self.serve, daemon=True).start()

    def serve(self):
        while True:
            one, other = self.door.accept()[0], socket.socket()
            try:
                other.connect(("127.0.0.1", self.target))
            except OSError:
                one.close()
                continue
            for it in one, other:
                it.setsockopt(socket.IPPROTO_TCP, socket.TCP_NODELAY, 1)
            for way, ends in enumerate(((one, other), (other, one))):
                threading.Thread(target=self.carry, args=[way, *ends], daemon=True).start()

    def carry(self, way, source, sink):
        try:
            while came := source.recv(self.most):
                self.gates[way].wait()
                time.sleep(self.delay + (len(came) / self.rate if self.rate else 0))
                if self.is_broken:
                    # (most often in the middle of a frame)
                    sink.sendall(came[: len(came) // 2])
                    break
                sink.sendall(came)
        except OSError:
            pass
        for it in source, sink:
            try:
                it.shutdown(socket.SHUT_RDWR)
            except OSError:
                pass
            it.close()

    def open(self):
        """Lets everything pass."""
        for it in self.gates:
            it.set()
        self.most, self.delay, self.rate, self.is_broken = 65536, 0.0, 0, False

    def hold(self, *ways):
        """Lets nothing pass in these ways, 0 and 1."""
        for it in ways:
            self.gates[it].clear()
