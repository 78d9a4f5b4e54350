"""A small MQTT 3.1.1 client for the scripts of this folder: packets, a stream of them, and a client
that keeps every rule over lost connections."""
import select
import socket
import struct
import time


def text(value):
    """Returns a text with its length before it (1.5.3)."""
    return struct.pack(">H", len(value)) + value


def packet(first, body=b""):
    """Returns a packet by its first byte and what follows its Remaining Length (2.2.3)."""
    length, size = b"", len(body)
    while True:
        size, digit = divmod(size, 128)
        length += bytes([digit | (128 if size else 0)])
        if not size:
            return bytes([first]) + length + body


def connect(name, clean=True, keep_alive=60):
    """Returns a CONNECT (3.1)."""
    return packet(0x10,
        b"\x00\x04MQTT\x04" + bytes([2 if clean else 0])
        + struct.pack(">H", keep_alive) + text(name))


def publish(topic, qos, number, payload, again=False):
    """Returns a PUBLISH (3.3)."""
    middle = struct.pack(">H", number) if qos else b""
    return packet(0x30 | (8 if again else 0) | qos << 1, text(topic) + middle + payload)


def subscribe(topic, qos, number=1):
    """Returns a SUBSCRIBE of one filter (3.8)."""
    return packet(0x82, struct.pack(">H", number) + text(topic) + bytes([qos]))


def answer(first, number):
    """Returns PUBACK, PUBREC, PUBREL or PUBCOMP (3.4 to 3.7)."""
    return packet(first, struct.pack(">H", number))


class Stream:
    """A connection from which whole packets are read."""

    def __init__(self, port):
        self.socket = socket.create_connection(("127.0.0.1", port), timeout=5)
        self.socket.setsockopt(socket.IPPROTO_TCP, socket.TCP_NODELAY, 1)
        self.bytes = b""

    def send(self, given):
        self.socket.sendall(given)

    def need(self, count):
        while len(self.bytes) < count:
            came = self.socket.recv(65536)
            if not came:
                raise ConnectionError("ended")
            self.bytes += came

    def waits(self, seconds):
        """Returns whether a byte is there, or comes in this time."""
        return bool(self.bytes or select.select([self.socket], [], [], seconds)[0])

    def read(self):
        """Returns the next packet's first byte and body."""
        size, at = 0, 1
        while True:
            self.need(at + 1)
            size |= (self.bytes[at] & 127) << 7 * (at - 1)
            at += 1
            if self.bytes[at - 1] < 128:
                break
        self.need(at + size)
        first, body, self.bytes = self.bytes[0], self.bytes[at : at + size], self.bytes[at + size :]
        return first, body

    def close(self, abruptly=False):
        if abruptly:
            self.socket.setsockopt(socket.SOL_SOCKET, socket.SO_LINGER, struct.pack("ii", 1, 0))
        self.socket.close()


class Client:
    """A client with a kept session that goes from address to address and forgets nothing between
    them (4.4)."""

    def __init__(self, name, ports):
        self.name, self.ports, self.turn, self.connects, self.stream = name, ports, 0, 0, None
        # What it published and is not done with: identifier to (stage, topic, QoS, payload), in
        # order; what it received and is not released.
        self.pending, self.received, self.next, self.gone = {}, set(), 0, 0.0

    def open(self, until):
        """Connects to the node that serves, and sends again what is not done. Returns whether its
        session was present."""
        began = time.monotonic()
        while time.monotonic() < until:
            self.turn += 1
            try:
                self.stream = Stream(self.ports[self.turn % len(self.ports)])
                self.stream.send(connect(self.name, clean=False))
                first, body = self.stream.read()
                if first == 0x20 and body[1] == 0:
                    self.connects, self.gone = self.connects + 1, time.monotonic() - began
                    for identifier, (stage, topic, qos, payload) in self.pending.items():
                        again = (answer(0x62, identifier) if stage == "released"
                            else publish(topic, qos, identifier, payload, True))
                        self.stream.send(again)
                    return body[0] == 1
                self.stream.close()
            except OSError:
                time.sleep(0.002)
        raise TimeoutError("no node takes the connection")

    def publish(self, topic, qos, payload):
        """Publishes; at QoS 1 and 2 it is kept until its handshake ends."""
        if not qos:
            return self.stream.send(publish(topic, 0, 0, payload))
        while True:
            self.next = self.next % 65535 + 1
            if self.next not in self.pending:
                break
        self.pending[self.next] = ("sent", topic, qos, payload)
        return self.stream.send(publish(topic, qos, self.next, payload))

    def take(self):
        """Reads a packet and answers it. Returns (topic, QoS, payload) of a message that it
        accepts, else None."""
        first, body = self.stream.read()
        kind, number = first & 0xF0, int.from_bytes(body[:2], "big")
        if kind == 0x30:
            return self.accept(first >> 1 & 3, body)
        if kind in (0x40, 0x70):
            self.pending.pop(number, None)
        elif kind == 0x50:
            if number in self.pending:
                _, *rest = self.pending.pop(number)
                self.pending[number] = ("released", *rest)
            self.stream.send(answer(0x62, number))
        elif kind == 0x60:
            self.received.discard(number)
            self.stream.send(answer(0x70, number))
        return None

    def accept(self, qos, body):
        """Answers a PUBLISH, and returns it if it is new."""
        at = 2 + int.from_bytes(body[:2], "big")
        topic, number, payload = (body[2:at], int.from_bytes(body[at : at + 2], "big"),
            body[at + (2 if qos else 0) :])
        if qos == 1:
            self.stream.send(answer(0x40, number))
        if qos == 2:
            again = number in self.received
            self.received.add(number)
            self.stream.send(answer(0x50, number))
            if again:
                return None
        return topic, qos, payload
