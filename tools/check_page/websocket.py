"""A client for one WebSocket connection to this machine (RFC 6455): texts out, texts in."""
import base64
import os
import socket
import struct
import urllib.parse

TEXT, CLOSE, PING, PONG = 1, 8, 9, 10


class Closed(Exception):
    pass


class WebSocket:
    def __init__(self, url, patience):
        place = urllib.parse.urlsplit(url)
        self.socket = socket.create_connection((place.hostname, place.port), patience)
        self.left = b""
        key = base64.b64encode(os.urandom(16)).decode()
        head = f"GET {place.path} HTTP/1.1\r\nHost: {place.hostname}:{place.port}\r\nUpgrade: websocket\r\nConnection: Upgrade\r\n"
        self.socket.sendall(f"{head}Sec-WebSocket-Key: {key}\r\nSec-WebSocket-Version: 13\r\n\r\n".encode())
        while b"\r\n\r\n" not in self.left:
            self.left += self.came()
        answer, self.left = self.left.split(b"\r\n\r\n", 1)
        if b" 101 " not in answer.split(b"\r\n")[0]:
            raise Closed(answer.decode(errors="replace"))

    def came(self):
        piece = self.socket.recv(1 << 16)
        if not piece:
            raise Closed("the browser closed the connection")
        return piece

    def take(self, count):
        while len(self.left) < count:
            self.left += self.came()
        taken, self.left = self.left[:count], self.left[count:]
        return taken

    def frame(self, kind, data):
        size = len(data)
        head = bytes([0x80 | kind])
        head += bytes([0x80 | size]) if size < 126 else b"\xfe" + struct.pack(">H", size) if size < 1 << 16 else b"\xff" + struct.pack(">Q", size)
        mask = os.urandom(4)
        repeated = (mask * (size // 4 + 1))[:size]
        masked = (int.from_bytes(data, "big") ^ int.from_bytes(repeated, "big")).to_bytes(size, "big") if size else b""
        self.socket.sendall(head + mask + masked)

    def send(self, text):
        self.frame(TEXT, text.encode())

    def receive(self, patience):
        """Returns the next text. Raises TimeoutError if none begins in time."""
        whole = b""
        while True:
            self.socket.settimeout(patience)
            first, second = self.take(2)
            size = second & 127
            if size >= 126:
                size = int.from_bytes(self.take(2 if size == 126 else 8), "big")
            data = self.take(size)
            kind = first & 15
            if kind == PING:
                self.frame(PONG, data)
            elif kind == CLOSE:
                raise Closed("the browser closed the connection")
            elif kind != PONG:
                whole += data
                if first & 0x80:
                    return whole.decode()

    def close(self):
        self.socket.close()
