"""A client that waits for each reply, and notices that its server has gone."""

import socket


class Gone(Exception):
    """The server has gone."""


class Connection:
    def __init__(self, port):
        self.socket = socket.create_connection(("127.0.0.1", port), timeout=30)
        self.socket.setsockopt(socket.IPPROTO_TCP, socket.TCP_NODELAY, 1)
        self.came = b""

    def more(self):
        try:
            piece = self.socket.recv(65_536)
        except OSError as error:
            raise Gone from error
        if not piece:
            raise Gone
        self.came += piece

    def line(self):
        while b"\r\n" not in self.came:
            self.more()
        line, self.came = self.came.split(b"\r\n", 1)
        return line

    def body(self, size):
        while len(self.came) < size + 2:
            self.more()
        body, self.came = self.came[:size], self.came[size + 2:]
        return body

    def ask(self, request):
        """The words of the reply, and the body of a job."""
        try:
            self.socket.sendall(request)
        except OSError as error:
            raise Gone from error
        words = self.line().split()
        return words, self.body(int(words[2])) if words[0] in (b"RESERVED", b"FOUND") else None
