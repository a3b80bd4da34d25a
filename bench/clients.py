"""Clients that go on side by side, by asyncio, and keep what they sent and were told as a dump has it (docs/DUMP.md)."""

import asyncio
import dataclasses
import socket
import struct
import time


@dataclasses.dataclass(frozen=True)
class Command:
    """What a client sends, and how a dump has it."""

    request: bytes
    act: str


def line(text):
    return Command(text.encode() + b"\r\n", text)


def put(body):
    """A put, whose job has the least urgent priority for an hour."""
    return Command(b"put 0 0 3600 %d\r\n%s\r\n" % (len(body), body), f"put 0 0 3600 {body.hex() or '-'}")


class Client:
    """One connection, which keeps what it sent and was told. Its first command uses a tube that is named as the client: so its
    session is found in the dump."""

    def __init__(self, name):
        self.name = name
        self.sent, self.told = [], []
        self.came, self.longest_wait = b"", 0
        self.socket = socket.socket()
        self.socket.setblocking(False)

    async def connect(self, port):
        await asyncio.get_running_loop().sock_connect(self.socket, ("127.0.0.1", port))
        self.socket.setsockopt(socket.IPPROTO_TCP, socket.TCP_NODELAY, 1)

    async def come(self, port):
        """Connects, and says its name."""
        await self.connect(port)
        assert await self.ask(line(f"use {self.name}")) == f"USING {self.name}"

    async def write(self, data):
        await asyncio.get_running_loop().sock_sendall(self.socket, data)

    async def send(self, *commands):
        """Sends commands in one write."""
        self.sent += [command.act for command in commands]
        await self.write(b"".join(command.request for command in commands))

    async def more(self):
        """Waits for more bytes, and answers whether there are any."""
        piece = await asyncio.get_running_loop().sock_recv(self.socket, 65_536)
        self.came += piece
        return bool(piece)

    async def bytes_until(self, is_there):
        """Waits until that is there."""
        while not is_there():
            assert await self.more(), f"{self.name}: the server closed the connection"

    async def hear(self):
        """The next reply, as a dump has it."""
        await self.bytes_until(lambda: b"\n" in self.came)
        head, self.came = self.came.split(b"\r\n", 1)
        reply = head.decode()
        if reply.startswith(("RESERVED ", "FOUND ")):
            reply, length = reply.rsplit(" ", 1)
            size = int(length)
            await self.bytes_until(lambda: len(self.came) >= size + 2)
            assert self.came[size : size + 2] == b"\r\n"
            reply += f" {self.came[:size].hex() or '-'}"
            self.came = self.came[size + 2 :]
        self.told.append(reply)
        return reply

    async def ask(self, command):
        """Sends a command, and waits for its reply."""
        since = time.monotonic()
        await self.send(command)
        reply = await self.hear()
        self.longest_wait = max(self.longest_wait, time.monotonic() - since)
        return reply

    async def is_let_go(self):
        """Whether the server closes the connection, and says nothing more."""
        return not await self.more() and not self.came

    def stop_sending(self):
        self.socket.shutdown(socket.SHUT_WR)

    def close(self):
        self.socket.close()

    def reset(self):
        """Closes the connection as a system does whose process is gone."""
        self.socket.setsockopt(socket.SOL_SOCKET, socket.SO_LINGER, struct.pack("ii", 1, 0))
        self.socket.close()
