"""The door of the desk: connections that have not shown the token are few, and end when they say nothing."""

from __future__ import annotations

import asyncio
import contextlib
import resource
import socket
from collections.abc import Callable

MOST_FILES = 8192  # that are asked of the system; strangers have a quarter of those that it gives
PATIENCE = 10.0  # seconds that a stranger may be there
CROWDED = 0.25  # the same, where there are as many strangers as may be
NO_FILES = 0.05  # seconds until the next try where the system gives no more files


def most_strangers() -> int:
    """How many connections may be strangers, by the files that this process may have open; it asks for more of them."""
    soft, hard = resource.getrlimit(resource.RLIMIT_NOFILE)
    most = MOST_FILES if hard == resource.RLIM_INFINITY else min(hard, MOST_FILES)
    with contextlib.suppress(OSError, ValueError):
        if soft != resource.RLIM_INFINITY and soft < most:
            resource.setrlimit(resource.RLIMIT_NOFILE, (most, hard))
            soft = most
    return max(16, (most if soft == resource.RLIM_INFINITY else min(soft, most)) // 4)


class Guest(asyncio.Protocol):
    """A connection, whose requests a protocol of the server answers. It is a stranger until `admit` is called."""

    def __init__(self, door: Door, inner: asyncio.Protocol) -> None:
        self._door, self._inner = door, inner
        self._transport: asyncio.BaseTransport | None = None
        loop = asyncio.get_running_loop()
        self.since = loop.time()
        self._timer = loop.call_later(PATIENCE, self.turn_away)
        door.strangers[self] = None

    def connection_made(self, transport: asyncio.BaseTransport) -> None:
        """The server's protocol begins."""
        self._transport = transport
        self._inner.connection_made(transport)

    def data_received(self, data: bytes) -> None:
        """The server's protocol reads."""
        self._inner.data_received(data)

    def eof_received(self) -> bool | None:
        """The server's protocol hears that no more is to come."""
        return self._inner.eof_received()

    def pause_writing(self) -> None:
        """The server's protocol waits."""
        self._inner.pause_writing()

    def resume_writing(self) -> None:
        """The server's protocol goes on."""
        self._inner.resume_writing()

    def connection_lost(self, fault: Exception | None) -> None:
        """The server's protocol ends."""
        self.admit()
        self._inner.connection_lost(fault)

    def admit(self) -> None:
        """The connection has shown the token, or has ended: it is no stranger any more."""
        self._timer.cancel()
        if self in self._door.strangers:
            del self._door.strangers[self]
            self._door.changed.set()

    def turn_away(self) -> None:
        """Ends the connection at once."""
        self.admit()
        if isinstance(self._transport, asyncio.Transport):
            self._transport.abort()


class Door:
    """`serve` makes the protocol of a connection; `strangers` are the guests that have not shown the token, the oldest first."""

    def __init__(self, serve: Callable[[], asyncio.Protocol]) -> None:
        self._serve, self._most = serve, most_strangers()
        self.strangers: dict[Guest, None] = {}
        self.changed = asyncio.Event()

    async def open(self, listening: socket.socket) -> None:
        """Lets in who comes, until it is cancelled."""
        loop = asyncio.get_running_loop()
        while True:
            await self._make_place()
            try:
                connection, _ = await loop.sock_accept(listening)
            except OSError:
                self._turn_away_oldest()
                await asyncio.sleep(NO_FILES)
                continue
            try:
                await loop.connect_accepted_socket(lambda: Guest(self, self._serve()), connection)
            except OSError:
                connection.close()

    async def _make_place(self) -> None:
        """Waits until there is place for one more stranger; the oldest goes when its time is over."""
        while len(self.strangers) >= self._most:
            oldest = next(iter(self.strangers))
            left = oldest.since + CROWDED - asyncio.get_running_loop().time()
            if left <= 0:
                oldest.turn_away()
                continue
            self.changed.clear()
            with contextlib.suppress(asyncio.TimeoutError):
                await asyncio.wait_for(self.changed.wait(), left)

    def _turn_away_oldest(self) -> None:
        if self.strangers:
            next(iter(self.strangers)).turn_away()


def admit(transport: asyncio.BaseTransport | None) -> None:
    """The connection of a request has shown the token."""
    guest = transport.get_protocol() if transport is not None else None
    if isinstance(guest, Guest):
        guest.admit()
