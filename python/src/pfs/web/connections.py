"""The connections of the server, of which slow ones keep nobody away."""
from __future__ import annotations

from collections import Counter
from operator import attrgetter
from typing import Any

from waitress.channel import HTTPChannel

# Seconds in which a request has to come, and between two looks at those that don't; how many connections of one address
# and of all wait for one.
LONGEST, PACE, MOST_OF_ONE, MOST = 30, 5, 32, 128


class Connection(HTTPChannel):  # type: ignore[misc]
    """A connection. waitress closes those that aren't active: here, what comes is no activity, but only what is
    answered. Where too many wait, a new one takes the place of the oldest one of the address that has most."""

    last_activity: float

    def __init__(self, server: Any, sock: Any, addr: Any, adj: Any, map: Any = None) -> None:
        super().__init__(server, sock, addr, adj, map)
        waiting = [each for each in server.active_channels.values() if not each.requests and not each.will_close]
        address, count = Counter(each.addr[0] for each in waiting).most_common(1)[0]
        if count > MOST_OF_ONE or len(waiting) > MOST:
            own = (each for each in waiting if each.addr[0] == address)
            min(own, key=attrgetter("last_activity")).will_close = True

    def handle_read(self) -> None:
        self.active = self.last_activity
        super().handle_read()

    def received(self, data: bytes) -> bool:
        self.last_activity = self.active
        return bool(super().received(data))
