"""News for the browsers that look at plans: each stream hears which plan has changed."""
from __future__ import annotations

import queue
import threading
from collections.abc import Callable, Iterator

MOST = 24
"""How many streams there may be: each holds a thread of the server. A browser beyond that asks now and then."""
BEAT = 5.0
"""After so many seconds without news a stream says that it is alive, and notices whether its reader is gone."""


class News:
    """Who wants to hear what has changed."""

    def __init__(self) -> None:
        self.lock = threading.Lock()
        self.readers: set[queue.SimpleQueue[str | None]] = set()

    def say(self, plan: str) -> None:
        """Tells all browsers that a plan has changed."""
        with self.lock:
            for reader in self.readers:
                reader.put(plan)

    def stop(self) -> None:
        with self.lock:
            for reader in self.readers:
                reader.put(None)

    def listen(self) -> queue.SimpleQueue[str | None] | None:
        """A place for one more stream, or none."""
        with self.lock:
            if len(self.readers) >= MOST:
                return None
            reader: queue.SimpleQueue[str | None] = queue.SimpleQueue()
            self.readers.add(reader)
            return reader

    def leave(self, reader: queue.SimpleQueue[str | None]) -> None:
        with self.lock:
            self.readers.discard(reader)

    def stream(self, reader: queue.SimpleQueue[str | None], gone: Callable[[], bool]) -> Iterator[bytes]:
        """What a stream says, until its reader is gone."""
        try:
            yield b"retry: 1000\n\n"
            while not gone():
                try:
                    plan = reader.get(timeout=BEAT)
                except queue.Empty:
                    yield b": alive\n\n"
                    continue
                if plan is None:
                    return
                yield f"event: changed\ndata: {plan}\n\n".encode()
        finally:
            self.leave(reader)
