"""A bar that shows how far something is, if it takes longer than a second and somebody sees it."""
import sys
import time

WIDTH = 30
# After how many seconds it is shown first, and how many lie between two pictures of it.
AFTER, BETWEEN = 1.0, 0.1


class Progress:
    """A bar on standard error, for use in a `with`. Nothing is shown if standard error is no terminal."""

    def __init__(self, what: str):
        self.what, self.is_seen = what, sys.stderr.isatty()
        self.next, self.is_shown = time.monotonic() + AFTER, False

    def to(self, done: int, whole: int) -> None:
        """Tells how much is done, and of how much."""
        now = time.monotonic()
        if self.is_seen and now >= self.next:
            self.next, self.is_shown = now + BETWEEN, True
            part = min(1.0, done / whole) if whole else 1.0
            bar = "#" * round(part * WIDTH)
            sys.stderr.write(f"\r{self.what} [{bar:{WIDTH}}] {part:4.0%}")
            sys.stderr.flush()

    def __enter__(self):
        return self

    def __exit__(self, *_):
        if self.is_shown:
            # The line is cleared, since what follows tells the end.
            sys.stderr.write("\r\x1b[K")
            sys.stderr.flush()
