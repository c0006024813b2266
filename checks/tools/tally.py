"""What passed and what failed of a script, and its last line."""
import threading


class Tally:
    """The counts; what failed is told at once."""

    def __init__(self, script):
        self.script, self.passed, self.failed, self.counting = script, 0, 0, threading.Lock()

    def want(self, name, is_so, said=""):
        with self.counting:
            self.passed += bool(is_so)
            self.failed += not is_so
            if not is_so:
                print(f"{self.script}, {name}: {said}".rstrip(), flush=True)

    def end(self):
        """Prints the last line; returns the exit status."""
        print(f"{self.passed} passed, {self.failed} failed")
        return 1 if self.failed or not self.passed else 0
