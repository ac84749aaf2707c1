"""How many tests have passed, as they go."""


class Tally:
    def __init__(self, name: str):
        self.name, self.passed, self.failed = name, 0, 0

    def say(self, text: str) -> None:
        print(text, flush=True)

    def told(self, name: str, faults: list[str], figures: str = "") -> None:
        self.passed, self.failed = self.passed + (not faults), self.failed + bool(faults)
        self.say("%s: %s%s" % (name, "FAILED" if faults else "passed", ": " + figures if figures else ""))
        for fault in faults[:20]:
            self.say("    " + fault)

    def end(self) -> int:
        """Says how many, and gives the status of the process."""
        self.say("%s: %d passed, %d failed" % (self.name, self.passed, self.failed))
        return 1 if self.failed else 0
