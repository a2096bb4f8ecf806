"""How many events it takes until every hart has ended: runs on longer and longer schedules."""
import mmap
import os
import subprocess
import tempfile

from gibolufi import order, program
from gibolufi.explain import explain
from gibolufi.report import Report
from gibolufi.words import Refused, listed

FIRST_TRY = 1024
LAST_LETTERS = {"w": "it waits for a core", "x": "it is held by a core's lock",
                "s": "it still executes instructions", "": "it made no event"}


class NeverEnded(Refused):
    """Some hart hadn't ended after the limit."""

    def __init__(self, words, places):
        super().__init__(words)
        # The pcs of the harts that hadn't ended.
        self.places = places


class Trial:
    """Runs of a program's command on one configuration and image, in a folder of their own."""

    def __init__(self, path, config, image, progress, mode="run"):
        self.path, self.config, self.image, self.progress, self.mode = path, config, image, progress, mode

    def events_until_ended(self, turns, limit):
        """How many events of these turns it takes, and how each hart ended."""
        with tempfile.TemporaryDirectory() as folder:
            self.files = {role: os.path.join(folder, role) for role in ("schedule", "order", "report")}
            events = min(FIRST_TRY, limit)
            while True:
                report = self.run(turns, events)
                if not self.running(report):
                    return self.events_until_last_step(), report
                if events == limit:
                    raise NeverEnded(self.what_never_ended(report, limit),
                                     [report.harts[number].pc for number in self.running(report)])
                events = min(2 * events, limit)

    def run(self, turns, events):
        """The report of so many events."""
        with open(self.files["schedule"], "w", encoding="ascii") as file:
            file.writelines(turns.parts(events))
        words = [self.mode, "--config", self.config, "--image", self.image]
        for role, name in self.files.items():
            words += [f"--{role}", name]
        process = subprocess.Popen([self.path, *words], stdin=subprocess.DEVNULL, stderr=subprocess.PIPE)
        while True:
            try:
                said = process.communicate(timeout=1)[1].decode(errors="replace")
                break
            except subprocess.TimeoutExpired:
                self.progress.tell(f"tries {events:,} events")
            except BaseException:
                process.kill()
                process.wait()
                raise
        if process.returncode != 0:
            raise refusal(words, process.returncode, said)
        return Report(self.files["report"])

    @staticmethod
    def running(report):
        """The harts that haven't ended."""
        return [number for number, hart in enumerate(report.harts) if hart.status == "run"]

    def what_never_ended(self, report, limit):
        """Which harts hadn't ended, and what each was doing."""
        parts = []
        for number in self.running(report):
            letter = order.last_entry_of(self.files["order"], f"h{number}")
            parts.append(f"h{number} at pc {report.harts[number].pc:08x} ({LAST_LETTERS.get(letter, '')})")
        verb = "hadn't" if len(parts) else "had"
        return f"{listed(parts)} {verb} ended after {limit} events"

    def events_until_last_step(self):
        """The number of the order's last line that is a step of a hart: there the last one ended."""
        path = self.files["order"]
        with open(path, "rb") as file, mmap.mmap(file.fileno(), 0, prot=mmap.PROT_READ) as text:
            last = text.rfind(b"\ns ") + 1
            text.seek(0)
            count = 1
            while text.tell() < last:
                count += text.read(min(1 << 20, last - text.tell())).count(b"\n")
            return count


def refusal(words, status, said):
    """That the program refused its files, in words."""
    lines = [f"the program ends with status {status}: {said.strip()}", *explain(words, status, said)]
    return Refused("\n  ".join(lines))


def run_program(path, words):
    """Runs the program, and refuses where it doesn't end with 0."""
    status, said = program.run(path, words)
    if status:
        raise refusal(words, status, said)
