"""A reading line whose programs are threads of the operating system: a cutter, a sign finder and an expander at one desk.

As one writes it first, such a line may never end. The cutter is fast, and fills all 64 places with photographs. The finder holds
one of them OPEN and has no place for its signs: its put is refused with 8, and a sweep hands back nothing, since every
photograph can still be got. The cutter waits for a place, the expander for signs, and the finder for ever.

So the cutter begins a line only while it is less than WINDOW lines after the earliest one at work, which is the strong bound.
A line has two items, its photograph and its signs: whatever can still be got then has a place, and a sweep takes the rest.
"""

from concurrent.futures import ThreadPoolExecutor, as_completed
from contextlib import suppress

from thondrimai import ITEMS, NEVER, Desk, NoThread

LINES = 100
WINDOW = ITEMS // 2

# So many seconds a thread waits for the others before it gives up; in a line that works nobody waits so long.
PATIENCE = 60


class ThreadedLine:
    def __init__(self, lines: int, window: int = WINDOW, patience: float = PATIENCE) -> None:
        self.lines = lines
        self.window = window
        self.patience = patience
        self.read: list[int] = []
        self.handed_back: list[int] = []

        self.desk = desk = Desk()
        self.cutter = 0
        self.finder = desk.new_thread(self.cutter, 1)
        self.expander = desk.new_thread(self.cutter, 1)
        photographs, signs = desk.channel(self.cutter), desk.channel(self.cutter)
        self.cuts = desk.attach_output(self.cutter, photographs)
        self.looks = desk.attach_input(self.finder, photographs).connection
        self.writes = desk.attach_output(self.finder, signs)
        self.reads = desk.attach_input(self.expander, signs).connection

        # The readers go by what they hold open; the cutter says by its time which line comes next.
        desk.set(self.finder, NEVER)
        desk.set(self.expander, NEVER)
        desk.set(self.cutter, 1)

    def put(self, thread: int, connection: int, line: int, ticket: int) -> None:
        # Whoever meets a full desk sweeps it; what it hands back is kept for the one who owns the photographs.
        self.desk.put(thread, connection, line, ticket, timeout=self.patience, swept=self.handed_back.extend)

    def cut(self) -> None:
        desk = self.desk
        for line in range(1, self.lines + 1):
            if not desk.wait_for(lambda: line < desk.strong_bound() + self.window, timeout=self.patience):
                raise TimeoutError(f"line {line} has to wait for line {desk.strong_bound()}, which is not finished")
            self.put(self.cutter, self.cuts, line, 1000 + line)
            desk.set(self.cutter, line + 1)
        desk.end(self.cutter)

    def find(self) -> None:
        for _ in range(self.lines):
            photograph, line = self.desk.get_earliest(self.finder, self.looks, timeout=self.patience)
            self.put(self.finder, self.writes, line, self.signs_of(photograph))
            self.desk.consume(self.finder, self.looks, line)
        self.desk.end(self.finder)

    def signs_of(self, photograph: int) -> int:
        return photograph + 1000

    def expand(self) -> None:
        for _ in range(self.lines):
            _, line = self.desk.get_earliest(self.expander, self.reads, timeout=self.patience)
            self.read.append(line)
            self.desk.consume(self.expander, self.reads, line)
        self.desk.end(self.expander)

    def run(self) -> None:
        """Runs the three to their ends; what the first of them raises is raised here, at once."""
        with ThreadPoolExecutor(max_workers=3) as pool:
            try:
                for work in as_completed([pool.submit(work) for work in (self.cut, self.find, self.expand)]):
                    work.result()
            finally:
                self.stop()
        self.handed_back.extend(self.desk.strong_sweep().tickets)

    def stop(self) -> None:
        """Ends the threads that are still on the desk, so that nobody waits for one that has failed: who waits is refused with 1."""
        for thread in (self.cutter, self.finder, self.expander):
            with suppress(NoThread):
                self.desk.end(thread)


def main() -> None:
    line = ThreadedLine(LINES)
    line.run()
    print(f"{len(line.read)} lines are read, {len(line.handed_back)} tickets are handed back, {line.desk.items_present()} items stay.")


if __name__ == "__main__":
    main()
