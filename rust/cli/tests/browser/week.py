"""Invented weeks of one kiosk, as cards with their logs: a log of version 2 that grows from Monday to Friday, evening by evening."""
import random
import struct
import subprocess

DAY, OPENED = 86400, 32400          # the shop is open for nine hours; second 0 is the opening on Monday
WARM, START, ASK, END, SERVICE = 1, 2, 4, 8, 1 << 31
UNTIL, BEFORE = "not e2 or e0 until[0,90] e1", "not e1 or prev[0,inf] e0"
NAMES = "0 head warm\n1 print starts\n2 customer asks\n3 print ends\n"


def records(total, faults, seed=57):
    """(second, letters) of every record, in turn."""
    rnd = random.Random(seed)
    off = [(2 * DAY + 8400, 2 * DAY + 11100), (3 * DAY, 3 * DAY + 2400)]                        # nothing logged
    visits = [(DAY + 15000, DAY + 16320), (3 * DAY + 25500, 3 * DAY + 26220)]
    inside = lambda t, spans: any(a <= t <= b for a, b in spans)
    seconds = [d * DAY + s for d in range(5) for s in range(OPENED + (d == 4)) if not inside(d * DAY + s, off + visits)]
    asked = [t for t in range(400, 4 * DAY + OPENED - 400, 420 if faults < 100 else 250)
             if t % DAY < OPENED - 400 and not inside(t, off + visits) and not inside(t + 200, off + visits)]
    later = [t for t in asked if t // DAY >= 2 and t % DAY > 9000]                              # the head gets worse from Wednesday on
    bad = set(rnd.sample(asked, faults // 3) + rnd.sample(later, min(len(later), faults - faults // 3)))
    letters, cold = {}, set()
    for t in asked:
        wait = rnd.randrange(15, 70)
        if t in bad and rnd.random() < .35:
            wait = rnd.randrange(93, 140)
        elif t in bad:
            fails = t + rnd.randrange(4, wait - 4)
            cold.update(range(fails, t + wait + rnd.choice((1, -3, -6))))
        for second, letter in [(s, ASK) for s in range(t, t + rnd.choice((1, 2, 3, 4)))] + [(t + wait, START), (t + wait + 31, END)]:
            letters[second] = letters.get(second, 0) | letter
    letters[4 * DAY + OPENED - 46] = START      # then nobody asks and nothing settles the rest
    times = sorted(seconds + rnd.choices(seconds, k=max(0, total - len(seconds))))
    out, before = [], None
    for t in times:
        events = letters.get(t, 0)
        out.append((t, (0 if t in cold else WARM) | (events if t != before else events & ASK)))
        before = t
    return sorted(out + [(t, WARM | SERVICE) for a, b in visits for t in range(a, b + 1)], key=lambda record: record[0])


def log(some):
    return b"KLG\0\2\0\0\0" + b"".join(struct.pack(">II", *record) for record in some)


class Week:
    """A card in a folder, with its log as it stands on Friday."""

    def __init__(self, havdrims, folder, name, rules, total=180_000, faults=12, names=NAMES, closed=False):
        self.havdrims, self.folder, self.card = havdrims, folder, folder / name
        self.log, self.page = folder / (name + ".klg"), folder / (name + ".html")
        letters = folder / (name + ".letters")
        letters.write_text(names)
        all_ = records(total, faults)
        self.run("new", self.card, *rules, "--letters", letters)
        for day in range(5):
            self.log.write_bytes(log([record for record in all_ if record[0] < (day + 1) * DAY]))
            self.run("evening", self.card, self.log)
        if closed:
            self.run("close", self.card, self.log, "--final")

    def run(self, *words):
        return subprocess.run([self.havdrims, *words], check=True, capture_output=True, text=True).stdout

    def make(self):
        self.run("page", self.card, self.log, self.page, "--start", "2026-11-09T09:00", "--force")

    def sheet(self):
        """The positions that are no, formula by formula."""
        lines = [line.split(",") for line in self.run("sheet", self.card, "--csv").splitlines()[1:]]
        return [{int(line[0]) for line in lines if line[k] == "no"} for k in range(1, len(lines[0]))]

    def overwrite(self, records_):
        """The kiosk overwrites its first records."""
        some = bytearray(self.log.read_bytes())
        some[8:8 + 8 * records_] = bytes(8 * records_)
        self.log.write_bytes(some)
