#!/usr/bin/env python3
"""Compares two programs that report gas-day lines as daysheet does: what they print, how long they take, what memory they need.

    tools/compare.py OURS BASELINE [COUNT]            COUNT inputs (200 if left out): the same bytes out, and the same status
    tools/compare.py --time OURS BASELINE [ROUNDS]    one input of a million lines, by turns, and the most memory that each held
    tools/compare.py --usage OURS                     words, files, failures and waiting, which no library test can see
    tools/compare.py --write FOLDER [COUNT]           the inputs alone, as FOLDER/SEED.txt

OURS and BASELINE are paths of programs. The inputs are drawn from their number as seed, so that a difference can be met again.
At the first one the script names the seed and the output line, leaves the input in a file and ends with status 1.

What an input has. It has some 2,000 lines of one of six kinds, by turns:
  plain      a book of 1 to 62 days at all ends of the calendar, told in any order: factors and later ones for the same point,
             enrolments, gate days, interval energies and degree days, late and revised ones among them, and readings of all four
             types that follow on one another, end where others do, reach over several, replace them, start or end at no mark
  damaged    the same, and one line in eight with other bytes (NUL, CR, non-ASCII, digits, signs, spaces, letters), cut, longer,
             empty, thousands of bytes long, or run into the next
  early      many lines before the opening, refused openings of each kind, and openings and factors after it
  crowded    a reading for each point and day until all 256 places are taken, and further ones
  limits     every number at its limit, one beyond it, 0 or of ten digits, and dates that do not exist or lie outside the book
  noise      tags, fields and ends of lines put together at random, and bytes at random
One input in three has no line feed after its last line. All seven tags and all refusals that a line can meet (1 to 13) are
among them: the script counts the refusals and says at the end how often each was met, and fails if one was not.
"""
import os
import random
import subprocess
import sys
import tempfile
import time
from datetime import date, timedelta

LINES = 2_000
COLUMNS = 45
FIRMS, SOFTS = "AS", "EC"
ENDS = [date(2001, 1, 1), date(2024, 2, 1), date(2023, 2, 10), date(2024, 7, 1), date(2023, 12, 20), date(2099, 10, 1)]
NO_DATES = ["20230229", "20240732", "20241301", "20240700", "21000101", "20001231", "00000000", "02024070", "99999999"]
PALETTE = b"\x00\r\t\xff\xc2\xa0 0123456789-+.aAZESC"


def line(tag, *fields, letter=" "):
    text = tag + "".join(str(field).rjust(10) for field in fields)
    return text.ljust(COLUMNS - 1)[: COLUMNS - 1].encode("latin-1") + letter.encode("latin-1") + b"\n"


def digits(day):
    return day.strftime("%Y%m%d") if isinstance(day, date) else day


class Book:
    """Lines of one input. It keeps a rough account of what was accepted, so that most entries can be."""

    def __init__(self, draw, kind):
        self.draw, self.kind, self.lines = draw, kind, []
        self.days = 62 if kind == "crowded" else draw.choice([1, 2, 5, 28, 30, 31, 31, 45, 62, 62])
        self.first = draw.choice(ENDS) + timedelta(draw.randrange(20))
        if kind == "limits" and draw.random() < 0.5:
            self.first = date(2099, 12, 30) - timedelta(self.days - 1)
        # the load of a day, roughly
        self.size = draw.choice([3, 60, 500, 2_000, 2_000, 1_000_000])
        self.starts, self.held, self.loaded = {}, {}, set()

    def add(self, *words, **more):
        self.lines.append(line(*words, **more))

    def chance(self, p):
        return self.draw.random() < p

    def day(self, place):
        return self.first + timedelta(place)

    def number(self, low, high):
        """A number within its limits, and now and then at them or beyond."""
        edge = 0.5 if self.kind == "limits" else 0.01
        if self.chance(edge):
            return self.draw.choice([low, high, high + 1, max(low - 1, 0), 0, 9_999_999_999])
        return self.draw.randint(low, high)

    def energy(self, high):
        edge = 0.5 if self.kind == "limits" else 0.005
        if self.chance(edge):
            return self.draw.choice([0, high, high + 1, 9_999_999_999])
        return self.draw.randrange(min(self.size, high) + 1)

    def point(self):
        return self.number(1, 32)

    def any_day(self):
        if self.chance(0.3 if self.kind == "limits" else 0.01):
            return self.draw.choice(NO_DATES + [self.day(-1), self.day(self.days), self.day(self.days + 1)])
        return self.day(self.draw.randrange(self.days))

    # before the opening

    def factors(self):
        """Half of the load by base loads and half by 10 degree days, where all points are estimated."""
        base, sensitivity = self.size * 1_000 // 64, self.size * 100 // 64
        if self.kind == "limits":
            base, sensitivity = self.energy(100_000_000), self.number(0, 1_000_000)
        elif self.chance(0.9):
            base, sensitivity = (self.draw.randrange(2 * one + 2) for one in (base, min(sensitivity, 499_999)))
        self.add("FACT", self.point(), base, sensitivity)

    def bad_opening(self):
        first, days, unaccounted = self.day(0), self.days, 0
        way = self.draw.randrange(5)
        if way == 0:
            days = self.draw.choice([0, 63, 400, 9_999_999_999])
        elif way == 1:
            unaccounted = self.draw.choice([2_001, 9_999_999_999])
        elif way == 2:
            first, days = date(2099, 12, 30), self.draw.choice([2, 62])
        elif way == 3:
            first = self.draw.choice(NO_DATES)
        else:
            first, days, unaccounted = date(2099, 12, 31), self.draw.choice([1, 63]), self.draw.choice([0, 2_001])
        self.add("OPEN", digits(first), days, unaccounted)

    def open(self):
        for _ in range(self.draw.randrange(60)):
            self.factors()
        if self.kind == "early":
            for _ in range(300):
                self.draw.choice([self.factors, self.bad_opening, self.entry, self.entry])()
            self.starts, self.held, self.loaded = {}, {}, set()
        self.add("OPEN", digits(self.first), self.days, self.draw.choice([0, 0, 300, 2_000]))

    # after it

    def enrol(self, point=None):
        point = self.point() if point is None else point
        day = self.any_day() if self.chance(0.3) else self.day(self.draw.randrange(1 + self.days // 3))
        self.add("ENRL", point, self.number(1, 16), digits(day))
        if isinstance(day, date) and point not in self.starts:
            self.starts[point] = (day - self.first).days
            self.held[point] = []

    def gate(self, day=None):
        day = self.any_day() if day is None else day
        energy_out = self.energy(1_000_000_000) // self.draw.choice([2, 5, 50])
        self.add("GATE", digits(day), self.energy(1_000_000_000), energy_out)
        if isinstance(day, date):
            self.loaded.add((day - self.first).days)

    def interval(self):
        self.add("INTV", digits(self.any_day()), self.number(1, 32), self.energy(100_000_000) // self.draw.choice([30, 300]))

    def degrees(self):
        self.add("DEGD", digits(self.any_day()), self.number(0, self.draw.choice([2_000, 20_000])))

    def marks(self, point):
        return sorted({self.starts.get(point, 0)} | {end for _, end, _ in self.held.get(point, [])})

    def span(self, point):
        """Where a reading may start and end: mostly as the rules have it."""
        marks = self.marks(point)
        start = self.draw.choice(marks) if self.chance(0.4) or marks[-1] >= self.days else marks[-1]
        later = [mark for mark in marks if mark > start]
        length = self.draw.choice([1, 1, 2, 3, 7, 14, 28])
        way = self.draw.random()
        if way < 0.45 and later:
            return start, self.draw.choice(later)
        if way < 0.85:
            return start, min(max(marks[-1] + length if later else start + length, start), self.days)
        if way < 0.93:
            return start, start + self.draw.randrange(-2, 4)
        return self.draw.randrange(-1, self.days + 1), self.draw.randrange(-1, self.days + 3)

    def reading(self, point=None, span=None):
        if point is None:
            point = self.draw.choice(list(self.starts)) if self.starts and self.chance(0.97) else self.point()
        start, end = span or self.span(point)
        letter = self.draw.choice(FIRMS + FIRMS + SOFTS)
        energy = self.energy(10_000_000)
        if self.kind != "limits":
            energy = min(energy * max(end - start, 1) // self.draw.choice([16, 64, 64, 100, 200]), 10_000_000)
        if self.chance(0.02):
            energy = -self.draw.choice([1, 5, 999_999_999])
        dates = [digits(self.day(start)), digits(self.day(end))]
        if self.chance(0.2 if self.kind == "limits" else 0.005):
            dates[self.draw.randrange(2)] = self.draw.choice(NO_DATES)
        self.add("READ", point, *dates, energy, letter=letter)
        kept = self.held.setdefault(point, [])
        covered = [one for one in kept if one[0] < end and start < one[1]]
        if (
            start < end <= self.days
            and start in self.marks(point)
            and (end in self.marks(point) or end > self.marks(point)[-1])
            and all(day in self.loaded for day in range(start, end))
            and not (letter in SOFTS and any(one[2] in FIRMS for one in covered))
        ):
            self.held[point] = [one for one in kept if one not in covered] + [(start, end, letter)]

    def out_of_turn(self):
        self.draw.choice([self.factors, self.bad_opening])()

    def entry(self):
        ways = [(self.gate, 6), (self.interval, 6), (self.degrees, 5), (self.reading, 14), (self.enrol, 1), (self.out_of_turn, 1)]
        if self.kind == "early":
            ways[-1] = (self.out_of_turn, 8)
        self.draw.choices([way for way, _ in ways], [weight for _, weight in ways])[0]()

    def begin(self):
        """Most of the enrolments and gate days, some days of which come later."""
        points = list(range(1, 33))
        self.draw.shuffle(points)
        for point in points[: 32 if self.kind == "crowded" else self.draw.randrange(1, 33)]:
            self.enrol(point)
        for place in range(self.days):
            if self.kind == "crowded" or self.chance(0.8):
                self.gate(self.day(place))
            if self.chance(0.7):
                self.degrees()

    def crowd(self):
        for point in list(self.starts):
            start = self.starts[point]
            for place in range(start, min(start + 20, self.days)):
                self.reading(point, (place, place + 1))

    def tell(self):
        self.open()
        self.begin()
        if self.kind == "crowded":
            self.crowd()
        while len(self.lines) < LINES:
            self.entry()
        return self.lines


def damaged(draw, text):
    way = draw.randrange(8)
    if way < 4:
        changed = bytearray(text)
        for _ in range(draw.choice([1, 1, 2, 5])):
            changed[draw.randrange(COLUMNS)] = draw.choice(PALETTE)
        return bytes(changed)
    if way == 4:
        return text[: draw.randrange(COLUMNS)] + b"\n"
    if way == 5:
        return text[:-1] + draw.choice([b" ", b"  ", b"\r", b"x" * 5_000]) + b"\n"
    return draw.choice([b"\n", text[:-1], b"\r\n"])


def noise(draw):
    tags = [b"OPEN", b"FACT", b"ENRL", b"GATE", b"INTV", b"DEGD", b"READ"]
    fields = [b"  20240701", b"  20240702", b"  20240703", b"         1", b"         2", b"        33", b"       500", b"        -5"]
    blanks, ends = [b" " * 10], [b" \n", b" \n", b"A\n", b"E\n", b"\n", b"  \n", b"\0\n"]
    if draw.random() < 0.7:
        columns = [tags, fields, fields, fields + blanks, fields[-2:] + 3 * blanks, ends]
        return [b"".join(map(draw.choice, columns)) for _ in range(LINES)]
    return [bytes(draw.choice([10, draw.randrange(256), draw.randrange(256)]) for _ in range(draw.randrange(90_000)))]


def input_of(seed):
    draw = random.Random(seed)
    kind = ["plain", "damaged", "early", "crowded", "limits", "noise"][seed % 6]
    if kind == "noise":
        pieces = noise(draw)
    else:
        pieces = Book(draw, kind).tell()
    if kind == "damaged":
        pieces = [damaged(draw, text) if draw.random() < (0.02 if text.startswith(b"OPEN") else 0.125) else text for text in pieces]
    text = b"".join(pieces)
    return text[: -draw.choice([1, 1, 2, 30])] if draw.random() < 0.34 else text


def report_of(program, text):
    ran = subprocess.run([program], input=text, stdout=subprocess.PIPE, stderr=subprocess.PIPE, check=False)
    return ran.returncode, ran.stdout


def first_difference(ours, theirs):
    ours, theirs = ours.split(b"\n"), theirs.split(b"\n")
    for number, (one, other) in enumerate(zip(ours, theirs), 1):
        if one != other:
            return number, one, other
    return min(len(ours), len(theirs)) + 1, b"(no line)", b"(no line)"


def leave(seed, text):
    path = os.path.join(tempfile.mkdtemp(prefix="compare-"), f"{seed}.txt")
    with open(path, "wb") as file:
        file.write(text)
    return path


def compare(ours, baseline, count):
    met, days = {}, 0
    for seed in range(count):
        text = input_of(seed)
        (status, out), (other_status, other_out) = report_of(ours, text), report_of(baseline, text)
        if out != other_out or status != other_status:
            number, one, other = first_difference(out, other_out)
            print(f"seed {seed}: another report; input left in {leave(seed, text)}")
            print(f"  status {status} and {other_status}; output line {number}:")
            print(f"  ours      {one.decode('latin-1')}\n  baseline  {other.decode('latin-1')}")
            return 1
        for row in out.splitlines():
            if row.startswith(b"FAIL"):
                refusal = int(row[24:34])
                met[refusal] = met.get(refusal, 0) + 1
            days += row.startswith(b"DAY ")
    print(f"{count} inputs: the same reports, with {days} days and, by number, so many refusals:")
    print("  " + ", ".join(f"{number}: {met[number]}" for number in sorted(met)))
    missing = [number for number in range(1, 14) if number not in met]
    if missing:
        print(f"not met: {missing}: ask for more inputs")
    return 1 if missing else 0


def million_lines():
    """A book of 62 days and 32 points, and late entries of every kind by turns; one in sixteen is outside the book."""
    draw = random.Random(20240701)
    book = Book(draw, "plain")
    book.days, book.first, book.size = 62, date(2024, 1, 1), 1_500
    for point in range(1, 33):
        book.add("FACT", point, draw.randrange(40_001), draw.randrange(4_001))
    book.add("OPEN", digits(book.first), 62, 300)
    spans = {}
    for point in range(1, 33):
        start = draw.randrange(20)
        book.add("ENRL", point, 1 + draw.randrange(16), digits(book.day(start)))
        spans[point] = [start]
    late = {
        0: lambda day: book.add("GATE", digits(day), 3_800 + draw.randrange(1_500), draw.randrange(100)),
        1: lambda day: book.add("INTV", digits(day), 1 + draw.randrange(32), draw.randrange(201)),
        2: lambda day: book.add("DEGD", digits(day), draw.randrange(2_001)),
    }
    for place in range(62):
        for way in late.values():
            way(book.day(place))
    for point, marks in spans.items():
        while (end := marks[-1] + 5 + draw.randrange(16)) <= 62:
            energy = (end - marks[-1]) * draw.randrange(80)
            book.add("READ", point, digits(book.day(marks[-1])), digits(book.day(end)), energy, letter=draw.choice("ASEC"))
            marks.append(end)
    while len(book.lines) < 1_000_000:
        n = len(book.lines)
        if n % 4 < 3:
            late[n % 4](book.day(62 if n % 16 == 0 else draw.randrange(62)))
        else:
            point = 1 + draw.randrange(32)
            which = draw.randrange(len(spans[point]) - 1)
            start, end = spans[point][which], spans[point][which + 1]
            book.add("READ", point, digits(book.day(start)), digits(book.day(end)), (end - start) * draw.randrange(80), letter="A")
    return b"".join(book.lines)


def seconds(program, path):
    """How long a run took by the clock, and how much of it on a processor, which others that run beside it do not lengthen so much."""
    with open(path, "rb") as file:
        clock = time.perf_counter()
        ran = subprocess.Popen([program], stdin=file, stdout=subprocess.DEVNULL)
        _, status, used = os.wait4(ran.pid, 0)
        taken = time.perf_counter() - clock
    ran.returncode = os.waitstatus_to_exitcode(status)
    if ran.returncode:
        sys.exit(f"{program} ended with status {ran.returncode}")
    return taken, used.ru_utime + used.ru_stime


def peak(program, path):
    """The most memory that the program held, in KiB, asked for once it has read all and waits for more."""
    ran = subprocess.Popen([program], stdin=subprocess.PIPE, stdout=subprocess.DEVNULL)
    with open(path, "rb") as file:
        while piece := file.read(1 << 20):
            ran.stdin.write(piece)
    ran.stdin.flush()
    time.sleep(0.5)
    with open(f"/proc/{ran.pid}/status", encoding="ascii") as file:
        held = next(int(row.split()[1]) for row in file if row.startswith("VmHWM"))
    ran.stdin.close()
    ran.wait()
    return held


def take_times(programs, rounds):
    with tempfile.TemporaryDirectory() as folder:
        lines, one_line = os.path.join(folder, "lines"), os.path.join(folder, "one_line")
        with open(lines, "wb") as file:
            file.write(million_lines())
        with open(one_line, "wb") as file:
            for _ in range(46):
                file.write(b"x" * 1_000_000)
        with open(lines, "rb") as file:
            text = file.read()
        if report_of(programs[0], text) != report_of(programs[1], text):
            print("the two reports differ")
            return 1
        taken = [[], []]
        for _ in range(rounds):
            for program, list_of in zip(programs, taken):
                list_of.append(seconds(program, lines))
        print(f"1,000,000 lines, {rounds} rounds by turns")
        print(f"{'':<10}{'best s':>10}{'median s':>10}{'processor s':>13}{'KiB':>8}{'KiB at one line of the same length':>36}")
        for name, program, list_of in zip(["ours", "baseline"], programs, taken):
            clocks, used = zip(*list_of)
            median = sorted(clocks)[len(clocks) // 2]
            held = f"{peak(program, lines):>8}{peak(program, one_line):>36}"
            print(f"{name:<10}{min(clocks):>10.3f}{median:>10.3f}{min(used):>13.3f}{held}")
        ours, theirs = (min(used for _, used in list_of) for list_of in taken)
        print(f"ours takes {ours / theirs:.2f} times the baseline's time, by the least processor time of each")
    return 0


def try_usage(program):
    """What only the program has: its words, its files, its failures, and that nothing waits while input does."""
    program, failed = os.path.abspath(program), []

    def hold(name, holds):
        print(("ok    " if holds else "FAILED ") + name)
        if not holds:
            failed.append(name)

    def run(*words, **how):
        how.setdefault("stdout", subprocess.PIPE)
        return subprocess.run([program, *words], stderr=subprocess.PIPE, check=False, **how)

    def is_one_line(text):
        return text.count(b"\n") == 1 and text.endswith(b"\n")

    text = input_of(1)
    with tempfile.TemporaryDirectory() as folder:
        whole = report_of(program, text)
        for cut in [0, 46, 1_000, len(text)]:
            paths = [os.path.join(folder, name) for name in ("a", "b")]
            for path, piece in zip(paths, (text[:cut], text[cut:])):
                with open(path, "wb") as file:
                    file.write(piece)
            ran = run(*paths, stdin=subprocess.DEVNULL)
            hold(f"two files cut at byte {cut} are one input", (ran.returncode, ran.stdout) == whole)
        ran = run("--help", stdin=subprocess.DEVNULL)
        usage = ran.stdout
        says = all(word in usage for word in (b"daysheet [FILE]", b"FAIL", b"DAY", b"OPEN", b"  13  ", b"--version"))
        hold("--help says how it is used", ran.returncode == 0 and says and not ran.stderr)
        for words in (["-h"], ["missing", "--help"], ["--nope", "--help"], ["--", "--help"]):
            ran = run(*words, input=text)
            hold(f"{' '.join(words)} says the same and reads nothing", (ran.returncode, ran.stdout, ran.stderr) == (0, usage, b""))
        ran = run("--version", stdin=subprocess.DEVNULL)
        hold("--version: one line", ran.returncode == 0 and is_one_line(ran.stdout) and not ran.stderr)
        with open(os.path.join(folder, "--help"), "wb") as file:
            file.write(text)
        ran = run("./--help", stdin=subprocess.DEVNULL, cwd=folder)
        hold("./--help is a file", (ran.returncode, ran.stdout) == whole)
        for words in (["--nope"], ["-x", "a"], ["a", "--nope"]):
            ran = run(*words, stdin=subprocess.DEVNULL)
            hold(f"{' '.join(words)}: status 2, one line", ran.returncode == 2 and not ran.stdout and is_one_line(ran.stderr))
        ran = run(os.path.join(folder, "missing"), stdin=subprocess.DEVNULL)
        hold("a file that is not there: status 1, one line", ran.returncode == 1 and not ran.stdout and is_one_line(ran.stderr))
        ran = run(folder, stdin=subprocess.DEVNULL)
        hold("a folder for a file: status 1, one line", ran.returncode == 1 and not ran.stdout and is_one_line(ran.stderr))
        if os.path.exists("/dev/full"):
            with open("/dev/full", "wb") as full:
                ran = run(input=text, stdout=full)
            hold("a full disk: status 1, one line", ran.returncode == 1 and is_one_line(ran.stderr))
    ran = subprocess.Popen([program], stdin=subprocess.PIPE, stdout=subprocess.PIPE)
    for number in (1, 2, 3):
        ran.stdin.write(b"\n")
        ran.stdin.flush()
        wanted = b"FAIL%10d         1         1         1         0\n" % number
        hold(f"refusal {number} leaves before more input comes", os.read(ran.stdout.fileno(), 1 << 16) == wanted)
    ran.stdin.close()
    hold("and then status 0", ran.wait() == 0)
    return 1 if failed else 0


def write(folder, count):
    os.makedirs(folder, exist_ok=True)
    for seed in range(count):
        with open(os.path.join(folder, f"{seed}.txt"), "wb") as file:
            file.write(input_of(seed))
    return 0


def main(words):
    try:
        if words[:1] == ["--time"] and len(words) in (3, 4):
            return take_times(words[1:3], int(words[3]) if len(words) == 4 else 5)
        if words[:1] == ["--usage"] and len(words) == 2:
            return try_usage(words[1])
        if words[:1] == ["--write"] and len(words) in (2, 3):
            return write(words[1], int(words[2]) if len(words) == 3 else 200)
        if len(words) in (2, 3) and not words[0].startswith("--"):
            return compare(words[0], words[1], int(words[2]) if len(words) == 3 else 200)
    except ValueError:
        pass
    print(__doc__)
    return 2


if __name__ == "__main__":
    sys.exit(main(sys.argv[1:]))
