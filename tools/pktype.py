"""What pktype's text tells of a font, for the tools that make the gate's cases; where those tools read and write; and two fonts of ours."""
import glob, os, re

TOP = os.path.dirname(os.path.dirname(os.path.abspath(__file__)))
SHARED = os.path.join(os.path.dirname(TOP), "shared")

# A font whose one character, 4, has no pixels; and the same with so many bytes of padding that it is one too long.
BLANK = bytes.fromhex("F75900" + "00" * 16 + "E008040000000000000000" + "F5F6")
TOO_LONG = BLANK + b"\xF6" * (65537 - len(BLANK))


def crate(name, *rest):
    return os.path.join(TOP, "crates", name, *rest)


def vectors(name):
    """The bytes of the vectors of a call, and the answers that come with them."""
    path = os.path.join(SHARED, "vectors", name)
    return open(path + ".bin", "rb").read(), open(path + ".out").read()


def names():
    return sorted(os.path.basename(path)[:-3] for path in glob.glob(os.path.join(SHARED, "fonts", "*.pk")))


def font(name):
    """The bytes of a font, and pktype's text of it."""
    path = os.path.join(SHARED, "fonts", name)
    return open(path + ".pk", "rb").read(), open(path + ".pktype.txt").read()


def numbers(pattern, text):
    return [int(n) for n in re.search(pattern, text).groups(default="0")]


def preamble(text):
    """ds, cs, hppp and vppp."""
    return numbers(r"Design size = (-?\d+)", text) + numbers(r"Checksum = (-?\d+)", text) + numbers(r"Resolution: horizontal = (-?\d+)  vertical = (-?\d+)", text)


class Character:
    """A character as it is printed: its place, flag, code, length, f and measures; `raster` is the text of its runs or rows."""

    def __init__(self, match, body):
        self.at, self.flag, self.code, self.length = map(int, match.groups())
        self.f, = numbers(r"Dynamic packing variable = (\d+)", body)
        self.tfm, self.dx, self.dy = numbers(r"TFM width = (-?\d+)\s+dx = (-?\d+)(?:\s+dy = (-?\d+))?", body)
        self.h, self.w, self.hoff, self.voff = numbers(r"Height = (\d+)\s+Width = (\d+)\s+X-offset = (-?\d+)\s+Y-offset = (-?\d+)", body)
        rest = body[re.search(r"Y-offset = -?\d+ *\n", body).end():]
        self.raster = re.split(r"^\d+:|^\d+ bytes", rest, flags=re.M)[0]

    def pixels(self):
        """The pixels that the runs, repeats or rows of stars spell, 1 for black."""
        if self.f == 14:
            pixels = [1 if c == "*" else 0 for c in self.raster if c in "*."]
        else:
            pixels = drawn_runs(self.raster, self.w)
        assert len(pixels) == self.w * self.h, (self.at, len(pixels), self.w, self.h)
        return pixels


def drawn_runs(text, w):
    """Rows of runs: n black, (n) white, [n] a repeat of the row that the next run begins in."""
    rows, row, repeat = [], [], 0
    for kind, n in re.findall(r"([\[(]?)(\d+)", text):
        if kind == "[":
            repeat = int(n)
            continue
        for _ in range(int(n)):
            row.append(0 if kind == "(" else 1)
            if len(row) == w:
                rows += [row] * (repeat + 1)
                row, repeat = [], 0
    assert not row
    return [b for r in rows for b in r]


def characters(text):
    """The characters in file order."""
    places = list(re.finditer(r"^(\d+):  Flag byte = (\d+)  Character = (-?\d+)  Packet length = (\d+).*$", text, re.M))
    return [Character(m, text[m.end():end]) for m, end in zip(places, [p.start() for p in places[1:]] + [len(text)])]


def fault(text):
    """7 and the first place of a width and height outside 01's limits, or 9 and that of a code that stands twice; or None."""
    seen = set()
    for c in characters(text):
        if not (c.w == c.h == 0 or 1 <= c.w * c.h <= 65536):
            return 7, c.at
        if c.code in seen:
            return 9, c.at
        seen.add(c.code)


def mark(data):
    """What the programs print of bytes."""
    m = 1
    for b in data:
        m = (m * 257 + b) % 65521
    return m
