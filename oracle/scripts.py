"""Scripts of voyages from a seed, within the limits and around each of them, and all short ones."""

import itertools
import random

MOST = 2**64 - 1
TRANSLATORS = ["leading1", "leading2", "leading4", "leading8", "fnv"]
# Near both ends of the numbers, and where a number outgrows 32 bits or the sign of 64.
BASES = [0, 0, 0, 64, 2**32 - 70, 2**63 - 30, MOST - 1100, MOST - 150, MOST - 20]
TEXTS = ["", "", "x", "bay 14 row 03", "two  spaces ", " ", "back\\slash", "é", "deck" * 9]


def letter_counts():
    return [number for number in range(10, 39) if number % 11]


def check_digit(ten):
    counts = letter_counts()
    total = sum((counts[ord(c) - 65] if c.isalpha() else int(c)) << i for i, c in enumerate(ten))
    return str(total % 11 % 10)


def box_keys(rng):
    """Few keys, so that several records bear one; most of them alike in front."""
    tens = [f"{owner}U{number:06d}" for owner in ("AAA", "AAB", "QZX") for number in range(6)]
    return [ten + check_digit(ten) for ten in rng.sample(tens, rng.randint(2, len(tens)))]


def digest_keys(rng):
    fronts = [rng.choice(["00", "01", "ff"]) * rng.randint(0, 8) for _ in range(3)]
    keys = [(front + f"{number:02x}").ljust(64, "0") for front in fronts for number in range(6)]
    return rng.sample(keys, rng.randint(2, len(keys)))


def bad_key(rng, boxes):
    if not boxes:
        return "00" * rng.choice([1, 31, 33])
    return rng.choice(["AAAU0000008", "AAAU000000", "AAAU00000070", "AAAJ0000007", "aAAU0000007", "AAAUO000007"])


class Scene:
    """One voyage: its limits, the numbers and keys that it uses, and the lines so far."""

    def __init__(self, seed):
        self.rng = rng = random.Random(seed)
        self.boxes = rng.random() < 0.5
        self.keys = box_keys(rng) if self.boxes else digest_keys(rng)
        self.slots = rng.choice([1, 2, 3, 16, 16])
        self.rows = rng.choice([1, 2, 3, 5, 128, 128])
        self.bytes = rng.choice([4, 5, 12, 40, 200, 4095, 4096, 4096])
        self.size = rng.choice([1, 2, 3, 10, 63, 64])
        self.base = rng.choice(BASES)
        self.used = []
        self.lines = []

    def limits(self):
        return f"{self.slots} {self.rows} {self.bytes}"

    def voyage_line(self, limits=None, medium=None):
        kind = "box" if self.boxes else "digest"
        translator = self.rng.choice(TRANSLATORS)
        medium = medium or self.rng.choice(["pages", "memory"])
        return f"voyage {kind} {translator} {medium} {limits or self.limits()}"

    def number(self):
        rng = self.rng
        if self.used and rng.random() < 0.45:
            return rng.choice(self.used)
        if rng.random() < 0.03:
            return rng.choice([0, 1, MOST, MOST - 1, 2**63])
        span = rng.choice([1, self.size, self.size + 1, (self.slots + 1) * self.size])
        return min(MOST, self.base + rng.randrange(span + 1))

    def key(self):
        rng = self.rng
        return bad_key(rng, self.boxes) if rng.random() < 0.02 else rng.choice(self.keys)

    def text(self):
        """Often just what fills a section, or one byte more or less."""
        rng = self.rng
        if rng.random() < 0.7:
            return rng.choice(TEXTS)
        length = rng.choice([self.bytes - 4, self.bytes - 3, self.bytes // 2 - 4, self.bytes - 8, 28])
        return "v" * max(0, length)

    def room(self):
        rng = self.rng
        return f" {rng.choice([0, 1, 2, 3, 13, 27, 28, 4096, 65536])}" if rng.random() < 0.2 else ""

    def put(self, name):
        number = self.number()
        self.used = (self.used + [number])[-200:]
        text = self.text()
        return f"{name} {number} {self.key()}" + (f" {text}" if text else "")

    def min(self):
        rng = self.rng
        near = self.number()
        start = near // self.size * self.size
        return min(MOST, max(0, rng.choice([near, start, start - 1, start + 1, start + self.size, self.base, 0])))

    def call(self):
        name = self.rng.choices(
            ["put", "put_multi", "get", "get_key", "value", "has", "has_key", "has_at", "list", "list_key", "prune",
             "counts", "load"],
            [16, 18, 9, 9, 7, 5, 5, 6, 7, 6, self.prunes, 5, 0.3])[0]
        match name:
            case "put" | "put_multi":
                return self.put(name)
            case "get" | "list":
                return f"{name} {self.number()}{self.room()}"
            case "get_key" | "list_key":
                return f"{name} {self.key()}{self.room()}"
            case "value":
                position = self.rng.choice([0, 0, 0, 0, 1, 1, 2, 3, 5, 127, 128, MOST])
                return f"value {self.number()} {position}{self.room()}"
            case "has":
                return f"has {self.number()}"
            case "has_key":
                return f"has_key {self.key()}"
            case "has_at":
                return f"has_at {self.number()} {self.key()}"
            case "prune":
                return f"prune {self.min()}"
            case "counts":
                return "counts"
        return f"load {self.size}"

    def calls(self, count):
        self.prunes = self.rng.choice([0.2, 1, 4])
        self.lines += [self.call() for _ in range(count)]

    def load(self):
        rng = self.rng
        if rng.random() < 0.1:
            self.lines.append(rng.choice([self.call_before_load(), "load 0", "load 65", f"load {MOST}"]))
        self.lines.append(f"load {self.size}")

    def call_before_load(self):
        self.prunes = 1
        return self.call()


def limits_refused(scene):
    """Limits that no journal has, or no archive."""
    slots, rows, size = (scene.rng.choice(choice) for choice in (
        [0, 1, 16, 17, 64, 65], [0, 1, 128, 129, 1024, 1025], [3, 4, 4096, 4097, 65536, 65537]))
    scene.lines += [scene.voyage_line(f"{slots} {rows} {size}"), "load 65", "load 10"]
    if slots <= 16 and rows <= 128 and size <= 4096:
        scene.slots, scene.rows, scene.bytes, scene.size = max(slots, 1), max(rows, 1), max(size, 4), 10
    scene.calls(12)


def filled(scene):
    """Every section filled to its rows or its bytes, and one row and one section more."""
    scene.slots, scene.rows, scene.bytes = 16, 128, 4096
    scene.lines.append(scene.voyage_line(medium="pages"))
    scene.load()
    # 128 values of 28 bytes cost just what a section has.
    length = scene.rng.choice([28, 28, 29, 27])
    first = scene.base // scene.size * scene.size
    for section in range(17):
        for row in range(129):
            number = min(MOST, first + section * scene.size + row % scene.size)
            scene.lines.append(f"put_multi {number} {scene.rng.choice(scene.keys)} {'v' * length}")
            scene.used.append(number)
    scene.used = scene.rng.sample(scene.used, 200)
    scene.lines += ["counts", "save out/rows", "open out/rows"]
    scene.load()
    scene.calls(200)


def sailed(scene):
    """Calls, and the same rows loaded again, once or twice; at times with another section size."""
    times = scene.rng.choice([0, 0, 1, 2])
    # Only pages can be saved.
    scene.lines.append(scene.voyage_line(medium="pages" if times else None))
    scene.load()
    scene.calls(scene.rng.choice([20, 120, 250]))
    for _ in range(times):
        scene.lines += ["save out/rows", "open out/rows"]
        if scene.rng.random() < 0.3:
            scene.size = scene.rng.choice([1, 2, 10, 63, 64])
        scene.load()
        scene.calls(scene.rng.choice([20, 80]))


def behind_the_back(scene):
    """Rows that a journal got without an archive, among them bad keys and numbers of other sections."""
    scene.slots, scene.rows, scene.bytes = 16, 128, 4096
    width = 11 if scene.boxes else 32
    scene.lines.append(f"journal pages {width} {scene.limits()}")
    wrong = scene.rng.choice([0, 0, 0.1, 0.4])
    for _ in range(scene.rng.randint(1, 12)):
        number = min(MOST, scene.base + scene.rng.randrange(5 * scene.size))
        start = number // scene.size * scene.size
        key = scene.rng.choice(scene.keys)
        if scene.rng.random() < wrong:
            start = scene.base
        if scene.boxes and scene.rng.random() < wrong:
            key = "AAAU0000008"
        key = key.encode().hex() if scene.boxes else key
        scene.used.append(number)
        scene.lines.append(f"append {start} {number} {key} row")
    scene.lines += ["save out/rows", scene.voyage_line(), "open out/rows"]
    scene.load()
    scene.calls(25)


def damaged(scene):
    """Values that go bad on disk, after a load that found them sound."""
    scene.slots, scene.rows = 16, 128
    voyage = scene.voyage_line(medium="pages")
    scene.lines.append(voyage)
    scene.load()
    scene.calls(60)
    # The original looks at values above what it knows to be sound, and cuts there. This load tells it.
    scene.lines += ["save out/rows", "open out/rows", f"load {scene.size}", "save out/rows"]
    for _ in range(scene.rng.randint(1, 12)):
        start = scene.number() // scene.size * scene.size
        scene.lines.append(f"damage out/rows {start} {scene.rng.choice([0, 0, 1, 2, 5])}")
    scene.lines += [voyage, "open out/rows"]
    scene.load()
    scene.calls(60)


def script(seed):
    scene = Scene(seed)
    kinds = [sailed, behind_the_back, limits_refused, damaged, filled]
    scene.rng.choices(kinds, [60, 20, 8, 15, 1])[0](scene)
    return scene.lines


def short_scripts(length):
    """Every sequence of up to so many calls out of nine, each followed by the same questions."""
    keys = ["0" * 64, "1".rjust(64, "0"), "ff".ljust(64, "0")]
    calls = [f"put 0 {keys[0]} a", f"put 1 {keys[0]} b", f"put_multi 0 {keys[1]} c", f"put_multi 2 {keys[1]} d",
             f"put 4 {keys[2]} e", "prune 1", "prune 2", "prune 5", "put_multi 3 " + keys[0]]
    asked = [f"{name} {number}" for number in (0, 1, 2, 4) for name in ("get", "list")]
    asked += [f"{name} {key}" for key in keys for name in ("get_key", "list_key", "has_at 0")] + ["counts"]
    for count in range(length + 1):
        for chosen in itertools.product(calls, repeat=count):
            # Two slots, so that the third section is refused until one is struck.
            yield ["voyage digest leading1 memory 2 3 64", "load 2", *chosen, *asked]
