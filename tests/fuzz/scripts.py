"""Random scripts: the stored ones of tests/cases/ and examples/, spliced, cut and changed, and the worlds that they save."""
import glob
import json
import os

TOP = os.path.dirname(os.path.dirname(os.path.dirname(os.path.abspath(__file__))))

EDGES = [0, 1, 2, 3, 7, 8, 9, 255, 256, 257, 512, 513, 1 << 16, 1 << 20, 1 << 24, 1 << 26, 1 << 28, 1 << 30, 1 << 36, 1 << 37, 1 << 40, 1 << 60, 1 << 63]
TEXTS = ["", "0", "0.0", "0.1", "1.1", "2.1", "3.1", "0.2", "1.2", "4294967295.4294967295", "4294967296.1", "00.1", "dynamic", "static", "kinematic", "step", "é"]
OTHERS = [None, True, False, 0, -1, "", [], {}, [0, 0], [[0, 0], [1, 1]], 1.5, 1 << 64]
FACINGS = [[1 << 30, 0], [0, 1 << 30], [858993459, 644245094]]
MOST_TIMES = 20
MOST_LINES = 60


def compact(value):
    return json.dumps(value, separators=(",", ":"), ensure_ascii=False).encode("utf-8", "surrogatepass")


def leaves(value):
    """How many numbers, texts and the like a value has, and at least one."""
    if isinstance(value, dict):
        return sum(leaves(part) for part in value.values()) or 1
    if isinstance(value, list):
        return sum(leaves(part) for part in value) or 1
    return 1


def stored():
    """The paths of the stored scripts."""
    answers = glob.glob(os.path.join(TOP, "tests", "cases", "*", "*.stdout")) + glob.glob(os.path.join(TOP, "examples", "*.stdout"))
    return sorted(path[: -len(".stdout")] for path in answers)


def requests_of(path):
    """The requests of a stored script, without lines that are no objects, and long ones."""
    requests = []
    for line in open(path, "rb"):
        try:
            request = json.loads(line.decode())
        except ValueError:
            continue
        if isinstance(request, dict) and len(line) < 20_000:
            requests.append(request)
    return requests


class Writer:
    """Writes random scripts from stored ones."""

    def __init__(self, random, scripts):
        self.random = random
        self.scripts = scripts

    def script(self):
        """A script as lines without their line feeds."""
        random = self.random
        requests = self.requests()
        for _ in range(random.choice([0, 0, 1, 1, 2, 4, 8])):
            if requests:
                place = random.randrange(len(requests))
                requests[place] = self.changed(requests[place])
        lines = [compact(bounded(request)) for request in requests]
        for _ in range(random.choice([0, 0, 0, 1, 2])):
            lines.insert(random.randint(0, len(lines)), random.choice([b"", b" ", b"\t \r", b"\r"]))
        if lines and random.random() < 0.15:
            place = random.randrange(len(lines) // 2, len(lines))
            lines[place] = self.spoilt(lines[place])
        return lines

    def requests(self):
        """Pieces of stored scripts, one after another, with requests among them of what may be alive."""
        random = self.random
        requests = []
        for _ in range(random.choice([1, 1, 1, 2, 3])):
            script = random.choice(self.scripts)
            start = random.choice([0, 0, random.randrange(len(script))])
            requests += script[start : start + random.randint(1, MOST_LINES)]
        for _ in range(random.choice([0, 2, 5, 10, 20])):
            requests.insert(random.randint(0, len(requests)), self.request())
        for _ in range(random.choice([0, 0, 1, 3])):
            if len(requests) > 1:
                a, b = random.randrange(len(requests)), random.randrange(len(requests))
                requests[a], requests[b] = requests[b], requests[a]
        return requests[: 2 * MOST_LINES]

    def id(self):
        return f"{self.random.choice([0, 0, 1, 1, 2, 3, 4, 7])}.{self.random.choice([1, 1, 1, 1, 2])}"

    def number(self):
        random = self.random
        if random.random() < 0.7:
            return random.randint(-3000, 3000)
        return random.choice([-1, 1]) * random.choice(EDGES) + random.choice([-1, 0, 0, 1])

    def vector(self, most=3000):
        return [self.random.randint(-most, most), self.random.randint(-most, most)]

    def shape(self):
        random = self.random
        form = random.choice(["circle", "circle", "capsule", "segment"])
        if form == "circle":
            shape = {"circle": self.vector(300), "radius": random.choice([0, 1, 100, 500, 2000])}
        else:
            shape = {form: [self.vector(900), self.vector(900)]}
        if form == "capsule":
            shape["radius"] = random.choice([1, 50, 400])
        if random.random() < 0.3:
            shape.update(friction=random.randint(0, 512), restitution=random.randint(0, 256), group=random.choice([-1, 0, 0, 1]))
        return shape

    def request(self):
        """A request that a world of a few bodies may well accept."""
        random = self.random
        do = random.choice(
            "create create create joint push push push_at set_pose set_velocity gravity enable disable wake sleep destroy unjoin step step step step "
            "show ledger ray region save load crowd".split()
        )
        return {"do": do, **self.keys(do)}

    def keys(self, do):
        """The keys of a request beside its name."""
        random = self.random
        writers = {
            "create": self.body,
            "joint": lambda: {"a": self.id(), "b": self.id(), "from": self.vector(99), "to": self.vector(99), "length": random.randint(0, 2000)},
            "push": lambda: {"body": self.id(), "by": self.vector(4000)},
            "push_at": lambda: {"body": self.id(), "by": self.vector(4000), "offset": self.vector(200)},
            "set_pose": lambda: {"body": self.id(), "at": self.vector(), "facing": random.choice(FACINGS)},
            "set_velocity": lambda: {"body": self.id(), **self.motion()},
            "gravity": lambda: {"by": self.vector(30)},
            "unjoin": lambda: {"joint": self.id()},
            "step": lambda: {"ticks": random.choice([1, 1, 2, 8])},
            "ray": lambda: {"from": self.vector(), "along": self.vector(9000)},
            "region": self.box,
            "load": lambda: {"world": {}},
            "crowd": lambda: {"each": [self.call() for _ in range(random.randint(1, 4))], "times": random.randint(1, MOST_TIMES)},
            "ledger": dict,
            "save": dict,
        }
        return writers.get(do, lambda: {"body": self.id()})()

    def body(self):
        random = self.random
        kind = random.choice(["dynamic", "dynamic", "dynamic", "static", "kinematic"])
        keys = {"kind": kind, "at": self.vector(), "shapes": [self.shape() for _ in range(random.choice([1, 1, 2]))]}
        if kind == "dynamic":
            keys.update(mass=random.randint(1, 50), inertia=random.choice([0, 0, 1, 50_000, 5_000_000]))
        if kind == "kinematic":
            keys.update(self.motion())
        return keys

    def motion(self):
        return {"velocity": self.vector(60), "spin": self.random.randint(-9_999_999, 9_999_999)}

    def box(self):
        x, y = self.vector()
        return {"lo": [x, y], "hi": [x + self.random.randint(0, 5000), y + self.random.randint(0, 5000)]}

    def call(self):
        """A request that a crowd may make."""
        while True:
            request = self.request()
            if request["do"] not in ("show", "ledger", "ray", "region", "save", "load", "crowd"):
                return request

    def changed(self, value):
        """A value with a change somewhere in it."""
        random = self.random
        if isinstance(value, dict) and value and random.random() < 0.98:
            keys = sorted(value)
            key = random.choices(keys, [leaves(value[key]) for key in keys])[0]
            if key in ("do", "kind", "version") and random.random() < 0.8:
                return value
            value = dict(value)
            kind = random.random()
            if kind < 0.005:
                del value[key]
            elif kind < 0.01:
                value[random.choice(["x", "do", "ticks", "radius"])] = random.choice(OTHERS)
            else:
                value[key] = self.changed(value[key])
            return value
        if isinstance(value, list) and value and random.random() < 0.98:
            place = random.choices(range(len(value)), [leaves(part) for part in value])[0]
            kind = random.random()
            if kind < 0.01:
                return value[:place] + value[place + 1 :]
            if kind < 0.02:
                return value[:place] + [value[place]] + value[place:]
            return value[:place] + [self.changed(value[place])] + value[place + 1 :]
        return self.other(value)

    def other(self, value):
        """A value in place of another, mostly of its type."""
        random = self.random
        if random.random() < 0.04:
            return random.choice(OTHERS)
        if isinstance(value, bool):
            return not value
        if value is None:
            return random.randint(0, 5)
        if isinstance(value, int):
            return random.choice([self.number(), value + 1, value - 1, -value, value * 2])
        if isinstance(value, str) and value.lstrip("-").isdigit():
            return str(random.choice([self.number(), int(value) + 1, -int(value), 1 << 90, 1 << 126]))
        if isinstance(value, str):
            return random.choice([random.choice(TEXTS), self.id()])
        return random.choice(OTHERS)

    def spoilt(self, line):
        """A line with some of its bytes changed."""
        random = self.random
        line = bytearray(line)
        for _ in range(random.choice([1, 1, 2, 5])):
            place = random.randint(0, len(line))
            kind = random.random()
            if kind < 0.4 and place < len(line):
                line[place] = random.choice([random.randrange(256), line[place] ^ 1 << random.randrange(8)])
            elif kind < 0.7:
                line[place:place] = bytes([random.choice(b'{}[]",:0-9.e\\\x00\xff\xc3\xed')]) * random.choice([1, 1, 1, 130])
            else:
                del line[place : place + random.choice([1, 2, 9])]
        return bytes(line).replace(b"\n", b" ")


def bounded(request):
    """A request that doesn't take long."""
    if isinstance(request, dict) and isinstance(request.get("times"), int):
        return {**request, "times": min(request["times"], MOST_TIMES)}
    return request
