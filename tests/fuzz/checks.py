"""The program on a script, and what has to hold of its answers whatever the script is."""
import json
import os
import subprocess
from collections import Counter

from scripts import compact

SECONDS = 300  # until a run counts as one that hangs
AMPLE = 4 << 20  # KB of data
# The data are what the program asks for, without its stack: a stack that may not grow ends it by a signal.
LIMITED = 'ulimit -c 0; ulimit -d "$0"; exec "$@"'
LEDGER = b'{"do":"ledger"}'
SAVE = b'{"do":"save"}'
NO_MEMORY = {"refused": 1}
CAUSES = ("clamp", "command", "departed", "gravity", "immovable", "rest")
GREATEST_SUM = 1 << 126


class Broken(Exception):
    """Something that has to hold doesn't; with the lines that show it."""

    def __init__(self, what, lines=None):
        super().__init__(what)
        self.lines = lines


def is_blank(line):
    return not line.strip(b" \t\r")


def is_json(line):
    """Whether Python reads a line as JSON; what it alone takes counts as JSON too."""
    try:
        json.loads(line.decode())
    except RecursionError:
        return True
    except ValueError as error:
        return "int string conversion" in str(error)
    return True


def limited(program, words, memory):
    """The words that start the program with so many KB of data."""
    return ["sh", "-c", LIMITED, str(memory), program, *words]


def least_memory(program):
    """The KB of data with which the program starts and reads a line, in steps of 64."""
    memory = 64
    while memory < AMPLE and subprocess.run(limited(program, (), memory), input=LEDGER, capture_output=True).returncode != 0:
        memory += 64
    return memory


class Run:
    """A run of the program on lines: its status, and a pair of a line and its answer for each line that has one."""

    def __init__(self, program, lines, memory=AMPLE, words=()):
        text = b"".join(line + b"\n" for line in lines)
        try:
            ended = subprocess.run(limited(program, words, memory), input=text, capture_output=True, timeout=SECONDS)
        except subprocess.TimeoutExpired:
            raise Broken(f"no end within {SECONDS} seconds", lines) from None
        self.status = ended.returncode
        self.asked = [line for line in lines if not is_blank(line)]
        self.texts = ended.stdout.split(b"\n")
        if self.texts.pop():
            raise Broken("the last answer has no line feed", lines)
        self.answers = [self.read(text, lines) for text in self.texts]
        self.check(lines)

    @staticmethod
    def read(text, lines):
        """An answer, which is compact JSON of whole numbers with ascending keys."""
        try:
            answer = json.loads(text.decode())
        except ValueError:
            raise Broken(f"an answer is no JSON: {text[:200]!r}", lines) from None
        if json.dumps(answer, separators=(",", ":"), sort_keys=True, ensure_ascii=False).encode() != text:
            raise Broken(f"an answer is not compact, or its keys don't ascend: {text[:200]!r}", lines)
        return answer

    def check(self, lines):
        """The status is 0, 1 or 3, and each line has its answer."""
        bad = [n for n, answer in enumerate(self.answers) if "bad" in answer]
        if self.status == 0:
            if bad or len(self.answers) != len(self.asked):
                raise Broken("status 0, and not an answer for each line", lines)
        elif self.status == 1:
            if bad != [len(self.answers) - 1]:
                raise Broken("status 1, and the last answer alone isn't a bad line's", lines)
            number = self.answers[-1]["bad"]
            before = sum(not is_blank(line) for line in lines[: number - 1])
            if before != len(self.answers) - 1 or is_blank(lines[number - 1]):
                raise Broken(f"line {number} is said to be bad after {len(self.answers) - 1} answers", lines)
        elif self.status != 3:
            raise Broken(f"status {self.status}", lines)
        answered = len(self.answers) - (self.status == 1)
        for line in self.asked[:answered]:
            if not is_json(line):
                raise Broken(f"a line that is no JSON is answered: {line[:200]!r}", lines)

    def pairs(self):
        """Each line that was good, and its answer's text."""
        return list(zip(self.asked, self.texts[: len(self.texts) - (self.status == 1)]))


def must_be_same(what, lines, one, other):
    if one != other:
        place = next((n for n, (a, b) in enumerate(zip(one, other)) if a != b), min(len(one), len(other)))
        shown = [repr(answers[place][:200]) if place < len(answers) else "nothing" for answers in (one, other)]
        raise Broken(f"{what}: answer {place + 1} is {shown[0]}, and {shown[1]}", lines)


def answers_as_stored(program, path):
    """A stored script has the answers that are stored beside it, and the status that goes with them."""
    words = open(path + ".args").read().split() if os.path.exists(path + ".args") else ()
    with open(path, "rb") as script, open(path + ".stdout", "rb") as answers:
        lines = script.read().split(b"\n")
        wanted = answers.read().split(b"\n")[:-1]
    if lines[-1] == b"":
        lines.pop()
    must_be_same(path, lines, wanted, Run(program, lines, words=words).texts)


def sums_of(world):
    return {cause: [int(part) for part in world["ledger"][cause]] for cause in CAUSES}


def can_be_loaded(world):
    """Whether each sum of a saved ledger is within what a load takes."""
    return all(abs(part) <= GREATEST_SUM for pair in sums_of(world).values() for part in pair)


def load_of(saved):
    """The line that loads what a save answered."""
    return b'{"do":"load",' + saved[1:]


def spaced(value, chance):
    """A value as JSON with spaces between its parts, and the keys of its objects in any order."""

    def gap():
        return chance.choice(("", "", " ", "  ", "\t", " \r"))

    if isinstance(value, dict):
        members = [f"{gap()}{json.dumps(key)}{gap()}:{spaced(part, chance)}" for key, part in chance.sample([*value.items()], len(value))]
        return f"{gap()}{{{','.join(members) or gap()}}}{gap()}"
    if isinstance(value, list):
        return f"{gap()}[{','.join(spaced(part, chance) for part in value) or gap()}]{gap()}"
    return f"{gap()}{json.dumps(value)}{gap()}"


def spaced_load_of(world, chance):
    """A line that loads a world whose text no save writes."""
    return b'{"do":"load","world":%s}' % spaced(world, chance).encode()


def ids_in(world):
    return [f'{slot}.{entry["generation"]}' for slot, entry in enumerate(world["bodies"]) if "body" in entry]


def do_of(line):
    return json.loads(line.decode())["do"]


class Checks:
    """All that is checked of a script, in turn; `seen` counts what came up."""

    def __init__(self, program, least, writer, lines):
        self.program = program
        self.least = least
        self.writer = writer
        self.random = writer.random
        self.seen = Counter()
        first = self.run(lines)
        self.seen["scripts that end in a bad line"] += first.status == 1
        for answer in first.answers:
            self.seen[f"refused {answer['refused']}" if "refused" in answer else "other answers"] += 1
        # What follows speaks of the good lines alone, with a save at the end.
        self.lines = [line for line, _ in first.pairs()]
        self.texts = [text for _, text in first.pairs()]
        self.final = self.run([*self.lines, SAVE])
        must_be_same("a script gives the same answers twice", self.lines, self.texts, self.final.texts[:-1])
        self.saved = self.final.texts[-1]

    def run(self, lines, **how):
        ended = Run(self.program, lines, **how)
        self.seen["runs of the program"] += 1
        return ended

    def all(self):
        self.looks_change_nothing()
        self.saves_load()
        self.cut_in_two()
        self.crowds_are_their_requests()
        self.crowds_of_many_threads()
        self.steps_by_workers()
        self.little_memory()
        self.changed_worlds()

    def looks_change_nothing(self):
        """Looks between the lines change no answer; the ledger's total is all momenta, and a refusal changes nothing."""
        lines, looks = [], {}
        for line, text in zip(self.lines, self.texts):
            refused = text.startswith(b'{"refused"') or text.startswith(b'{"clause"')
            if refused:
                lines.append(SAVE)
            looks[len(lines)] = "line"
            lines.append(line)
            if refused or do_of(line) in ("step", "crowd", "load", "destroy", "sleep"):
                looks[len(lines)] = "unchanged" if refused else "booked"
                lines += [SAVE, LEDGER]
        run = self.run(lines)
        kept = [run.texts[n] for n, kind in looks.items() if kind == "line"]
        must_be_same("looks between the lines", lines, self.texts, kept)
        for place, kind in looks.items():
            if kind == "unchanged" and run.texts[place] != run.texts[place - 2]:
                raise Broken("a refused line changed the world", lines[: place + 1])
            if kind == "booked":
                self.booked(lines[: place + 2], run.answers[place], run.answers[place + 1])
        self.shown()

    def booked(self, lines, saved, ledger):
        """The ledger's total is the sum of its causes and of all bodies' momenta."""
        if saved == NO_MEMORY:
            return
        world = saved["world"]
        momenta = [entry["body"]["p"] for entry in world["bodies"] if "body" in entry]
        total = [int(part) for part in ledger["total"]]
        if total != [sum(p[axis] for p in momenta) for axis in (0, 1)]:
            raise Broken("the ledger's total isn't the sum of all momenta", lines)
        causes = {cause: [int(part) for part in pair] for cause, pair in ledger["causes"].items()}
        if causes != sums_of(world) or total != [sum(pair[axis] for pair in causes.values()) for axis in (0, 1)]:
            raise Broken("the causes of the ledger aren't its total, or aren't what is saved", lines)

    def shown(self):
        """At the end each body is shown as it is saved, and the momenta add up to the ledger's total."""
        world = json.loads(self.saved)["world"]
        names = ids_in(world)
        shows = [b'{"do":"show","body":"%s"}' % name.encode() for name in names]
        lines = [*self.lines, LEDGER, *shows]
        answers = self.run(lines).answers[len(self.lines) :]
        bodies = [entry["body"] for entry in world["bodies"] if "body" in entry]
        for body, shown in zip(bodies, answers[1:]):
            if any(body[key] != shown[key] for key in ("at", "facing", "l", "p")):
                raise Broken("a body is shown otherwise than saved", lines)
        total = [str(sum(shown["p"][axis] for shown in answers[1:])) for axis in (0, 1)]
        if answers[0]["total"] != total:
            raise Broken("the ledger's total isn't the sum of all momenta that are shown", lines)

    def saves_load(self):
        """What was saved loads, also with spaces and its keys in another order, and is saved to the same bytes."""
        world = json.loads(self.saved)["world"]
        if not can_be_loaded(world):
            return
        for load in (load_of(self.saved), spaced_load_of(world, self.random)):
            lines = [load, SAVE]
            must_be_same("a save that is loaded and saved", lines, [b'{"done":true}', self.saved], self.run(lines).texts)

    def cut_in_two(self):
        """A script that is cut in two by save and load gives the same answers and ends in the same world."""
        cut = self.random.randint(0, len(self.lines))
        saved = self.run([*self.lines[:cut], SAVE]).texts[-1]
        if not can_be_loaded(json.loads(saved)["world"]):
            return
        lines = [load_of(saved), *self.lines[cut:], SAVE]
        must_be_same(f"cut in two after {cut} lines", lines, [*self.texts[cut:], self.saved], self.run(lines).texts[1:])

    def crowds_are_their_requests(self):
        """A crowd of one thread is its requests one by one, of which it counts those that are accepted."""
        lines, crowds, places = [], [], []
        for line, text in zip(self.lines, self.texts):
            request = json.loads(line.decode())
            if request["do"] != "crowd" or b"journal" not in text:
                places.append(len(lines))
                lines.append(line)
                continue
            calls = [json.dumps(call).encode() for call in request["each"]] * request["times"]
            crowds.append((json.loads(text), range(len(lines), len(lines) + len(calls)), request))
            self.seen["crowds"] += 1
            lines += calls
        if not crowds:
            return
        run = self.run([*lines, SAVE])
        others = [text for text in self.texts if b"journal" not in text]
        must_be_same("a crowd as single requests", lines, [*others, self.saved], [run.texts[n] for n in [*places, len(lines)]])
        for told, calls, request in crowds:
            each = request["each"] * request["times"]
            accepted = [call for call, n in zip(each, calls) if "refused" not in run.answers[n]]
            pushed = [str(sum(call["by"][axis] for call in accepted if call["do"] in ("push", "push_at"))) for axis in (0, 1)]
            if told != {"journal": len(accepted), "seats": [{"accepted": len(accepted), "pushed": pushed}]}:
                raise Broken(f"a crowd tells {told}, and {len(accepted)} of its requests are accepted", lines)

    def crowds_of_many_threads(self):
        """With three threads the seats' counts add up to the journal, and the world that is left is sound: it loads."""
        if not any(b"journal" in text for text in self.texts):
            return
        lines = [*self.lines, LEDGER, SAVE]
        run = self.run(lines, words=("--threads", "3"))
        for answer in run.answers:
            if "journal" in answer and answer["journal"] != sum(seat["accepted"] for seat in answer["seats"]):
                raise Broken("the seats' counts aren't the journal's", lines)
        self.booked(lines, run.answers[-1], run.answers[-2])
        saved = run.texts[-1]
        if can_be_loaded(run.answers[-1]["world"]):
            again = [load_of(saved), SAVE]
            must_be_same("a save after three threads", again, [b'{"done":true}', saved], self.run(again).texts)

    def steps_by_workers(self):
        """Steps by three workers, in a crowd too, give the answers and the world of one."""
        run = self.run([*self.lines, SAVE], words=("--workers", "3"))
        must_be_same("steps by three workers", self.lines, [*self.texts, self.saved], run.texts)

    def little_memory(self):
        """With little memory the lines that are refused for want of it leave the answers of all others as they are."""
        if any(do_of(line) == "crowd" for line in self.lines):
            return
        memory = self.least + self.random.choice([0, 64, 128, 256, 512, 1024, 2048, 8192])
        run = self.run(self.lines, memory=memory)
        if run.status == 1:
            raise Broken("a good line is bad where memory is little", self.lines)
        rest = [(line, text) for line, text in run.pairs() if text != b'{"refused":1}']
        self.seen["lines refused 1 with little memory"] += len(run.texts) - len(rest)
        self.seen["ends with status 3 with little memory"] += run.status == 3
        if len(rest) < len(run.texts):
            lines = [line for line, _ in rest]
            must_be_same(f"with {memory} KB", lines, [text for _, text in rest], self.run(lines).texts)

    def changed_worlds(self):
        """A saved world with a change is refused 12 by a clause, or it loads, is saved as it was, and goes on."""
        world = json.loads(self.saved)["world"]
        for _ in range(3):
            changed = world
            for _ in range(self.random.choice([1, 1, 1, 2, 3])):
                changed = self.writer.changed(changed)
            self.loaded(changed)

    def loaded(self, world):
        load = compact({"do": "load", "world": world})
        lines = [load, SAVE, *[b'{"do":"step","ticks":%d}' % ticks for ticks in (1, 8, 1)], SAVE, LEDGER]
        run = self.run(lines)
        other = [spaced_load_of(world, self.random), *lines[1:]]
        must_be_same("a changed world with spaces, its keys in another order", other, run.texts, self.run(other).texts)
        first = run.answers[0]
        if "refused" in first:
            if first["refused"] != 12 or not 1 <= first["clause"] <= 10:
                raise Broken(f"a load is refused {first}", lines)
            self.seen[f"changed worlds refused for clause {first['clause']:2}"] += 1
            return
        self.seen["changed worlds that load"] += 1
        if world["version"] == 2 and run.answers[1]["world"] != world:
            raise Broken("a world that was loaded is saved otherwise", lines)
        self.booked(lines, run.answers[-2], run.answers[-1])
        if can_be_loaded(run.answers[-2]["world"]):
            again = [load_of(run.texts[-2]), SAVE]
            must_be_same("a changed world after its steps", again, [b'{"done":true}', run.texts[-2]], self.run(again).texts)
