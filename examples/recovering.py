#!/usr/bin/env python3
"""Keeps a world over crashes: by a saved world, and a journal of the requests since.

    examples/recovering.py [PROGRAM]

PROGRAM is the built program, crates/world_script/out/world_script if it is left out. A game plays on a world that is kept
so; again and again the program is killed, and the game goes on with the world as it was. At the end the world is the one
of a game that was never killed. Then a script from a file is killed at some moments: the answers that were written stand.
The last line is 'N passed, M failed'; the status is 1 where something failed.
"""
import json
import os
import random
import subprocess
import sys
import tempfile
import time

from world import PROGRAM, Ended, World

LOOKS = ("show", "ledger", "ray", "region", "save")
BETWEEN_SAVES = 40  # requests
NO_MEMORY, NO_THREAD = 1, 11


class KeptWorld:
    """A world whose folder has all that it takes to go on after a crash, of the program or of this process.

    `world.N` is a saved world, and `journal.N` has the requests that followed it. A request stands in the journal before it
    is sent. So each request that was answered is there, and perhaps one more, whose answer the replay gives.
    """

    def __init__(self, program, folder):
        self.program = program
        self.folder = folder
        self.last = None  # the answer of the journal's last request, after a replay
        self.open()

    def open(self):
        """Starts the program, loads the newest saved world, and makes the requests of its journal again."""
        self.world = World(self.program)
        self.number = max((int(name[6:]) for name in os.listdir(self.folder) if name[:6] == "world." and name[6:].isdigit()), default=0)
        if self.number:
            with open(self.path("world"), "rb") as file:
                answer = self.world.answer_to(b'{"do":"load",' + file.read()[1:])
            assert answer == b'{"done":true}', answer
        self.journal = open(self.path("journal"), "a+b")
        self.journal.seek(0)
        lines = self.journal.read().split(b"\n")
        self.journal.truncate(self.journal.tell() - len(lines.pop()))  # a torn line was never sent
        self.since = len(lines)
        for line in lines:
            self.last = self.world.answer_to(line)

    def path(self, what):
        return os.path.join(self.folder, f"{what}.{self.number}")

    def ask(self, request):
        line = json.dumps(request, separators=(",", ":")).encode()
        if request["do"] in LOOKS:
            return json.loads(self.world.answer_to(line))
        place = self.journal.seek(0, os.SEEK_END)
        self.journal.write(line + b"\n")
        self.settle(self.journal)
        answer = json.loads(self.world.answer_to(line))
        if answer.get("refused") in (NO_MEMORY, NO_THREAD):
            self.journal.truncate(place)  # the replay may have what this request lacked
        self.since += 1
        if self.since >= BETWEEN_SAVES:
            self.save()
        return answer

    def save(self):
        """Puts a saved world in the place of the one before it and of its journal."""
        saved = self.world.answer_to(b'{"do":"save"}')
        old = [self.path("world"), self.path("journal")]
        self.number += 1
        unfinished = os.path.join(self.folder, "unfinished")
        with open(unfinished, "wb") as file:
            file.write(saved)
            self.settle(file)
        os.rename(unfinished, self.path("world"))
        self.journal.close()
        self.journal = open(self.path("journal"), "a+b")
        self.since = 0
        for path in old:
            if os.path.exists(path):
                os.remove(path)

    @staticmethod
    def settle(file):
        """Sees to it that a file outlives this process. `os.fsync(file.fileno())` makes it outlive the machine's fall, too."""
        file.flush()


def game(count):
    """The requests of a game."""
    choice = random.Random(7)
    floor = {"segment": [[-(1 << 24), 0], [1 << 24, 0]], "friction": 128}
    yield {"do": "gravity", "by": [0, -157]}
    yield {"do": "create", "kind": "static", "at": [0, 0], "shapes": [floor]}
    bodies = 1
    for _ in range(count - 2):
        body = f"{choice.randrange(bodies)}.1"
        kind = choice.random()
        if kind < 0.1:
            bodies += 1
            at = [choice.randint(-999_999, 999_999), choice.randint(70_000, 999_999)]
            shapes = [{"circle": [0, 0], "radius": 65_536, "friction": 128}]
            yield {"do": "create", "kind": "dynamic", "mass": 3, "inertia": 3 << 31, "at": at, "shapes": shapes}
        elif kind < 0.2:
            yield {"do": "push", "body": body, "by": [choice.randint(-9999, 9999), choice.randint(-9999, 9999)]}
        elif kind < 0.25:
            yield {"do": "joint", "a": body, "b": "1.1", "from": [0, 0], "to": [0, 0], "length": 200_000}
        elif kind < 0.3:
            yield {"do": choice.choice(["wake", "sleep", "disable", "enable"]), "body": body}
        elif kind < 0.4:
            yield {"do": "show", "body": body}
        else:
            yield {"do": "step", "ticks": choice.randint(1, 8)}


def played(program, requests):
    """The answers of a game that is never killed, and its world at the end."""
    world = World(program)
    answers = [json.loads(world.answer_to(json.dumps(request).encode())) for request in requests]
    saved = world.answer_to(b'{"do":"save"}')
    world.kill()
    return answers, saved


def survives(program, requests):
    """The same game on a kept world that is killed before requests, after them, and while they are made."""
    choice = random.Random(11)
    wanted, saved = played(program, requests)
    with tempfile.TemporaryDirectory() as folder:
        kept = KeptWorld(program, folder)
        answers, deaths = [], 0
        for request in requests:
            if choice.random() < 0.1:
                deaths += 1
                kept.world.process.kill()  # it may still answer, or not
                time.sleep(choice.choice([0, 0, 0.002]))
            try:
                answers.append(kept.ask(request))
            except Ended:
                answers.append(again(kept, request))
        kept.world.kill()
        kept.journal.close()
        again_opened = KeptWorld(program, folder)
        yield f"{len(requests)} requests are answered as in a game that is never killed, over {deaths} kills", answers == wanted
        yield "the world that is kept is the same at the end", again_opened.world.answer_to(b'{"do":"save"}') == saved
        again_opened.world.kill()
        again_opened.journal.close()


def again(kept, request):
    """The answer to a request at which the program died."""
    kept.world.kill()
    kept.journal.close()
    journalled = request["do"] not in LOOKS
    kept.open()
    return json.loads(kept.last) if journalled else kept.ask(request)


def torn(program):
    """A journal whose last line was never finished, and a save that was not."""
    with tempfile.TemporaryDirectory() as folder:
        kept = KeptWorld(program, folder)
        kept.ask({"do": "gravity", "by": [0, -1]})
        kept.ask({"do": "create", "kind": "static", "at": [0, 0], "shapes": [{"circle": [0, 0], "radius": 5}]})
        before = kept.ask({"do": "save"})
        kept.journal.write(b'{"do":"step","tic')
        kept.journal.close()
        kept.world.kill()
        with open(os.path.join(folder, "unfinished"), "wb") as file:
            file.write(b'{"world":{"bo')
        kept = KeptWorld(program, folder)
        yield "a torn line and an unfinished save are passed over", kept.ask({"do": "save"}) == before
        yield "the kept world goes on", kept.ask({"do": "step", "ticks": 1}).get("step") == 1
        kept.world.kill()
        kept.journal.close()


def answers_stand(program, requests):
    """A script from a file, killed at some moments: what was written is a beginning of all answers."""
    with tempfile.TemporaryDirectory() as folder:
        script, out = os.path.join(folder, "script"), os.path.join(folder, "out")
        with open(script, "w") as file:
            file.write("".join((json.dumps(request) + "\n") + '{"do":"ledger"}\n' * 20 for request in requests))
        with open(script) as file:
            begun = time.monotonic()
            whole = subprocess.run([program], stdin=file, capture_output=True).stdout
            took = time.monotonic() - begun
        right, lengths = True, []
        for part in range(10):
            with open(script) as file, open(out, "wb") as answers:
                process = subprocess.Popen([program], stdin=file, stdout=answers)
                time.sleep(took * part / 10)
                process.kill()
                process.wait()
            with open(out, "rb") as file:
                written = file.read()
            right = right and whole.startswith(written)
            lengths.append(len(written))
        yield f"what was written before a kill is a beginning of the answers ({max(lengths)} of {len(whole)} bytes at most)", right


def main():
    program = sys.argv[1] if len(sys.argv) > 1 else PROGRAM
    if not os.path.exists(program):
        sys.exit("there is no built program: `cd crates/world_script && rt run < ../../examples/falling_circle` builds it")
    requests = list(game(600))
    passed = failed = 0
    for part in (survives(program, requests), torn(program), answers_stand(program, requests)):
        for name, held in part:
            print("ok  " if held else "FAIL", name, flush=True)
            passed += held
            failed += not held
    print(f"{passed} passed, {failed} failed")
    sys.exit(1 if failed else 0)


main()
