#!/usr/bin/env python3
"""Runs scripts of the program `world_script` as calls of the library, and compares the answers with the stored ones. At each script's end the world's
digest is compared with the one that examples/digest.py works out of the saved world.

    bindings/scripts.py FILE..          each FILE has its answers beside it, in FILE.stdout
    bindings/scripts.py --digests FILE  writes the digest after each line of a script, as hexadecimal digits
    bindings/scripts.py --batch FILE..  the same as the first, but runs of commands go through one call of dm_apply_all each
    bindings/scripts.py --corpus FOLDER FILE..  writes for a fuzzer each script's world, saved, and its commands as they lie in memory

Lines that the program calls bad are left out. Scripts with a crowd (threads) aren't the library's, nor are those in which lines and answers can't
be paired: they are passed over. The last line is 'N passed, M failed'.
"""

import json
import sys
from pathlib import Path

HERE = Path(__file__).resolve().parent
sys.path[:0] = [str(HERE / "python"), str(HERE.parent / "examples")]
import dillmonth  # noqa: E402
from digest import digest_of  # noqa: E402
from dillmonth import Body, Cause, Command, Handle, Joint, Kind, Refused, Rot, Shape, Vec, World  # noqa: E402

SETS = ("static", "disabled", "awake")


class NotOurs(Exception):
    """A line that only the program knows."""


def compact(value):
    return json.dumps(value, separators=(",", ":"), sort_keys=True)


def handle_of(text):
    slot, generation = text.split(".")
    return Handle(int(slot), int(generation))


def text_of(handle):
    return f"{handle.slot}.{handle.generation}"


def id_of(shape):
    return [shape.slot, shape.index]


def shape_of(keys):
    if "circle" in keys:
        form, first, second = 0, keys["circle"], (0, 0)
    elif "capsule" in keys:
        form, (first, second) = 1, keys["capsule"]
    else:
        form, (first, second) = 2, keys["segment"]
    return Shape(form, keys.get("group", 0), tuple(first), tuple(second), keys.get("radius", 0), keys.get("friction", 0),
                 keys.get("restitution", 0), keys.get("category", 1), keys.get("mask", dillmonth.ALL))


def body_of(line):
    kind = {"static": 0, "kinematic": 1, "dynamic": 2}[line["kind"]]
    return Body(kind, 0, tuple(line["at"]), tuple(line.get("facing", (dillmonth.ONE, 0))), line.get("mass", 0), line.get("inertia", 0),
                tuple(line.get("velocity", (0, 0))), line.get("spin", 0))


def joint_of(line):
    return Joint(handle_of(line["a"]), handle_of(line["b"]), tuple(line["from"]), tuple(line["to"]), line["length"],
                 int(line.get("collide", False)), 0)


KINDS = ("create", "destroy", "joint", "unjoin", "push", "push_at", "set_pose", "set_velocity", "gravity", "disable", "enable", "wake",
         "sleep", "step")


def command_of(line, shapes):
    """The command of a line, whose shapes are added to the list; None of a line that only looks."""
    if line["do"] not in KINDS:
        return None
    command = Command(kind=KINDS.index(line["do"]))
    if line["do"] == "create":
        command.body, command.shapes_from, command.shapes_count = body_of(line), len(shapes), len(line["shapes"])
        shapes.extend(shape_of(shape) for shape in line["shapes"])
    elif line["do"] == "joint":
        command.joint = joint_of(line)
    elif "body" in line or "joint" in line:
        command.joint.a = handle_of(line.get("body") or line["joint"])
    if "by" in line:
        command.by = Vec(*line["by"])
    if "offset" in line:
        command.offset = Vec(*line["offset"])
    if line["do"] == "set_pose":
        command.body.at, command.body.facing = Vec(*line["at"]), Rot(*line["facing"])
    if line["do"] == "set_velocity":
        command.body.velocity, command.body.spin = Vec(*line["velocity"]), line["spin"]
    command.ticks = line.get("ticks", 0)
    return command


class Player:
    """A world that answers the lines of a script."""

    def __init__(self):
        self.world = World()

    def events(self, step):
        pairs = lambda found: [[id_of(pair.first), id_of(pair.second)] for pair in found]  # noqa: E731
        return {"begin": pairs(self.world.begun()), "end": pairs(self.world.ended()), "step": step,
                "slept": [text_of(handle) for handle in self.world.slept()], "woke": [text_of(handle) for handle in self.world.woke()]}

    def command(self, line):
        """A line that is one call of the world, by the call of its own."""
        world, do = self.world, line["do"]
        body = handle_of(line["body"]) if "body" in line else None
        if do == "create":
            return {"body": text_of(world.create_body(body_of(line), [shape_of(shape) for shape in line["shapes"]]))}
        if do == "joint":
            return {"joint": text_of(world.create_joint(joint_of(line)))}
        if do == "step":
            return self.events(world.step(line["ticks"]))
        calls = {
            "destroy": lambda: world.destroy_body(body), "unjoin": lambda: world.destroy_joint(handle_of(line["joint"])),
            "push": lambda: world.push(body, line["by"]), "push_at": lambda: world.push(body, line["by"], line["offset"]),
            "set_pose": lambda: world.set_pose(body, line["at"], line["facing"]),
            "set_velocity": lambda: world.set_velocity(body, line["velocity"], line["spin"]),
            "gravity": lambda: world.set_gravity(line["by"]), "enable": lambda: world.enable(body),
            "disable": lambda: world.disable(body), "wake": lambda: world.wake(body), "sleep": lambda: world.sleep(body),
        }
        if do not in calls:
            raise NotOurs
        calls[do]()
        return {"done": True}

    def show(self, line):
        view = self.world.body(handle_of(line["body"]))
        if view is None:
            return {"refused": 2}
        answer = {"at": [view.pose.at.x, view.pose.at.y], "facing": [view.pose.facing.c, view.pose.facing.s], "l": str(view.l),
                  "p": [view.p.x, view.p.y], "set": SETS[view.set] if view.set < 3 else f"sleeping {view.island}"}
        if self.world.info(view.pose.handle).kind == Kind.KINEMATIC:
            answer.update(velocity=[view.velocity.x, view.velocity.y], spin=view.spin)
        return answer

    def ledger(self):
        texts = lambda pair: [str(part) for part in pair]  # noqa: E731
        return {"causes": {cause.name.lower().rstrip("s"): texts(self.world.total(cause)) for cause in Cause}, "total": texts(self.world.total())}

    def look(self, line):
        """A line that only looks, or that loads."""
        do = line["do"]
        if do == "show":
            return self.show(line)
        if do == "ledger":
            return self.ledger()
        if do == "ray":
            hit = self.world.ray(line["from"], line["along"])
            return {"hit": None if hit is None else {"fraction": hit.fraction, "shape": id_of(hit.shape)}}
        if do == "region":
            return {"shapes": [id_of(shape) for shape in self.world.region(line["lo"], line["hi"])]}
        if do == "load":
            self.world = World.load(json.dumps(line["world"]))
            return {"done": True}
        return self.command(line)

    def answer(self, line):
        """The answer as the program writes it."""
        try:
            if line["do"] == "save":
                return '{"world":' + self.world.save() + "}"
            answer = self.look(line)
        except Refused as refused:
            answer = {"refused": int(refused.status)}
            if refused.clause:
                answer["clause"] = refused.clause
        return compact(answer)

    def play(self, lines):
        for line in lines:
            yield self.answer(line)


class BatchPlayer(Player):
    """The same, but runs of commands go through one call."""

    def answers_to(self, commands, shapes):
        for command, answer in zip(commands, self.world.apply_all(commands, shapes)):
            if answer.status:
                yield compact({"refused": answer.status})
            elif command.kind in (0, 2):
                yield compact({"body" if command.kind == 0 else "joint": text_of(answer.made)})
            elif command.kind == 13:
                yield compact(self.events(answer.step))
            else:
                yield compact({"done": True})

    def play(self, lines):
        commands, shapes = [], []

        def flush():
            yield from list(self.answers_to(commands, shapes))
            commands.clear(), shapes.clear()

        for line in lines:
            command = command_of(line, shapes)
            if command is not None:
                commands.append(command)
                # events are those of the last step: a run ends with it
                if line["do"] == "step":
                    yield from flush()
                continue
            yield from flush()
            yield self.answer(line)
        yield from flush()


def texts_of(path):
    """The lines of a script that aren't empty."""
    return [text for text in Path(path).read_bytes().split(b"\n") if text.strip()]


def request_of(text):
    """A request; NotOurs where it is the program's alone."""
    line = json.loads(text)
    if line.get("do") == "crowd":
        raise NotOurs
    return line


def lines_of(path):
    return [request_of(text) for text in texts_of(path)]


def lines_and_answers(path):
    """The requests of a script and their answers, without the lines that the program calls bad."""
    texts, answers = texts_of(path), Path(path + ".stdout").read_text(encoding="utf-8").splitlines()
    pairs = [pair for pair in zip(texts, answers) if not pair[1].startswith('{"bad"')]
    if len(pairs) < len(answers) and len(texts) != len(answers):
        raise NotOurs
    return [request_of(text) for text, _ in pairs], [answer for _, answer in pairs]


def has_told_digest(world):
    """Whether the digest is that of the saved world, worked out by itself."""
    return world.digest().hex() == digest_of(json.loads(world.save()))


def write_digests(path):
    player = Player()
    for line in lines_of(path):
        player.answer(line)
        print(player.world.digest().hex())


def write_corpus(folder, paths):
    """Each script's world at its end as text, and its commands behind their shapes, of which a fuzzer knows eight."""
    for number, path in enumerate(paths):
        try:
            lines, _ = lines_and_answers(path)
        except NotOurs:
            continue
        player, shapes = Player(), []
        list(player.play(lines))
        Path(folder, f"world_{number}").write_text(player.world.save(), encoding="utf-8")
        commands = [command for command in (command_of(line, shapes) for line in lines) if command is not None]
        for command in commands:
            command.shapes_from = min(command.shapes_from, 7)
        first = (shapes + [dillmonth.circle(1 << 19)] * 8)[:8]
        Path(folder, f"commands_{number}").write_bytes(b"".join(map(bytes, first + commands[:64])))


def main(words):
    if words[:1] == ["--digests"]:
        return write_digests(words[1])
    if words[:1] == ["--corpus"]:
        return write_corpus(words[1], words[2:])
    player, passed, failed, over = Player, 0, 0, 0
    if words[:1] == ["--batch"]:
        player, words = BatchPlayer, words[1:]
    for path in words:
        playing = player()
        try:
            lines, wanted = lines_and_answers(path)
            given = list(playing.play(lines))
        except NotOurs:
            over += 1
            continue
        if given == wanted and has_told_digest(playing.world):
            passed += 1
            continue
        failed += 1
        if given == wanted:
            print(f"{path}: the digest at its end isn't the one that docs/WORLD.md tells")
            continue
        first = next((n for n, pair in enumerate(zip(given, wanted)) if pair[0] != pair[1]), min(len(given), len(wanted)))
        print(f"{path}: answer {first + 1} is {given[first:first + 1]}, not {wanted[first:first + 1]}")
    print(f"{over} passed over: they have threads, or lines without an answer of their own")
    print(f"{passed} passed, {failed} failed")
    sys.exit(1 if failed or not passed else 0)


if __name__ == "__main__":
    main(sys.argv[1:])
