#!/usr/bin/env python3
"""Two peers that run one world in lockstep, as docs/LOCKSTEP.md tells it.

    examples/lockstep.py [PROGRAM]

PROGRAM is the built program, crates/world_script/out/world_script if it is left out. Two processes take the same inputs for
six hundred frames. Then a peer is made to differ and the difference is found, a peer is lost and comes back, frames are
guessed and taken back, and a log is replayed. The last line is 'N passed, M failed'; the status is 1 where something failed.
"""
import json
import math
import os
import sys

from world import PROGRAM, World

METRE = 1 << 20
UNIT = 1 << 30
RATE = 240  # ticks a second
FRAMES = 600  # of a sixtieth of a second each
TICKS = RATE // 60
BOXES = range(3, 15)
LIFT, PLAYERS = 15, (16, 17)
PLAYER_MASS = 512


def line(**request):
    return json.dumps(request, separators=(",", ":"))


def create(kind, at, shape, **keys):
    return line(do="create", kind=kind, at=[round(part * METRE) for part in at], shapes=[{"friction": 160, **shape}], **keys)


def capsule(half, radius):
    return {"capsule": [[round(-half * METRE), 0], [round(half * METRE), 0]], "radius": round(radius * METRE)}


def scene():
    """A floor, a slope, twelve boxes, a lift, two players, and a lamp that hangs from a joint."""
    yield line(do="gravity", by=[0, -round(9.81 * METRE / RATE**2)])
    flat = {"segment": [[-15 * METRE, 0], [15 * METRE, 0]]}
    yield create("static", (0, 0), flat)
    yield create("static", (14, 0), flat, facing=[round(UNIT * math.cos(0.4)), round(UNIT * math.sin(0.4))])
    yield create("static", (0, 6), {"circle": [0, 0], "radius": METRE // 10})
    for index, _ in enumerate(BOXES):
        inertia = 256 * METRE**2 // 12
        yield create("dynamic", (-5 + index % 4, 0.3 + 0.5 * (index // 4)), capsule(0.25, 0.2), mass=256, inertia=inertia)
    yield create("kinematic", (6, 1), capsule(1, 0.1), velocity=[0, METRE // RATE // 2])
    for x in (-1, 1):
        yield create("dynamic", (x, 0.6), {"circle": [0, 0], "radius": METRE // 2}, mass=PLAYER_MASS, inertia=0)
    lamp = {"circle": [0, 0], "radius": METRE // 5}
    yield create("dynamic", (1, 5), lamp, mass=64, inertia=64 * (METRE // 5) ** 2 // 2)
    yield line(do="joint", a="2.1", b="18.1", **{"from": [0, 0]}, to=[0, 0], length=round(math.sqrt(2) * METRE))


def inputs(frame, player):
    """What a player asks for in a frame: a push to one side now and then, and a jump."""
    chosen = (frame * 7 + player * 13) % 40
    if chosen < 12:
        side = 1 if (frame // 40 + player) % 2 else -1
        yield line(do="push", body=f"{PLAYERS[player]}.1", by=[side * PLAYER_MASS * METRE // RATE // 4, 0])
    elif chosen == 20:
        yield line(do="push", body=f"{PLAYERS[player]}.1", by=[0, PLAYER_MASS * 4 * METRE // RATE])


def frame_lines(frame):
    """All that a frame asks for: each player's inputs in the players' order, what the game does by itself, and then the ticks.
    There is a joint, so a step has one tick."""
    yield from inputs(frame, 0)
    yield from inputs(frame, 1)
    if frame % 120 == 0:
        way = METRE // RATE // 2 * (1 if frame % 240 == 0 else -1)
        yield line(do="set_velocity", body=f"{LIFT}.1", velocity=[0, way], spin=0)
    for _ in range(TICKS):
        yield line(do="step", ticks=1)


class Peer:
    """A world in a process of its own, with the log of all frames that it has played."""

    def __init__(self, program):
        self.world = World(program, "--extended")
        self.frames, self.answers = [], []

    def ask(self, lines):
        """The answers to some lines."""
        return [answer.decode() for answer in self.world.answers([(each + "\n").encode() for each in lines])]

    def play(self, lines):
        """Plays a frame and logs it."""
        lines = list(lines)
        self.frames.append(lines)
        self.answers.append(self.ask(lines))

    def save(self):
        """The world's text, just as it was written."""
        (answer,) = self.ask([line(do="save")])
        return answer[len('{"world":'):-1]

    def load(self, text):
        return self.ask([f'{{"do":"load","world":{text}}}']) == ['{"done":true}']

    def digest(self):
        (answer,) = self.ask([line(do="digest")])
        return answer

    def keep(self):
        return self.ask([line(do="keep", number=0)]) == ['{"done":true}']

    def back(self):
        return self.ask([line(do="back", number=0)]) == ['{"done":true}']

    def end(self):
        status, _, _ = self.world.end()
        return status

    def crash(self):
        self.world.kill()


def begin(program):
    peer = Peer(program)
    peer.play(scene())
    return peer


def replayed(program, frames):
    """The world after these logged frames, and all answers."""
    peer = Peer(program)
    for lines in frames:
        peer.play(lines)
    text = peer.save()
    peer.end()
    return text, peer.answers


def first_difference(one, other, path="world"):
    """Where two values of JSON differ first, or None."""
    if type(one) is not type(other):
        return path
    if isinstance(one, dict) and one.keys() == other.keys():
        parts = [(f"{path}.{key}", one[key], other[key]) for key in one]
    elif isinstance(one, list) and len(one) == len(other):
        parts = [(f"{path}[{place}]", *pair) for place, pair in enumerate(zip(one, other))]
    else:
        return None if one == other else path
    return next((found for name, *pair in parts if (found := first_difference(*pair, name))), None)


def first_frame_apart(program, one, other):
    """The first logged frame after which two logs have led to different worlds, by halving."""
    same, apart = 0, len(one)
    while apart - same > 1:
        middle = (same + apart) // 2
        texts = [replayed(program, frames[:middle])[0] for frames in (one, other)]
        same, apart = (middle, apart) if texts[0] == texts[1] else (same, middle)
    return apart - 1


def in_lockstep(program):
    """Both peers answer the same in each frame, and their worlds have the same digest. At the end they are the same text."""
    peers = [begin(program), begin(program)]
    for frame in range(1, FRAMES + 1):
        for peer in peers:
            peer.play(frame_lines(frame))
        yield peers[0].answers[-1] == peers[1].answers[-1]
        yield peers[0].digest() == peers[1].digest()
    yield peers[0].save() == peers[1].save()
    yield [peer.end() for peer in peers] == [0, 0]


def found_apart(program):
    """One peer pushes once by one unit more. The digests of that frame show it, the logs tell the same frame, and the saves the place."""
    wrong = 250
    peers = [begin(program), begin(program)]
    for frame in range(1, FRAMES + 1):
        for peer in peers:
            peer.play(frame_lines(frame))
        if frame == wrong:
            peers[1].frames[-1].append(line(do="push", body="3.1", by=[1, 0]))
            peers[1].ask(peers[1].frames[-1][-1:])
        if peers[0].digest() != peers[1].digest():
            break
    yield frame == wrong
    yield first_frame_apart(program, peers[0].frames, peers[1].frames) == wrong
    texts = [replayed(program, peer.frames[:wrong + 1])[0] for peer in peers]
    place = first_difference(*map(json.loads, texts))
    print(f"worlds apart from frame {wrong} on, first at {place}")
    yield place.startswith("world.")
    for peer in peers:
        peer.end()


def comes_back(program):
    """A peer that is lost loads its last save, plays the frames since then from the log, and goes on as the other."""
    peers = [begin(program), begin(program)]
    for frame in range(1, 401):
        for peer in peers:
            peer.play(frame_lines(frame))
        if frame == 300:
            kept = peers[1].save()
    peers[1].crash()
    back = Peer(program)
    yield back.load(kept)
    for lines in peers[0].frames[301:]:
        back.play(lines)
    yield back.digest() == peers[0].digest()
    for frame in range(401, FRAMES + 1):
        for peer in (peers[0], back):
            peer.play(frame_lines(frame))
        yield back.answers[-1] == peers[0].answers[-1]
    yield back.digest() == peers[0].digest()
    yield [peers[0].end(), back.end()] == [0, 0]


def taken_back(program):
    """Four frames are played on a guess of the other's inputs, taken back, and played as they were."""
    peers = [begin(program), begin(program)]
    for frame in range(1, 61):
        for peer in peers:
            peer.play(frame_lines(frame))
    yield peers[1].keep()
    for frame in range(61, 65):
        peers[0].play(frame_lines(frame))
        peers[1].ask([*inputs(frame, 0), *([line(do="step", ticks=1)] * TICKS)])
    yield peers[1].digest() != peers[0].digest()
    yield peers[1].back()
    for frame in range(61, 65):
        peers[1].play(frame_lines(frame))
    yield peers[1].digest() == peers[0].digest()
    for peer in peers:
        peer.end()


def logs_replay(program):
    """A log gives each of its answers again, and the same world."""
    peer = begin(program)
    for frame in range(1, FRAMES + 1):
        peer.play(frame_lines(frame))
    text, answers = replayed(program, peer.frames)
    yield answers == peer.answers
    yield text == peer.save()
    yield peer.end() == 0


def as_doubles(text):
    """What a reader makes of a save that has each number as a double of 64 bits, as JavaScript and jq do."""
    return json.dumps(json.loads(text, parse_int=lambda digits: int(float(digits))), separators=(",", ":"))


def keeps_its_text(program):
    """A save has to be kept as it was written: with numbers read as doubles it is refused, and the world stays."""
    peer = begin(program)
    text = peer.save()
    yield peer.ask([f'{{"do":"load","world":{as_doubles(text)}}}']) == ['{"clause":1,"refused":12}']
    yield peer.save() == text
    yield peer.load(text)
    yield peer.save() == text
    yield peer.end() == 0


def main():
    program = sys.argv[1] if len(sys.argv) > 1 else PROGRAM
    if not os.path.exists(program):
        sys.exit("there is no built program: `cd crates/world_script && rt run` builds it")
    passed = failed = 0
    for part in (in_lockstep, found_apart, comes_back, taken_back, logs_replay, keeps_its_text):
        try:
            for good in part(program):
                passed, failed = passed + good, failed + (not good)
                if not good:
                    print(f"{part.__name__}: not as it should be")
        except (OSError, EOFError, ValueError) as error:
            print(f"{part.__name__}: {error}")
            failed += 1
    print(f"{passed} passed, {failed} failed")
    return 1 if failed else 0


if __name__ == "__main__":
    sys.exit(main())
