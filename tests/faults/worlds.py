"""The worlds in which tests/faults/run refuses memory, and the calls that it refuses it to.

A world is a text of commands, a line each, as `crates/check_scenes/src/commands.rt` reads them. A call is a command, some commands that are
replayed, or one of the words `plain`, `census`, `copy`, `frame`, `save`, `load` and `region`. The last three lists of a world are:

- calls that need memory there, so that each has to be refused at least once;
- calls that may need none, since what they make has room;
- calls that never take memory, run with all of it refused: looks, a settling, and commands that are refused for another reason.
"""

METRE = 1 << 20
HALF = METRE // 2
TOO_FAR = (1 << 40) + 1
NO_BODY = 60_000

# Calls that list all of a world.
LISTS = ["plain", "census", "copy", "frame", "save", "load", "region"]

# What is made far from all others.
NEW_BODY = "circle 1 0 300000000 0 100"
NEW_BODY_OF_NINE = "circle 1 0 300000000 0 100 0 7"


def refusals(mover, joint_end, still=None, disabled=None):
    """Commands that a world refuses for another reason than memory, whatever is wanting.

    `mover` and `joint_end` are movers, `still` is a body that is none, `disabled` one that is disabled.
    """
    lines = [
        f"destroy {NO_BODY}",
        f"push {NO_BODY} {TOO_FAR} 0",
        f"push_at {NO_BODY} {TOO_FAR} 0 0 0",
        f"set_pose {NO_BODY} {1 << 37} 0",
        f"set_velocity {NO_BODY} 0 0 0",
        f"wake {NO_BODY}",
        f"sleep {NO_BODY}",
        f"enable {NO_BODY}",
        f"disable {NO_BODY}",
        f"unjoin {NO_BODY}",
        f"joint {NO_BODY} {NO_BODY} -1",
        f"joint {mover} {NO_BODY} -1",
        f"joint {mover} {mover} -1",
        f"joint {mover} {joint_end} -1",
        f"push {mover} {TOO_FAR} 0",
        f"push_at {mover} 1 0 {1 << 27} 0",
        f"set_pose {mover} {1 << 37} 0",
        f"set_velocity {mover} 0 0 0",
        f"gravity {1 << 17} 0",
        "step 0",
        "step 9",
        f"circle {1 << 21} 0 0 0 100",
        "circle 1 0 0 0 -1",
        "circle 1 0 0 0 100 0 8",
        f"circle 1 0 {1 << 37} 0 100",
    ]
    if still is not None:
        lines += [f"push {still} {TOO_FAR} 0", f"push_at {still} 1 0 0 0", f"wake {still}", f"sleep {still}", f"set_velocity {still} 0 0 0"]
    if disabled is not None:
        lines += [f"{word} {disabled}" for word in ("disable", "wake", "sleep")]
        lines += [f"push {disabled} {TOO_FAR} 0", f"joint {mover} {disabled} -1"]
    return lines


def moving():
    """Movers over the ground in two joints, one of them with a platform, a slot that is free again, and entries of several causes.

    The next step sees a contact end and another begin.
    """
    ground = f"circle 0 0 0 {-9 * METRE} {HALF} 128 1"
    row = [f"circle 256 {256 << 32} {4 * n * METRE} {METRE} {HALF} 128" for n in range(5)]
    return [
        "gravity 3 -157",
        ground,
        *row,
        f"circle 256 {256 << 32} {16 * METRE + HALF} {METRE} {HALF} 128",
        f"lift {HALF} 0 {20 * METRE}",
        f"joint 1 2 {METRE}",
        f"joint 5 7 {METRE}",
        "push 2 70000 9",
        "push 3 -5 11",
        "step 4",
        f"push 6 {256 * METRE} 0",
        "step 1",
        f"circle 256 {256 << 32} {HALF} {METRE} {HALF} 128",
        "destroy 3",
    ]


def resting():
    """A post with two sleepers in a row and a disabled mover beside them, a loose island that is about to sleep, a lone sleeper that a mover was put
    to, two that touched and were parted, and two that have not moved yet.
    """
    apart, touching, group = 1000, 150, 10_000_000

    def circle(x, mass=1):
        return f"circle {mass} 0 {x} 0 100"

    sleepers = [circle(0, 0), circle(apart), circle(2 * apart), circle(3 * apart)]
    row = [circle(group), circle(group + apart), circle(group + 2 * apart)]
    pairs = [circle(2 * group), circle(3 * group), circle(4 * group), circle(4 * group + touching)]
    return [
        *sleepers,
        f"joint 1 2 {apart}",
        f"joint 0 1 {apart}",
        f"joint 3 2 {apart}",
        "disable 3",
        "sleep 1",
        *row,
        f"joint 4 5 {apart}",
        f"joint 5 6 {apart}",
        "unjoin 4",
        "push 4 2 4",
        "push 4 1 0",
        "push 5 1 -2",
        "push 6 1 -1",
        *pairs,
        "sleep 7",
        *["step 8"] * 15,
        f"set_pose 8 {2 * group + touching} 0",
        f"set_pose 10 {6 * group} 0",
        circle(5 * group),
        circle(5 * group + apart),
        f"joint 11 12 {apart}",
    ]


def hub():
    """A hub with joints to twenty-five movers: the last of them has no colour of its own."""
    lines = ["circle 1 0 0 0 100"]
    for slot in range(1, 26):
        lines += ["circle 1 0 1000 0 100", f"joint 0 {slot} 1000"]
    return lines


def row_about_to_sleep():
    """Three circles in a row with two joints, of which the middle one is destroyed: a loose island of two, one step before it sleeps."""
    bodies = [f"circle 1 0 {x} 0 100" for x in (0, 1000, 2000)]
    return [*bodies, "joint 0 1 1000", "joint 1 2 1000", "destroy 1", *["step 8"] * 15]


def circle_on_floor(x):
    return f"circle 256 0 {x} 65536 65536"


def circle_beside_a_sleeper():
    """A circle that sleeps on a floor, and another one that is made where it touches both."""
    return ["gravity 0 -157", f"floor 0 0 {METRE}", circle_on_floor(0), *["step 4"] * 32, circle_on_floor(131_072)]


def sleepers_on_a_floor():
    """Three circles that sleep on a floor, each alone."""
    circles = [circle_on_floor(x) for x in (-600_000, 0, 600_000)]
    return ["gravity 0 -157", f"floor 0 0 {METRE}", *circles, *["step 4"] * 32]


def sleeper_at_a_platform():
    """A kinematic body that doesn't move, and a mover that sleeps at the end of its joint."""
    return ["lift 100 0 0", "circle 1 0 1000 0 100", "joint 0 1 1000", "sleep 1"]


def pile():
    """Three hundred circles that fall on a floor in fifteen rows, after ten steps."""
    circles = [
        f"circle 16 8589934592 {n % 20 * 60_000} {100_000 + n // 20 * 60_000} 32768 128" for n in range(300)
    ]
    return ["gravity 0 -157", f"floor 0 0 {4 * METRE}", *circles, *["step 4"] * 10]


def pairs():
    """Forty islands of two circles each: the one falls on the other, which lies on a floor."""
    circles = [f"circle 16 8589934592 {n // 2 * 200_000} {32_768 + n % 2 * 65_000} 32768 128" for n in range(80)]
    return ["gravity 0 -157", f"floor 0 0 {16 * METRE}", *circles, *["step 4"] * 4]


class World:
    """A world, and the calls that are made in it."""

    def __init__(self, lines, grows, may_grow=(), free=(), strides=None):
        self.text = "\n".join(lines)
        self.grows = [*LISTS, *grows]
        self.may_grow = may_grow
        self.free = ["look", "settle", *free]
        self.strides = strides or {}

    def stride(self, call):
        """How many growths of a call are passed on to the next that is refused: 1, so that each is, but where there are very many."""
        return str(self.strides.get(call, 1))


def all_worlds():
    """Each world by its name."""
    in_pile = refusals(1, 2, still=0)
    return {
        "moving": World(
            moving(),
            [
                NEW_BODY,
                NEW_BODY_OF_NINE,
                "push 2 12 3456",
                "push_at 2 12 3456 7 8",
                "destroy 2",
                f"joint 6 1 {2 * METRE}",
                "step 3",
                "\n".join([NEW_BODY_OF_NINE, "push 2 12 3456", "step 3", "joint 6 1 100", "step 3", "unjoin 0", "destroy 2", "step 3", "destroy 3"]),
            ],
            ["unjoin 0", f"set_pose 2 0 {METRE}", "set_velocity 7 -3 2000 -77", "gravity 0 80", "disable 2", "sleep 2"],
            refusals(2, 5, still=0) + ["push 7 1 1", "wake 7", "sleep 7"],
        ),
        "resting": World(
            resting(),
            ["push 2 1 1", "push_at 1 1 1 5 5", "disable 1", "enable 3", "sleep 5", "destroy 0", "destroy 2", "joint 1 4 1000", "joint 7 2 1000", "step 8"],
            ["wake 2", "unjoin 0", "set_pose 1 70000000 0", "set_pose 0 70000000 0", "disable 0", "disable 11", "gravity 1 1"],
            refusals(1, 2, still=0, disabled=3),
        ),
        "hub": World(
            hub(),
            [NEW_BODY, "joint 0 1 1000", "joint 24 25 1000", "push 0 5 6", "push_at 25 5 6 7 8", "step 4"],
            ["destroy 0", "destroy 25", "unjoin 3", "unjoin 24", "disable 0", "disable 25", "set_pose 0 70000000 0", "sleep 0"],
            refusals(0, 1),
        ),
        "row": World(
            row_about_to_sleep(),
            ["step 8", "sleep 0", "push 0 5 6", "joint 0 2 2000", NEW_BODY],
            ["destroy 0", "disable 2", "set_pose 2 70000000 0", "wake 0"],
            refusals(0, 2) + ["push 1 1 1", "destroy 1"],
        ),
        "row asleep": World(
            [*row_about_to_sleep(), "step 8"],
            ["push 0 5 6", "push_at 2 5 6 0 0", "joint 0 2 2000", "step 8"],
            ["wake 0", "destroy 0", "disable 2", "set_pose 2 70000000 0", "sleep 0"],
            refusals(0, 2),
        ),
        "circle beside a sleeper": World(
            circle_beside_a_sleeper(),
            ["step 4", "push 1 5 6", "push_at 1 5 6 0 0", "joint 1 2 131072", circle_on_floor(-131_072)],
            ["destroy 0", "destroy 1", "disable 0", "disable 1", "set_pose 0 0 70000000", "set_pose 1 0 70000000", "wake 1", "sleep 2"],
            refusals(1, 2, still=0),
        ),
        "sleepers on a floor": World(
            sleepers_on_a_floor(),
            ["push 2 5 6", "push_at 2 5 6 0 0", "joint 1 3 1000", "step 4"],
            ["destroy 0", "destroy 2", "disable 0", "disable 2", "set_pose 0 0 70000000", "set_pose 2 0 70000000", "wake 2"],
            refusals(1, 2, still=0),
        ),
        "sleeper at a platform": World(
            sleeper_at_a_platform(),
            ["push 1 5 6", "step 8", NEW_BODY],
            ["set_velocity 0 3 4 5", "set_pose 0 50 60", "destroy 0", "destroy 1", "disable 0", "disable 1", "wake 1"],
            refusals(1, 0) + ["push 0 1 1", "wake 0", "sleep 0"],
        ),
        "pairs": World(
            pairs(),
            ["step 4", "push 7 5 6", NEW_BODY],
            ["destroy 0", "destroy 7", "disable 8", "set_pose 7 70000000 0", "sleep 7"],
            refusals(1, 2, still=0),
            {"save": 29, "load": 29},
        ),
        "pile": World(
            pile(),
            ["step 4", "push 7 5 6", "push_at 7 5 6 7 8", NEW_BODY, NEW_BODY_OF_NINE, "joint 1 300 1000"],
            ["destroy 0", "destroy 7", "disable 0", "disable 7", "set_pose 0 0 70000000", "set_pose 7 70000000 0", "sleep 7"],
            in_pile,
            {"save": 499, "load": 499},
        ),
    }
