"""Worlds of rigid bodies for Python, over libdillmonth.so (dillmonth.dll, libdillmonth.dylib).

    from dillmonth import Body, World, at, circle, circle_mass, gravity, in_metres, metres, segment, share

    with World(gravity(0, -9.81)) as world:
        world.create_body(Body.static(), [segment(at(-8, 0), at(8, 0))])
        ball = world.create_body(Body.dynamic(at(0, 4), *circle_mass(metres(0.5))), [circle(metres(0.5), restitution=share(0.75))])
        for frame in range(240):
            for tick in range(4):
                world.step(1)
            print(in_metres(world.body(ball).pose.at.y))

It needs Python 3.8 and nothing else. The library is looked for in the environment variable DILLMONTH, beside this file, and where `bindings/build`
leaves it.

- A refused call raises `Refused`, and has changed nothing. A number that doesn't fit its bits raises OverflowError, before it could wrap.
- An id that names nothing any more: a question about it answers None, and a command is refused with STALE_HANDLE.
- Lists of poses, events and contacts come as ctypes arrays, which NumPy takes as they are: `numpy.frombuffer(world.poses(), dtype=dillmonth.POSE)`.
- A call takes some microseconds. Many commands go best by `apply_all`, which takes NumPy arrays too.
- Threads: each world has a lock, so calls of one world come one after another. Steps of several worlds run at once, since the call lets go of
  Python's own lock. A question that is answered in several calls, as a loop over `poses`, isn't one call.
- Worlds can be copied (`copy.deepcopy`) and pickled, as the text of `save`: so they go to other processes.
"""

import ctypes
import functools
import operator
import os
import platform
import sys
import threading
from ctypes import POINTER, byref, c_int32, c_int64, c_size_t, c_uint8, c_uint32, c_uint64
from enum import IntEnum
from pathlib import Path
from typing import Any, Dict, Iterator, List, NamedTuple, Optional, Sequence, Tuple, Union

VERSION = 1  # of the calls
RATE = 240  # ticks a second, on all pages: a frame of 60 a second is four steps of one tick. A world doesn't know it
METRE = 1 << 20
ONE = 1 << 30  # a cosine or a sine of 1
KILOGRAM = 256  # the choice of these helpers for the unit of mass, which is free
ALL = (1 << 64) - 1


class Status(IntEnum):
    DONE = 0
    NO_MEMORY = 1
    STALE_HANDLE = 2
    TOO_MANY = 3
    BAD_SHAPE = 4
    OUT_OF_RANGE = 5
    NOT_A_MOVER = 6
    SAME_BODY = 7
    BODY_DISABLED = 8
    TOO_FAST = 9
    WORN_OUT = 10
    BAD_FILE = 12
    NOT_KINEMATIC = 15
    NO_WORLD = 32
    BAD_KIND = 33
    BAD_SPAN = 34
    BAD_TEXT = 35


class Kind(IntEnum):
    """Of a body."""

    STATIC = 0
    KINEMATIC = 1
    DYNAMIC = 2


class Form(IntEnum):
    """Of a shape. Segments are for static bodies."""

    CIRCLE = 0
    CAPSULE = 1
    SEGMENT = 2


class Set(IntEnum):
    """In which a body is."""

    STATIC = 0
    DISABLED = 1
    AWAKE = 2
    ASLEEP = 3


class Do(IntEnum):
    """The kind of a command, and what it takes; `joint.a` is the body of all but joints."""

    CREATE_BODY = 0  # body, shapes_from, shapes_count
    DESTROY_BODY = 1  # joint.a
    CREATE_JOINT = 2  # joint
    DESTROY_JOINT = 3  # joint.a is the joint
    PUSH = 4  # joint.a, by
    PUSH_AT = 5  # joint.a, by, offset
    SET_POSE = 6  # joint.a, body.at, body.facing
    SET_VELOCITY = 7  # joint.a, body.velocity, body.spin
    SET_GRAVITY = 8  # by
    DISABLE = 9  # joint.a
    ENABLE = 10  # joint.a
    WAKE = 11  # joint.a
    SLEEP = 12  # joint.a
    STEP = 13  # ticks


TEXTS = {
    Status.NO_MEMORY: "there is no memory",
    Status.STALE_HANDLE: "the id names nothing that lives",
    Status.TOO_MANY: "no slot can be given out",
    Status.BAD_SHAPE: "no shape or more than eight, or one that isn't allowed",
    Status.OUT_OF_RANGE: "a number is outside its limit",
    Status.NOT_A_MOVER: "the body isn't dynamic",
    Status.SAME_BODY: "both ends of the joint are one body",
    Status.BODY_DISABLED: "the body is disabled",
    Status.TOO_FAST: "the momentum would come beyond its limit",
    Status.WORN_OUT: "the world has accepted all the calls that it may",
    Status.BAD_FILE: "the saved world breaks a clause of its format",
    Status.NOT_KINEMATIC: "the body isn't kinematic",
    Status.NO_WORLD: "there is no world: it was closed",
    Status.BAD_KIND: "a kind or a form that is none",
    Status.BAD_SPAN: "the command names shapes beyond those of the batch",
    Status.BAD_TEXT: "the text is no JSON",
}


class Refused(Exception):
    """A call was refused, and has changed nothing. `status` says why; `clause` is the one that a saved world breaks, or 0."""

    def __init__(self, status: int, clause: int = 0) -> None:
        known = status in Status._value2member_map_
        self.status: Union[Status, int] = Status(status) if known else status
        self.clause = clause
        name = f"{self.status.name} ({int(status)}): {TEXTS.get(self.status, '')}" if known else str(status)
        super().__init__(name + (f", clause {clause}" if clause else ""))

    def __reduce__(self) -> Tuple[Any, ...]:
        return Refused, (int(self.status), self.clause)


LIMITS = {c_int32: (-(1 << 31), (1 << 31) - 1), c_int64: (-(1 << 63), (1 << 63) - 1), c_uint32: (0, (1 << 32) - 1), c_uint64: (0, (1 << 64) - 1)}


def fitting(value: Any, form: Any, name: str) -> int:
    """A whole number that fits the bits of a form of ctypes, which by itself would let it wrap."""
    low, high = LIMITS[form]
    number = operator.index(value)
    if not low <= number <= high:
        raise OverflowError(f"{name} is {number}, which isn't {low} to {high}")
    return number


class Struct(ctypes.Structure):
    """A struct of the library. Its numbers are tested as they are set; two are equal where all their bytes are."""

    _limited_: Dict[str, Any] = {}

    def __init_subclass__(cls, **named: Any) -> None:
        super().__init_subclass__(**named)
        cls._limited_ = {name: form for name, form in cls.__dict__.get("_fields_", ()) if form in LIMITS}

    def __setattr__(self, name: str, value: Any) -> None:
        form = self._limited_.get(name)
        super().__setattr__(name, value if form is None else fitting(value, form, f"{type(self).__name__}.{name}"))

    def __eq__(self, other: object) -> bool:
        return type(self) is type(other) and bytes(self) == bytes(other)  # type: ignore[call-overload]

    def __hash__(self) -> int:
        return hash(bytes(self))  # type: ignore[call-overload]

    def __repr__(self) -> str:
        return f"{type(self).__name__}({', '.join(f'{name}={getattr(self, name)!r}' for name, *_ in self._fields_)})"

    def __reduce__(self) -> Tuple[Any, ...]:
        return type(self).from_buffer_copy, (bytes(self),)  # type: ignore[call-overload]


class Numbers(Struct):
    """A struct of numbers alone, which can be taken apart: `x, y = vec`."""

    def __iter__(self) -> Iterator[int]:
        return (getattr(self, name) for name, *_ in self._fields_)


class Vec(Numbers):
    """A place or a way in u, or a velocity in u/tick."""

    _fields_ = [("x", c_int64), ("y", c_int64)]


class Rot(Numbers):
    """A facing: cosine and sine of the turn, times 2^30."""

    _fields_ = [("c", c_int64), ("s", c_int64)]


class Handle(Numbers):
    """The id of a body or of a joint: numbers alone, so in another world it means what has these numbers there. It can be a key of a dict."""

    _fields_ = [("slot", c_uint32), ("generation", c_uint32)]

    def packed(self) -> int:
        """In one number: the slot, and the generation times 2^32."""
        return self.generation << 32 | self.slot

    @classmethod
    def unpacked(cls, packed: int) -> "Handle":
        return cls(packed & 0xFFFFFFFF, packed >> 32)


NOBODY = Handle(0, 0)


class ShapeId(Numbers):
    """The slot of a body, and the place among its shapes."""

    _fields_ = [("slot", c_uint32), ("index", c_uint32)]


class Pair(Numbers):
    """Two shapes, the lesser first."""

    _fields_ = [("first", ShapeId), ("second", ShapeId)]


class Box(Struct):
    _fields_ = [("lo", Vec), ("hi", Vec)]


Place = Union[Vec, Sequence[int]]
Turn = Union[Rot, Sequence[int]]


class Shape(Struct):
    """A shape of a body: friction and restitution in 256ths. `circle`, `capsule` and `segment` make them."""

    _fields_ = [("form", c_uint32), ("group", c_int32), ("first", Vec), ("second", Vec), ("radius", c_int64),
                ("friction", c_int64), ("restitution", c_int64), ("category", c_uint64), ("mask", c_uint64)]


class Body(Struct):
    """A body to be made."""

    _fields_ = [("kind", c_uint32), ("unused", c_uint32), ("at", Vec), ("facing", Rot), ("mass", c_int64), ("inertia", c_int64),
                ("velocity", Vec), ("spin", c_int64)]

    @classmethod
    def static(cls, at: Place = (0, 0), facing: Turn = (ONE, 0)) -> "Body":
        return cls(Kind.STATIC, 0, tuple(at), tuple(facing))

    @classmethod
    def kinematic(cls, at: Place = (0, 0), velocity: Place = (0, 0), spin: int = 0, facing: Turn = (ONE, 0)) -> "Body":
        return cls(Kind.KINEMATIC, 0, tuple(at), tuple(facing), 0, 0, tuple(velocity), spin)

    @classmethod
    def dynamic(cls, at: Place, mass: int, inertia: int, facing: Turn = (ONE, 0)) -> "Body":
        return cls(Kind.DYNAMIC, 0, tuple(at), tuple(facing), mass, inertia)


class Joint(Struct):
    """A joint to be made: each body with its anchor in the body's own axes."""

    _fields_ = [("a", Handle), ("b", Handle), ("from_", Vec), ("to", Vec), ("length", c_int64), ("collide", c_uint32), ("unused", c_uint32)]


class Pose(Struct):
    _fields_ = [("handle", Handle), ("at", Vec), ("facing", Rot)]


class View(Struct):
    """What is seen of a body: its pose, the momentum `p`, the angular momentum `l`, and of a kinematic body velocity and spin."""

    _fields_ = [("pose", Pose), ("p", Vec), ("l_low", c_uint64), ("l_high", c_int64), ("velocity", Vec), ("spin", c_int64),
                ("set", c_uint32), ("island", c_uint32), ("tag", c_uint64)]

    @property
    def l(self) -> int:  # noqa: E743
        """The angular momentum."""
        return (self.l_high << 64) + self.l_low


class Course(Struct):
    """A velocity in u/tick, and a spin: the tangent of the turn of a tick, times 2^30."""

    _fields_ = [("velocity", Vec), ("spin", c_int64)]


class ContactPoint(Struct):
    """A point where two shapes touch: its offset is from the centre of the first shape's body, its impulses are along the normal and across it. All zeros where
    there is none."""

    _fields_ = [("offset", Vec), ("separation", c_int64), ("normal_impulse", c_int64), ("tangent_impulse", c_int64)]


class Contact(Struct):
    """Two near shapes, with up to two points where they touch. The normal leads from the first shape to the second, times 2^30."""

    _fields_ = [("pair", Pair), ("points", c_uint32), ("unused", c_uint32), ("normal", Vec), ("first", ContactPoint), ("second", ContactPoint)]


class EventKind(IntEnum):
    BEGUN = 0
    ENDED = 1
    SLEPT = 2
    WOKE = 3


class Event(Struct):
    """What happened in a step to the shapes of two bodies, or to the body `first`. The tags are those that they had then, the contact is as the step left it."""

    _fields_ = [("step", c_uint64), ("kind", c_uint32), ("unused", c_uint32), ("first", Handle), ("second", Handle), ("first_tag", c_uint64),
                ("second_tag", c_uint64), ("contact", Contact)]


class Hit(Struct):
    _fields_ = [("is_hit", c_uint32), ("fraction", c_uint32), ("shape", ShapeId)]


class ShapeHit(Struct):
    """Where a ray hits a shape: how far along the way, in 2^24ths, the point, and how the surface faces there, times 2^30."""

    _fields_ = [("is_hit", c_uint32), ("fraction", c_uint32), ("point", Vec), ("normal", Vec)]


class Filter(Struct):
    """Which shapes a question sees: all but those of one body, and those alone whose category meets a mask."""

    _fields_ = [("without", Handle), ("mask", c_uint64), ("by_mask", c_uint32), ("unused", c_uint32)]

    @classmethod
    def of(cls, without: Optional[Handle] = None, mask: Optional[int] = None) -> "Filter":
        return cls(without or Handle(0, 0), mask or 0, int(mask is not None), 0)


NONE = 2**32 - 1  # of an island or a colour, where there is none


class Info(Struct):
    """What a body is: its kind, its mass, how many shapes it has, and the island of a mover (`NONE` of others)."""

    _fields_ = [("kind", c_uint32), ("enabled", c_uint32), ("mass", c_int64), ("inertia", c_int64), ("shapes", c_size_t), ("island", c_uint32),
                ("unused", c_uint32)]


class JointView(Struct):
    """What is seen of a joint: its definition, the impulse that it keeps, and its colour while it acts (else `NONE`)."""

    _fields_ = [("joint", Joint), ("impulse", c_int64), ("colour", c_uint32), ("unused", c_uint32)]


class Counts(Struct):
    """How much there is of a world: `awake` counts movers, `contacts` near shapes, `colours` those that some constraint has."""

    _fields_ = [(name, c_size_t) for name in ("bodies", "awake", "joints", "contacts", "touching", "islands", "colours")]


class Cause(IntEnum):
    """What gives the movers momentum."""

    COMMANDS = 0
    GRAVITY = 1
    IMMOVABLE = 2
    CLAMP = 3
    REST = 4
    DEPARTED = 5


class Sum(Struct):
    """A sum of impulses, in mass·u/tick."""

    _fields_ = [("x_low", c_uint64), ("x_high", c_int64), ("y_low", c_uint64), ("y_high", c_int64)]

    @property
    def pair(self) -> Tuple[int, int]:
        return (self.x_high << 64) + self.x_low, (self.y_high << 64) + self.y_low


class Command(Struct):
    """A command of a batch. `Do` says what each kind takes; the rest isn't read."""

    _fields_ = [("kind", c_uint32), ("shapes_from", c_uint32), ("shapes_count", c_uint32), ("unused", c_uint32), ("body", Body),
                ("joint", Joint), ("by", Vec), ("offset", Vec), ("ticks", c_int64)]


class Answer(Struct):
    """To a command of a batch."""

    _fields_ = [("status", c_uint32), ("unused", c_uint32), ("made", Handle), ("step", c_uint64)]


# The fields of lists for NumPy: `numpy.dtype(POSE)`. A pose's are flat, all others as the structs are.
POSE = [("slot", "<u4"), ("generation", "<u4"), ("x", "<i8"), ("y", "<i8"), ("c", "<i8"), ("s", "<i8")]


def fields_of(form: Any) -> Any:
    """The fields of a struct as NumPy takes them: numpy.dtype(fields_of(Command))."""
    names = {c_uint32: "<u4", c_int32: "<i4", c_uint64: "<u8", c_int64: "<i8"}
    return [(name, names[kind] if kind in names else fields_of(kind)) for name, kind in form._fields_]


HANDLE, PAIR, CONTACT, EVENT, COMMAND, ANSWER, SHAPE = map(fields_of, (Handle, Pair, Contact, Event, Command, Answer, Shape))


# ---- units: each is one rounding, to the nearest and halves away from zero, so that peers with the same numbers get the same ones ----


def nearest(value: float) -> int:
    whole = int(value)
    rest = value - whole
    return whole + (rest >= 0.5) - (rest <= -0.5)


def metres(value: float) -> int:
    """Metres in u."""
    return nearest(value * 1048576.0)


def in_metres(u: int) -> float:
    """u in metres, to draw."""
    return u / 1048576.0


def at(x: float, y: float) -> Vec:
    """A place or a way that is given in metres."""
    return Vec(metres(x), metres(y))


def kilograms(value: float) -> int:
    return nearest(value * 256.0)


def share(value: float) -> int:
    """A share of 1 in 256ths: of friction and restitution."""
    return nearest(value * 256.0)


def ticks(seconds: float, rate: int = RATE) -> int:
    return nearest(seconds * float(rate))


def speed(metres_a_second: float, rate: int = RATE) -> int:
    """Metres a second in u/tick."""
    return nearest(metres_a_second * 1048576.0 / rate)


def velocity(x: float, y: float, rate: int = RATE) -> Vec:
    """Metres a second in u/tick."""
    return Vec(speed(x, rate), speed(y, rate))


def gravity(x: float, y: float, rate: int = RATE) -> Vec:
    """Metres a second a second in u/tick²."""
    square = float(rate) * rate
    return Vec(nearest(x * 1048576.0 / square), nearest(y * 1048576.0 / square))


def push_of(mass: int, x: float, y: float, rate: int = RATE) -> Vec:
    """The push that gives a body of this mass so much of a velocity, which is in metres a second."""
    return Vec(nearest(float(mass) * (x * 1048576.0) / rate), nearest(float(mass) * (y * 1048576.0) / rate))


def spin(degrees_a_second: float, rate: int = RATE) -> int:
    """Degrees a second as a spin of a kinematic body."""
    return nearest(degrees_a_second * 18740330.145169 / rate)


EIGHTH = 45 << 32
COSINE = (4294967296, 1324675879, 68093890, 1400124, 15423, 106)
SINE = (3373259426, 346799334, 10696163, 157094, 1346, 8)


def eighth(part: int, terms: Sequence[int]) -> int:
    """An eighth of a turn times `part`, which is in 2^31sts: its cosine or sine in 2^32nds, by Taylor's series with these terms."""
    square, total = part * part >> 31, terms[5]
    for term in terms[4::-1]:
        total = term - (total * square >> 31)
    return total


def degrees(turn: float) -> Rot:
    """The facing of a turn by so many degrees, counterclockwise: each part is the nearest whole number or next to it."""
    angle = int(float(turn) * 4294967296.0) % (8 * EIGHTH)
    quarter = (angle + EIGHTH) // (2 * EIGHTH)
    rest = angle - quarter * 2 * EIGHTH
    part = (abs(rest) + 45) // 90
    c, s = eighth(part, COSINE) + 2 >> 2, (eighth(part, SINE) * part >> 31) + 2 >> 2
    s = -s if rest < 0 else s
    return (Rot(c, s), Rot(-s, c), Rot(-c, -s), Rot(s, -c))[quarter % 4]


# ---- definitions ----


def circle(radius: int, center: Place = (0, 0), friction: int = 0, restitution: int = 0, group: int = 0, category: int = 1, mask: int = ALL) -> Shape:
    return Shape(Form.CIRCLE, group, tuple(center), (0, 0), radius, friction, restitution, category, mask)


def capsule(first: Place, second: Place, radius: int, friction: int = 0, restitution: int = 0, group: int = 0, category: int = 1, mask: int = ALL) -> Shape:
    return Shape(Form.CAPSULE, group, tuple(first), tuple(second), radius, friction, restitution, category, mask)


def segment(first: Place, second: Place, friction: int = 0, restitution: int = 0, group: int = 0, category: int = 1, mask: int = ALL) -> Shape:
    return Shape(Form.SEGMENT, group, tuple(first), tuple(second), 0, friction, restitution, category, mask)


class Mass(NamedTuple):
    """What a dynamic body weighs, and its inertia about its centre in mass·u²."""

    mass: int
    inertia: int


UNDER = 113 << 40  # 2^40 square u are a square metre, and π is 355/113


def circle_mass(radius: int, density: int = KILOGRAM) -> Mass:
    """Of a disc: density·π·r², and mass·r²/2. The density is mass a square metre. Refused OUT_OF_RANGE for a radius beyond 2^24 u, a density beyond 32 bits,
    a mass that isn't 1 to 2^20, or an inertia beyond 2^60."""
    fit(density, radius)
    square = radius * radius
    return mass_within((2 * 355 * density * square + UNDER) // (2 * UNDER), 2 * square, 2)


def capsule_mass(half: int, radius: int, density: int = KILOGRAM) -> Mass:
    """Of a capsule whose core is `half` long to either side of the body's centre: density·(4·r·h + π·r²), and
    mass·(8·h·(h² + 3·r²) + 3·π·r·(r² + 2·h²)) / (6·(4·h + π·r)). Refused as `circle_mass`."""
    fit(density, half, radius)
    if radius == 0:
        raise Refused(Status.OUT_OF_RANGE)
    girth = 452 * half + 355 * radius
    bulk = 904 * half * (half * half + 3 * radius * radius) + 1065 * radius * (radius * radius + 2 * half * half)
    return mass_within((2 * radius * girth * density + UNDER) // (2 * UNDER), 2 * bulk, 6 * girth)


def fit(density: int, *lengths: int) -> None:
    if not 0 <= density < 1 << 32 or not all(0 <= length <= 1 << 24 for length in lengths):
        raise Refused(Status.OUT_OF_RANGE)


def mass_within(mass: int, twice_over: int, under: int) -> Mass:
    inertia = (mass * twice_over + under) // (2 * under)
    if not 1 <= mass <= 1 << 20 or inertia > 1 << 60:
        raise Refused(Status.OUT_OF_RANGE)
    return Mass(mass, inertia)


# ---- the library ----


class Held(ctypes.Structure):
    _fields_ = [("at", ctypes.c_void_p)]


def library_name() -> str:
    return {"win32": "dillmonth.dll", "darwin": "libdillmonth.dylib"}.get(sys.platform, "libdillmonth.so")


def find_library() -> str:
    here, name = Path(__file__).resolve().parent, library_name()
    processor = {"AMD64": "x86_64", "arm64": "aarch64"}.get(platform.machine(), platform.machine())
    system = {"win32": "w64-mingw32", "darwin": "apple-macos"}.get(sys.platform, "linux-gnu")
    places = [os.environ.get("DILLMONTH"), here / name, here.parent / "out" / name, here.parent / "lib" / f"{processor}-{system}" / name]
    for place in places:
        if place and Path(place).is_file():
            return str(place)
    raise OSError(f"{name} isn't there: a wheel has it, and bindings/build makes it")


class HeldFrame(ctypes.Structure):
    _fields_ = [("at", ctypes.c_void_p)]


W, S, U32 = POINTER(Held), c_size_t, c_uint32
CALLS = {
    "dm_version": (U32, []),
    "dm_open": (U32, [W, Vec]), "dm_close": (None, [W]), "dm_copy": (U32, [W, W]),
    "dm_settle": (U32, [W]),
    "dm_create_body": (U32, [W, POINTER(Body), POINTER(Shape), S, POINTER(Handle)]),
    "dm_destroy_body": (U32, [W, Handle]),
    "dm_create_joint": (U32, [W, POINTER(Joint), POINTER(Handle)]),
    "dm_destroy_joint": (U32, [W, Handle]),
    "dm_push": (U32, [W, Handle, Vec]), "dm_push_at": (U32, [W, Handle, Vec, Vec]),
    "dm_set_pose": (U32, [W, Handle, Vec, Rot]), "dm_set_velocity": (U32, [W, Handle, Vec, c_int64]),
    "dm_push_to": (U32, [W, Handle, Vec]), "dm_twist": (U32, [W, Handle, c_int64]), "dm_twist_to": (U32, [W, Handle, c_int64]),
    "dm_set_target": (U32, [W, Handle, Vec, Rot, c_int64]), "dm_motion": (U32, [W, Handle, POINTER(Course)]),
    "dm_events_clear": (U32, [W, U32]), "dm_events": (U32, [W, POINTER(Event), S, POINTER(S)]),
    "dm_set_tag": (U32, [W, Handle, c_uint64]), "dm_tag": (c_uint64, [W, Handle]),
    "dm_set_gravity": (U32, [W, Vec]),
    "dm_disable": (U32, [W, Handle]), "dm_enable": (U32, [W, Handle]), "dm_wake": (U32, [W, Handle]), "dm_sleep": (U32, [W, Handle]),
    "dm_step": (U32, [W, c_int64, POINTER(c_uint64)]),
    "dm_apply_all": (S, [W, POINTER(Command), S, POINTER(Shape), S, POINTER(Answer), S]),
    "dm_poses": (S, [W, POINTER(Pose), S]), "dm_moved": (S, [W, POINTER(Pose), S]),
    "dm_begun": (S, [W, POINTER(Pair), S]), "dm_ended": (S, [W, POINTER(Pair), S]),
    "dm_slept": (S, [W, POINTER(Handle), S]), "dm_woke": (S, [W, POINTER(Handle), S]),
    "dm_body": (U32, [W, Handle, POINTER(View)]),
    "dm_steps": (c_uint64, [W]), "dm_gravity": (Vec, [W]),
    "dm_ray": (U32, [W, Vec, Vec, POINTER(Hit)]),
    "dm_region": (U32, [W, POINTER(Box), POINTER(S)]), "dm_region_found": (S, [W, POINTER(ShapeId), S]),
    "dm_ray_through": (U32, [W, Vec, Vec, POINTER(Filter), POINTER(Hit)]),
    "dm_ray_all": (U32, [W, Vec, Vec, POINTER(Filter), POINTER(S)]), "dm_hits_found": (S, [W, POINTER(Hit), S]),
    "dm_ray_on_shape": (U32, [W, Vec, Vec, ShapeId, POINTER(ShapeHit)]),
    "dm_region_through": (U32, [W, POINTER(Box), POINTER(Filter), POINTER(S)]),
    "dm_info": (U32, [W, Handle, POINTER(Info)]), "dm_shapes": (U32, [W, Handle, POINTER(Shape), S, POINTER(S)]),
    "dm_joints_of": (U32, [W, Handle, POINTER(Handle), S, POINTER(S)]),
    "dm_contacts_of": (U32, [W, Handle, POINTER(Contact), S, POINTER(S)]),
    "dm_body_in": (Handle, [W, U32]), "dm_joint_in": (Handle, [W, U32]), "dm_colour_of": (U32, [W, ShapeId, ShapeId]),
    "dm_joints": (S, [W, POINTER(Handle), S]), "dm_joint": (U32, [W, Handle, POINTER(JointView)]),
    "dm_count": (U32, [W, POINTER(Counts)]), "dm_total_of": (U32, [W, U32, POINTER(Sum)]), "dm_total": (U32, [W, POINTER(Sum)]),
    "dm_rules": (U32, []),
    "dm_contacts": (U32, [W, POINTER(S)]), "dm_contacts_listed": (S, [W, POINTER(Contact), S]),
    "dm_frame_take": (U32, [W, POINTER(HeldFrame)]), "dm_frame_drop": (None, [POINTER(HeldFrame)]),
    "dm_frame_pose": (U32, [HeldFrame, Handle, POINTER(Pose)]), "dm_frame_ray": (U32, [HeldFrame, Vec, Vec, POINTER(Hit)]),
    "dm_frame_region": (U32, [HeldFrame, POINTER(Box), POINTER(ShapeId), S, POINTER(S)]),
    "dm_frame_total": (U32, [HeldFrame, POINTER(Sum)]), "dm_frame_calls": (c_uint64, [HeldFrame]),
    "dm_save": (U32, [W, POINTER(S)]), "dm_saved": (S, [W, POINTER(c_uint8), S]),
    "dm_load": (U32, [W, POINTER(c_uint8), S, POINTER(U32)]),
    "dm_digest": (U32, [W, POINTER(c_uint8), S]),
}


@functools.lru_cache(None)
def load_library(path: Optional[str] = None) -> ctypes.CDLL:
    """The library, which is looked for when the first world is made."""
    library = ctypes.CDLL(path or find_library())
    for name, (result, arguments) in CALLS.items():
        call = getattr(library, name)
        call.restype, call.argtypes = result, arguments
    if library.dm_version() != VERSION:
        raise OSError(f"{library_name()} is of another version")
    return library


def vec(pair: Place) -> Vec:
    return pair if isinstance(pair, Vec) else Vec(*pair)


def rot(pair: Turn) -> Rot:
    return pair if isinstance(pair, Rot) else Rot(*pair)


def array_of(form: Any, items: Any) -> Tuple[Any, int]:
    """An array for the library, and how many items there are: of structs, a ctypes array or any buffer with the structs' bytes, as NumPy's."""
    if isinstance(items, ctypes.Array):
        if items._type_ is not form:
            raise TypeError(f"an array of {items._type_.__name__} isn't one of {form.__name__}")
        return items, len(items)
    if isinstance(items, (list, tuple)):
        return (form * max(len(items), 1))(*items), len(items)
    with memoryview(items) as view:
        count, rest = divmod(view.nbytes, ctypes.sizeof(form))
        if rest or not view.c_contiguous:
            raise ValueError(f"the buffer isn't one of {form.__name__}s, which have {ctypes.sizeof(form)} bytes each")
        if view.readonly or not count:
            return (form * max(count, 1)).from_buffer_copy(view.tobytes() or bytes(ctypes.sizeof(form))), count
    return (form * count).from_buffer(items), count


def must(status: int, clause: int = 0) -> None:
    if status:
        raise Refused(status, clause)


class Frame:
    """What a world shows at one moment: `World.frame` takes one. It never changes, and outlives the world. Any number of threads may read one at once, with no lock,
    also while the world steps. It is dropped when nothing names it any more."""

    def __init__(self, calls: ctypes.CDLL) -> None:
        self._calls, self.held = calls, HeldFrame()

    def __del__(self) -> None:
        if getattr(self, "held", None) is not None:
            self._calls.dm_frame_drop(byref(self.held))

    def pose(self, body: Handle) -> Optional[Pose]:
        """Where an enabled body was, or None where the id named none."""
        pose = Pose()
        status = self._calls.dm_frame_pose(self.held, body, byref(pose))
        if status == Status.STALE_HANDLE:
            return None
        must(status)
        return pose

    def ray(self, start: Place, along: Place) -> Optional[Hit]:
        """The first hit, or None."""
        hit = Hit()
        must(self._calls.dm_frame_ray(self.held, vec(start), vec(along), byref(hit)))
        return hit if hit.is_hit else None

    def region(self, lo: Place, hi: Place, room: int = 64) -> Any:
        """The shapes whose boxes met a box."""
        found, count = (ShapeId * room)(), S()
        must(self._calls.dm_frame_region(self.held, byref(Box(vec(lo), vec(hi))), found, room, byref(count)))
        return self.region(lo, hi, count.value) if count.value > room else (ShapeId * count.value).from_buffer(found)

    def total(self) -> Tuple[int, int]:
        """What all causes had given the movers, in mass·u/tick."""
        total = Sum()
        must(self._calls.dm_frame_total(self.held, byref(total)))
        return total.pair

    @property
    def calls(self) -> int:
        """How many calls the world had accepted."""
        return self._calls.dm_frame_calls(self.held)


class World:
    """A world. It is closed when nothing names it any more, or by `close`, or at the end of a `with`."""

    def __init__(self, gravity: Place = (0, 0)) -> None:
        self._begin()
        must(self._ask(self._calls.dm_open, vec(gravity)))

    def _begin(self) -> None:
        self._calls, self._lock, self.held = load_library(), threading.RLock(), Held()

    def _ask(self, call: Any, *values: Any) -> Any:
        with self._lock:
            return call(byref(self.held), *values)

    @classmethod
    def _none(cls) -> "World":
        made = cls.__new__(cls)
        made._begin()
        return made

    @classmethod
    def load(cls, text: Union[str, bytes]) -> "World":
        """The world of a text that `save` made."""
        text = text.encode() if isinstance(text, str) else bytes(text)
        made, clause = cls._none(), U32()
        given = (c_uint8 * max(len(text), 1)).from_buffer_copy(text or b"\0")
        status = made._ask(made._calls.dm_load, given, len(text), byref(clause))
        must(status, clause.value if status == Status.BAD_FILE else 0)
        return made

    def copy(self) -> "World":
        """A world of its own that is the same."""
        made = self._none()
        must(self._ask(self._calls.dm_copy, byref(made.held)))
        return made

    __copy__ = copy

    def __deepcopy__(self, known: Any) -> "World":
        return self.copy()

    def __reduce__(self) -> Tuple[Any, ...]:
        return type(self).load, (self.save(),)

    def close(self) -> None:
        self._ask(self._calls.dm_close)

    def __enter__(self) -> "World":
        return self

    def __exit__(self, *_: Any) -> None:
        self.close()

    def __del__(self) -> None:
        if getattr(self, "held", None) is not None:
            self.close()

    # ---- commands ----

    def create_body(self, body: Body, shapes: Any) -> Handle:
        """A body with one to eight shapes."""
        made = Handle()
        must(self._ask(self._calls.dm_create_body, byref(body), *array_of(Shape, shapes), byref(made)))
        return made

    def create_joint(self, joint: Joint) -> Handle:
        """A joint that holds two points at a distance."""
        made = Handle()
        must(self._ask(self._calls.dm_create_joint, byref(joint), byref(made)))
        return made

    def destroy_body(self, body: Handle) -> None:
        """Takes a body away, with its joints. Its contacts end untold."""
        must(self._ask(self._calls.dm_destroy_body, body))

    def destroy_joint(self, joint: Handle) -> None:
        must(self._ask(self._calls.dm_destroy_joint, joint))

    def push(self, body: Handle, by: Place, offset: Optional[Place] = None) -> None:
        """An impulse on a dynamic body in mass·u/tick, at its centre or at an offset from it."""
        if offset is None:
            must(self._ask(self._calls.dm_push, body, vec(by)))
        else:
            must(self._ask(self._calls.dm_push_at, body, vec(by), vec(offset)))

    def set_pose(self, body: Handle, at: Place, facing: Turn = (ONE, 0)) -> None:
        must(self._ask(self._calls.dm_set_pose, body, vec(at), rot(facing)))

    def set_velocity(self, body: Handle, velocity: Place, spin: int = 0) -> None:
        """Of a kinematic body."""
        must(self._ask(self._calls.dm_set_velocity, body, vec(velocity), fitting(spin, c_int64, "spin")))

    def push_to(self, body: Handle, velocity: Place) -> None:
        """Gives a dynamic body a velocity, by one push."""
        must(self._ask(self._calls.dm_push_to, body, vec(velocity)))

    def twist(self, body: Handle, by: int) -> None:
        """Gives a dynamic body an angular impulse, in mass·u²/tick: a push beside its centre, and the opposite one at it. Up to 2^40 it is met, up to 2^60 to the
        nearest 2^20. NO_MEMORY and WORN_OUT may come between the two, and the first one then stays."""
        must(self._ask(self._calls.dm_twist, body, fitting(by, c_int64, "by")))

    def twist_to(self, body: Handle, spin: int) -> None:
        """Gives a dynamic body a spin, by a twist."""
        must(self._ask(self._calls.dm_twist_to, body, fitting(spin, c_int64, "spin")))

    def set_target(self, body: Handle, at: Place, facing: Turn = (ONE, 0), ticks: int = 1) -> None:
        """Gives a kinematic body the course that leads it to a pose in a step of so many ticks, which it keeps after that step."""
        must(self._ask(self._calls.dm_set_target, body, vec(at), rot(facing), fitting(ticks, c_int64, "ticks")))

    def set_tag(self, body: Handle, tag: int) -> None:
        """Gives a body a number of the program's own, which its view and its events have. No save and no digest has it."""
        must(self._ask(self._calls.dm_set_tag, body, fitting(tag, c_uint64, "tag")))

    def tag(self, body: Handle) -> int:
        """The tag of a body, or 0."""
        return self._ask(self._calls.dm_tag, body)

    def clear_events(self, keeps: bool = True) -> None:
        """Drops the events that were kept; from now on those of each step are kept, or none are."""
        must(self._ask(self._calls.dm_events_clear, int(keeps)))

    def events(self) -> Any:
        """The events of all steps since `clear_events`, step by step. They stay."""
        count, room = S(), 64
        with self._lock:
            while True:
                out = (Event * room)()
                must(self._ask(self._calls.dm_events, out, room, byref(count)))
                if count.value <= room:
                    return (Event * count.value).from_buffer(out)
                room = count.value

    def set_gravity(self, gravity: Place) -> None:
        must(self._ask(self._calls.dm_set_gravity, vec(gravity)))

    def disable(self, body: Handle) -> None:
        """Takes a body out of the world for a while."""
        must(self._ask(self._calls.dm_disable, body))

    def enable(self, body: Handle) -> None:
        must(self._ask(self._calls.dm_enable, body))

    def wake(self, body: Handle) -> None:
        must(self._ask(self._calls.dm_wake, body))

    def sleep(self, body: Handle) -> None:
        must(self._ask(self._calls.dm_sleep, body))

    def step(self, ticks: int = 1) -> int:
        """Lets 1 to 8 ticks pass, settles what was booked, and answers the number of the step."""
        number = c_uint64()
        with self._lock:
            must(self._ask(self._calls.dm_step, fitting(ticks, c_int64, "ticks"), byref(number)))
            self.settle()
        return number.value

    def settle(self) -> None:
        """Sums up what was booked, so that no memory is kept for it. `step` and `apply_all` do it."""
        self._ask(self._calls.dm_settle)

    def apply_all(self, commands: Any, shapes: Any = ()) -> Any:
        """Does commands one after another, and answers an array of answers, one for each: a refused one changes nothing, and the next follows. Both may be lists
        of structs, ctypes arrays, or buffers such as NumPy's arrays of COMMAND and SHAPE."""
        given, count = array_of(Command, commands)
        answers = (Answer * count)()
        with self._lock:
            if self._ask(self._calls.dm_apply_all, given, count, *array_of(Shape, shapes), answers, count) != count:
                raise Refused(Status.NO_WORLD)
            self.settle()
        return answers

    # ---- reading ----

    def _all(self, call: Any, form: Any, room: int = 64) -> Any:
        out = (form * room)()
        with self._lock:
            count = self._ask(call, out, room)
            if count > room:
                return self._all(call, form, count)
        return (form * count).from_buffer(out)

    def poses(self) -> Any:
        """The poses of all bodies, by slot."""
        return self._all(self._calls.dm_poses, Pose)

    def poses_into(self, out: Any) -> int:
        """Writes the poses into an array of Pose, or a buffer with room for some, that the caller keeps: as many as fit. Answers how many there are."""
        return self._ask(self._calls.dm_poses, *array_of(Pose, out))

    def moved(self) -> Any:
        """The poses of those bodies that a step may move: awake dynamic ones, and kinematic ones."""
        return self._all(self._calls.dm_moved, Pose)

    def begun(self) -> Any:
        """The pairs of shapes that began to touch in the last step."""
        return self._all(self._calls.dm_begun, Pair)

    def ended(self) -> Any:
        """The pairs of shapes that ceased to touch in the last step."""
        return self._all(self._calls.dm_ended, Pair)

    def slept(self) -> Any:
        """The bodies that fell asleep in the last step."""
        return self._all(self._calls.dm_slept, Handle)

    def woke(self) -> Any:
        """The bodies that woke in the last step."""
        return self._all(self._calls.dm_woke, Handle)

    def contacts(self) -> Any:
        """The contacts of near shapes."""
        count = S()
        with self._lock:
            must(self._ask(self._calls.dm_contacts, byref(count)))
            return self._all(self._calls.dm_contacts_listed, Contact, max(count.value, 1))

    def region(self, lo: Place, hi: Place, through: Optional[Filter] = None) -> Any:
        """The shapes whose boxes meet a box, of those that a filter lets through."""
        count = S()
        with self._lock:
            must(self._ask(self._calls.dm_region_through, byref(Box(vec(lo), vec(hi))), byref(through or Filter()), byref(count)))
            return self._all(self._calls.dm_region_found, ShapeId, max(count.value, 1))

    def ray(self, start: Place, along: Place, through: Optional[Filter] = None) -> Optional[Hit]:
        """The first hit on what a filter lets through, or None."""
        hit = Hit()
        must(self._ask(self._calls.dm_ray_through, vec(start), vec(along), byref(through or Filter()), byref(hit)))
        return hit if hit.is_hit else None

    def ray_on(self, shape: ShapeId, start: Place, along: Place) -> Optional[ShapeHit]:
        """What a ray hits of one shape, as it lies now: the point and the normal of a hit. None where it misses, or where there is no such shape."""
        hit = ShapeHit()
        status = self._ask(self._calls.dm_ray_on_shape, vec(start), vec(along), shape, byref(hit))
        if status != Status.STALE_HANDLE:
            must(status)
        return hit if hit.is_hit else None

    def all_hits(self, start: Place, along: Place = (0, 0), through: Optional[Filter] = None) -> Any:
        """All hits on the way, the nearest first. A way of zero hits the shapes that the start lies in."""
        count = S()
        with self._lock:
            must(self._ask(self._calls.dm_ray_all, vec(start), vec(along), byref(through or Filter()), byref(count)))
            return self._all(self._calls.dm_hits_found, Hit, max(count.value, 1))

    def _seen(self, call: Any, handle: Handle, form: Any) -> Any:
        seen = form()
        status = self._ask(call, handle, byref(seen))
        if status == Status.STALE_HANDLE:
            return None
        must(status)
        return seen

    def _all_of(self, call: Any, handle: Handle, form: Any, room: int = 64) -> Any:
        out, count = (form * room)(), S()
        with self._lock:
            must(self._ask(call, handle, out, room, byref(count)))
            if count.value > room:
                return self._all_of(call, handle, form, count.value)
        return (form * count.value).from_buffer(out)

    def info(self, body: Handle) -> Optional[Info]:
        """What a body is, or None where the id names none."""
        return self._seen(self._calls.dm_info, body, Info)

    def shapes(self, body: Handle) -> Any:
        """The shapes of a body."""
        return self._all_of(self._calls.dm_shapes, body, Shape)

    def joints_of(self, body: Handle) -> Any:
        """The joints of a body, by slot."""
        return self._all_of(self._calls.dm_joints_of, body, Handle)

    def contacts_of(self, body: Handle) -> Any:
        """The contacts of a body."""
        return self._all_of(self._calls.dm_contacts_of, body, Contact)

    def colour_of(self, pair: Pair) -> Optional[int]:
        """The colour of a contact while it acts: 0 to 23, or 24 in the overflow."""
        colour = self._ask(self._calls.dm_colour_of, pair.first, pair.second)
        return None if colour == NONE else colour

    def joints(self) -> Any:
        """All joints, by slot."""
        return self._all(self._calls.dm_joints, Handle)

    def joint(self, joint: Handle) -> Optional[JointView]:
        """What is seen of a joint, or None where the id names none."""
        return self._seen(self._calls.dm_joint, joint, JointView)

    def _in_slot(self, call: Any, slot: int) -> Optional[Handle]:
        handle = self._ask(call, slot)
        return handle if handle.generation else None

    def body_in(self, slot: int) -> Optional[Handle]:
        """The id of the body in a slot, as a pair of shapes names it."""
        return self._in_slot(self._calls.dm_body_in, slot)

    def joint_in(self, slot: int) -> Optional[Handle]:
        """The id of the joint in a slot."""
        return self._in_slot(self._calls.dm_joint_in, slot)

    def count(self) -> Counts:
        """How much there is."""
        counts = Counts()
        must(self._ask(self._calls.dm_count, byref(counts)))
        return counts

    def total(self, cause: Optional[Cause] = None) -> Tuple[int, int]:
        """What a cause, or what all together have given the movers, in mass·u/tick."""
        total = Sum()
        if cause is None:
            must(self._ask(self._calls.dm_total, byref(total)))
        else:
            must(self._ask(self._calls.dm_total_of, int(cause), byref(total)))
        return total.pair

    def body(self, handle: Handle) -> Optional[View]:
        """What is seen of a body, or None where the id names none."""
        view = View()
        status = self._ask(self._calls.dm_body, handle, byref(view))
        if status == Status.STALE_HANDLE:
            return None
        must(status)
        return view

    def motion(self, handle: Handle) -> Optional[Course]:
        """The velocity and the spin of a body, whatever its kind, or None where the id names none."""
        return self._seen(self._calls.dm_motion, handle, Course)

    @property
    def steps(self) -> int:
        """How many steps were accepted."""
        return self._ask(self._calls.dm_steps)

    @property
    def gravity(self) -> Vec:
        return self._ask(self._calls.dm_gravity)

    def frame(self) -> Frame:
        """What it shows now, for readers in other threads."""
        frame = Frame(self._calls)
        must(self._ask(self._calls.dm_frame_take, byref(frame.held)))
        return frame

    # ---- keeping ----

    def save(self) -> str:
        """The world as a text of JSON."""
        count = S()
        with self._lock:
            must(self._ask(self._calls.dm_save, byref(count)))
            out = (c_uint8 * count.value)()
            self._ask(self._calls.dm_saved, out, count.value)
        return bytes(out).decode()

    def digest(self) -> bytes:
        """32 bytes: worlds with the same plain lists, counts and totals have the same."""
        out = (c_uint8 * 32)()
        must(self._ask(self._calls.dm_digest, out, 32))
        return bytes(out)


class Journal:
    """A world with the calls that it accepted since it was opened, from which it can be made again: each command of `world` goes by `apply`."""

    def __init__(self, gravity: Place = (0, 0)) -> None:
        self.gravity, self.world = vec(gravity), World(gravity)
        self.commands: List[Command] = []
        self.shapes: List[Shape] = []

    def apply(self, command: Command, shapes: Sequence[Shape] = ()) -> Answer:
        """Applies a command, and keeps it where it is accepted. The answer has the status, and what was made."""
        kept = Command.from_buffer_copy(bytes(command))  # type: ignore[call-overload]
        kept.shapes_from, kept.shapes_count = 0, len(shapes)
        answer = self.world.apply_all([kept], list(shapes))[0]
        if answer.status == Status.DONE:
            kept.shapes_from = len(self.shapes)
            self.commands.append(kept)
            self.shapes.extend(shapes)
        return answer

    def replay(self) -> World:
        """A world with the same digest."""
        world = World(self.gravity)
        for answer in world.apply_all(self.commands, self.shapes):
            must(answer.status)
        return world
