#!/usr/bin/env python3
"""The calls of tour.c, by the owner for Python."""

import pickle
import sys
from pathlib import Path

sys.path.insert(0, str(Path(__file__).resolve().parent.parent / "python"))
import dillmonth  # noqa: E402
from dillmonth import (METRE, NOBODY, ONE, Body, Cause, Command, Do, EventKind, Filter, Handle, Joint, Journal, Pose, Refused, Rot, Set, Vec, World, at,  # noqa: E402
                       capsule, circle, degrees, gravity, segment, share)


def make_scene():
    world = World(gravity(0, -9.81))
    world.create_body(Body.static(), [segment(at(-8, 0), at(8, 0), friction=share(0.5))])
    disc = [circle(METRE // 2, friction=share(0.5))]
    balls = [world.create_body(Body.dynamic(((i - 2) * METRE + i * 1000, METRE), 200, 27 * 10**12), disc) for i in range(5)]
    core = [capsule(at(-1, 0), at(1, 0), METRE // 4, friction=share(0.5), restitution=share(0.25))]
    return world, balls, world.create_body(Body.kinematic((0, 6 * METRE), velocity=(1000, 0)), core)


def play(world, count):
    counts, step = [0] * 4, 0
    for _ in range(count):
        step = world.step(4)
        for at, heard in enumerate((world.begun(), world.ended(), world.slept(), world.woke())):
            counts[at] += len(heard)
    print("step {}: {} begun, {} ended, {} slept, {} woke".format(step, *counts))


def text_of(handle):
    return f"{handle.slot}.{handle.generation}"


def status_of(call, *values):
    """The status with which a call is refused, and the clause."""
    try:
        call(*values)
    except Refused as refused:
        return int(refused.status), refused.clause
    return 0, 0


def command_each(world, balls, platform):
    made = world.create_joint(Joint(balls[0], balls[1], (0, METRE // 4), (0, METRE // 4), METRE, 1, 0))
    world.push(balls[2], (20000, 40000))
    world.push(balls[3], (1000, 0), (0, METRE // 4))
    world.set_pose(balls[4], at(3, 5), degrees(90))
    world.set_velocity(platform, (2000, 0), 1000)
    world.set_gravity((0, -157))
    world.disable(balls[1])
    world.enable(balls[1])
    world.sleep(balls[3])
    world.wake(balls[3])
    print(f"joint {text_of(made)}, refused {status_of(world.push, NOBODY, (1, 1))[0]}")


def command_all(world, balls, platform):
    commands = [Command(kind=kind) for kind in (Do.CREATE_BODY, Do.PUSH, Do.CREATE_JOINT, Do.SET_POSE, Do.SET_VELOCITY, Do.DESTROY_BODY, Do.STEP)]
    commands[0].shapes_count, commands[0].body = 1, Body.dynamic((-4 * METRE, 3 * METRE), 50, 10**12)
    commands[2].joint = Joint(balls[2], balls[3], (0, 0), (0, 0), 2 * METRE, 0, 0)
    commands[3].joint.a, commands[3].body.at, commands[3].body.facing = balls[0], Vec(-6 * METRE, 2 * METRE), Rot(ONE, 0)
    commands[4].joint.a, commands[4].body.velocity, commands[4].body.spin = platform, Vec(-2000, 0), 500
    commands[5].joint.a, commands[6].ticks = balls[4], 4
    body, push, joint, *_, step = world.apply_all(commands, [circle(METRE // 4, friction=128)])
    print(f"a body {text_of(body.made)}, a joint {text_of(joint.made)}, step {step.step}, refused {push.status}")
    world.destroy_joint(joint.made)
    world.destroy_body(body.made)


def look(world, balls):
    contacts = world.contacts()
    points = sum(contact.points for contact in contacts)
    found, hit = world.region((-9 * METRE, -METRE), (0, 9 * METRE)), world.ray((0, 20 * METRE), (0, -40 * METRE))
    view, gone = world.body(balls[2]), world.body(balls[4])
    assert gone is None and world.poses_into((Pose * 3)()) == world.poses_into(bytearray(400)) == len(world.poses())
    print(f"{len(world.poses())} poses, {len(world.moved())} moved, {len(contacts)} contacts of {points} points, {len(found)} in a region")
    print(f"a ray hits {hit.shape.slot}.{hit.shape.index} at {hit.fraction}")
    on = world.ray_on(hit.shape, (0, 20 * METRE), (0, -40 * METRE))
    print(f"at {on.point.x}, {on.point.y}, where it faces {on.normal.x}, {on.normal.y}")
    print(f"a body at {view.pose.at.x}, {view.pose.at.y} with {view.p.x}, {view.p.y} and {view.l}, awake {int(view.set == Set.AWAKE)}")
    print(f"{world.steps} steps, gravity {world.gravity.y}")


def look_closer(world, balls):
    through = Filter.of(world.body_in(0), 1)
    info, shapes, joint = world.info(balls[0]), world.shapes(balls[0]), world.joint(world.joints()[0])
    assert world.info(Handle(1, 9)) is None and world.joint(Handle(9, 9)) is None and world.body_in(99) is None
    print(f"a body of kind {info.kind}, mass {info.mass}, radius {shapes[0].radius}, with {len(shapes)} shapes, {len(world.joints_of(balls[0]))} joints, "
          f"{len(world.contacts_of(balls[0]))} contacts, in island {info.island}")
    a, b = joint.joint.a, joint.joint.b
    print(f"a joint of {a.slot}.{a.generation} and {b.slot}.{b.generation}, length {joint.joint.length}, impulse {joint.impulse}")
    under = world.contacts_of(world.body_in(0))
    print(f"{len(under)} contacts of the floor, of which {sum(world.colour_of(contact.pair) is not None for contact in under)} have a colour")
    counts = world.count()
    print(f"{counts.bodies} bodies, {counts.awake} awake, {counts.joints} joints, {counts.contacts} contacts, {counts.touching} touching, "
          f"{counts.islands} islands, {counts.colours} colours")
    print(f"gravity gave {world.total(Cause.GRAVITY)[1]}, all gave {world.total()[1]}, by rules {dillmonth.load_library().dm_rules()}")
    hits, found = world.all_hits((-9 * METRE, METRE // 2), (18 * METRE, 0), through), world.region((-9 * METRE, -METRE), (9 * METRE, 9 * METRE), through)
    print(f"{len(hits)} hits and {len(found)} shapes but for the floor, body {world.body_in(1).slot}.{world.body_in(1).generation}")


def ask_a_frame(world, balls):
    frame = world.frame()
    play(world, 30)
    pose, hit = frame.pose(balls[2]), frame.ray((0, 20 * METRE), (0, -40 * METRE))
    found = frame.region((-9 * METRE, -METRE), (0, 9 * METRE), 1)
    assert frame.pose(balls[4]) is None
    print(f"after {frame.calls} calls a body was at {pose.at.x}, {pose.at.y}, a ray hit {hit.shape.slot}.{hit.shape.index} at {hit.fraction}, "
          f"{len(found)} were in a region, all had given {frame.total()[1]}")


def keep_a_journal():
    journal = Journal((0, -179))
    floor, disc = [segment(at(-8, 0), at(8, 0), friction=share(0.5))], [circle(METRE // 2, friction=share(0.5))]
    assert journal.apply(Command(kind=Do.CREATE_BODY, body=Body.static()), floor).status == 0
    assert journal.apply(Command(kind=Do.CREATE_BODY, body=Body.dynamic(at(0, 3), 200, 27 * 10**12)), disc).status == 0
    assert journal.apply(Command(kind=Do.PUSH)).status == 2
    for _ in range(30):
        assert journal.apply(Command(kind=Do.STEP, ticks=4)).status == 0
    digest = journal.replay().digest()
    assert digest == journal.world.digest()
    print(f"a journal of {len(journal.commands)} calls, whose replay has the digest {digest[:4].hex()}..")


def follow(world, balls, platform):
    world.set_tag(balls[2], 7002)
    assert status_of(lambda: world.set_tag(Handle(9, 9), 1)) == (2, 0) and world.tag(balls[2]) == 7002
    world.clear_events()
    world.push_to(balls[2], (0, 6000))
    world.twist_to(balls[2], 2000000)
    world.twist(balls[3], 1000000000000)
    world.set_target(platform, (METRE, 6 * METRE), degrees(30), ticks=4)
    assert status_of(lambda: world.push_to(platform, (0, 0))) == (6, 0) and status_of(lambda: world.set_target(balls[2], (0, 0), ticks=4)) == (15, 0)
    course, view = world.motion(balls[2]), world.body(balls[2])
    print(f"a velocity of {course.velocity.x}, {course.velocity.y} and a spin of {course.spin}, tag {view.tag}")
    course = world.motion(platform)
    assert world.motion(Handle(9, 9)) is None
    print(f"a course of {course.velocity.x}, {course.velocity.y} and {course.spin}")
    play(world, 1)
    reached = world.body(platform).pose
    print(f"after its four ticks at {reached.at.x}, {reached.at.y}, facing {reached.facing.c}, {reached.facing.s}")
    play(world, 60)
    events = list(world.events())
    of_kind = [sum(event.kind == kind for event in events) for kind in EventKind]
    print(f"{len(events)} events: {of_kind[0]} begun, {of_kind[1]} ended, {of_kind[2]} slept, {of_kind[3]} woke")
    begun = next(event for event in events if event.kind == EventKind.BEGUN)
    print(f"step {begun.step}: {begun.first.slot} and {begun.second.slot} with tags {begun.first_tag} and {begun.second_tag}, {begun.contact.points} points, "
          f"impulse {begun.contact.first.normal_impulse}")
    world.clear_events(keeps=False)
    assert len(world.events()) == 0


def keep(world):
    digest, text = world.digest(), world.save()
    with World.load(text) as other:
        assert other.digest() == digest and world.copy().digest() == digest and pickle.loads(pickle.dumps(world)).digest() == digest
    assert status_of(lambda: other.step(1)) == (32, 0) and other.poses_into(bytearray(40)) == 0  # (it is closed)
    status, clause = status_of(World.load, "{}")
    print(f"{len(text)} bytes, refused {status} by clause {clause}")
    print(digest.hex())


def main():
    world, balls, platform = make_scene()
    play(world, 60)
    command_each(world, balls, platform)
    play(world, 60)
    command_all(world, balls, platform)
    play(world, 60)
    look(world, balls)
    look_closer(world, balls)
    ask_a_frame(world, balls)
    keep_a_journal()
    follow(world, balls, platform)
    keep(world)


main()
