//! The calls of tour.c, by the owner for Rust.

#[path = "../rust/dillmonth.rs"]
mod dillmonth;

use dillmonth::{gravity, BodyDef, BodyId, Box2, Cause, Command, Counts, Filter, Form, Happening, Joint, Journal, Mass, Refused, Reply, Rot, Set, Shape, Vec2, World,
                METRE, NOBODY, RATE, UPRIGHT};
use std::collections::{BTreeSet, HashMap};

fn at(x: i64, y: i64) -> Vec2 {
    Vec2 { x, y }
}

fn circle(radius: i64) -> Shape {
    Shape::circle(radius).friction(0.5)
}

struct Scene {
    world: World,
    balls: Vec<BodyId>,
    platform: BodyId,
}

fn make_scene() -> Result<Scene, Refused> {
    let mut world = World::new(gravity(0.0, -9.81, RATE))?;
    let floor = Shape::segment(at(-8 * METRE, 0), at(8 * METRE, 0)).friction(0.5);
    world.create_body(&BodyDef::fixed(at(0, 0)), &[floor])?;
    let mut balls = Vec::new();
    for i in 0..5 {
        let mass = Mass { mass: 200, inertia: 27_000_000_000_000 };
        balls.push(world.create_body(&BodyDef::dynamic(at((i - 2) * METRE + i * 1000, METRE), mass), &[circle(METRE / 2)])?);
    }
    let capsule = Shape::capsule(at(-METRE, 0), at(METRE, 0), METRE / 4).friction(0.5).restitution(0.25);
    let platform = world.create_body(&BodyDef::kinematic(at(0, 6 * METRE), at(1000, 0)), &[capsule])?;
    Ok(Scene { world, balls, platform })
}

fn play(world: &mut World, count: usize) -> Result<(), Refused> {
    let (mut step, mut begun, mut ended, mut slept, mut woke) = (0, 0, 0, 0, 0);
    for _ in 0..count {
        step = world.step(4)?;
        begun += world.begun().len();
        ended += world.ended().len();
        slept += world.slept().len();
        woke += world.woke().len();
    }
    println!("step {step}: {begun} begun, {ended} ended, {slept} slept, {woke} woke");
    Ok(())
}

fn text_of(packed: u64) -> String {
    format!("{}.{}", packed as u32, packed >> 32)
}

fn command_each(scene: &mut Scene) -> Result<(), Refused> {
    let Scene { world, balls, platform } = scene;
    let anchor = at(0, METRE / 4);
    let made = world.create_joint(&Joint { a: (balls[0], anchor), b: (balls[1], anchor), length: METRE, collide: true })?;
    world.push(balls[2], at(20_000, 40_000))?;
    world.push_at(balls[3], at(1000, 0), at(0, METRE / 4))?;
    world.set_pose(balls[4], at(3 * METRE, 5 * METRE), Rot::degrees(90.0))?;
    world.set_velocity(*platform, at(2000, 0), 1000)?;
    world.set_gravity(at(0, -157))?;
    world.disable(balls[1])?;
    world.enable(balls[1])?;
    world.sleep(balls[3])?;
    world.wake(balls[3])?;
    let refused = world.push(NOBODY, at(1, 1)).map_or_else(Refused::status, |()| 0);
    println!("joint {}, refused {refused}", text_of(made.packed()));
    Ok(())
}

fn command_all(scene: &mut Scene) -> Result<(), Refused> {
    let Scene { world, balls, platform } = scene;
    let body = BodyDef::dynamic(at(-4 * METRE, 3 * METRE), Mass { mass: 50, inertia: 1_000_000_000_000 });
    let joint = Joint::between(balls[2], balls[3], 2 * METRE);
    let answers = world.apply_all(&[
        Command::CreateBody { body, shapes: &[circle(METRE / 4)] },
        Command::Push(NOBODY, at(0, 0)),
        Command::CreateJoint(joint),
        Command::SetPose { body: balls[0], at: at(-6 * METRE, 2 * METRE), facing: UPRIGHT },
        Command::SetVelocity { body: *platform, velocity: at(-2000, 0), spin: 500 },
        Command::DestroyBody(balls[4]),
        Command::Step(4),
    ]);
    let (body, refused, joint, step) = match answers[..] {
        [Ok(Reply::Body(body)), Err(refused), Ok(Reply::Joint(joint)), Ok(Reply::Done), Ok(Reply::Done), Ok(Reply::Done), Ok(Reply::Step(step))] => (body, refused, joint, step),
        _ => panic!("{answers:?}"),
    };
    println!("a body {}, a joint {}, step {step}, refused {}", text_of(body.packed()), text_of(joint.packed()), refused.status());
    world.destroy_joint(joint)?;
    world.destroy_body(body)
}

fn look(scene: &Scene) -> Result<(), Refused> {
    let Scene { world, balls, .. } = scene;
    let world: &World = world; // each question takes a shared reference
    let contacts = world.contacts()?;
    let points: u32 = contacts.iter().map(|contact| contact.points).sum();
    let found = world.region(Box2 { lo: at(-9 * METRE, -METRE), hi: at(0, 9 * METRE) })?.len();
    let (shape, fraction) = world.ray(at(0, 20 * METRE), at(0, -40 * METRE))?.expect("the ray hits");
    let view = world.body(balls[2]).expect("the body is there");
    assert!(world.body(balls[4]).is_none());
    let names: HashMap<BodyId, usize> = balls.iter().copied().zip(0..).collect();
    assert_eq!((names[&balls[2]], balls.iter().collect::<BTreeSet<_>>().len()), (2, 5));
    let (poses, moved) = (world.poses().len(), world.moved().len());
    println!("{poses} poses, {moved} moved, {} contacts of {points} points, {found} in a region", contacts.len());
    println!("a ray hits {}.{} at {fraction}", shape.slot, shape.index);
    let on = world.ray_on(shape, at(0, 20 * METRE), at(0, -40 * METRE))?.expect("the ray hits");
    println!("at {}, {}, where it faces {}, {}", on.point.x, on.point.y, on.normal.x, on.normal.y);
    let is_awake = i32::from(view.set == Set::Awake);
    println!("a body at {}, {} with {}, {} and {}, awake {is_awake}", view.pose.at.x, view.pose.at.y, view.p.x, view.p.y, view.l);
    println!("{} steps, gravity {}", world.steps(), world.gravity().y);
    Ok(())
}

fn look_closer(scene: &Scene) -> Result<(), Refused> {
    let Scene { world, balls, .. } = scene;
    let filter = Filter { without: world.body_in(0), mask: Some(1) };
    let (info, shapes) = (world.info(balls[0]).expect("the ball is there"), world.shapes(balls[0])?);
    let Form::Circle { radius, .. } = shapes[0].form else { panic!("a ball is a circle") };
    let (joints, contacts) = (world.joints_of(balls[0])?.len(), world.contacts_of(balls[0])?.len());
    let (kind, mass, island) = (info.kind as u32, info.mass.mass, info.island.expect("a mover has an island"));
    println!("a body of kind {kind}, mass {mass}, radius {radius}, with {} shapes, {joints} joints, {contacts} contacts, in island {island}", shapes.len());
    let view = world.joint(world.joints()[0]).expect("the joint is there");
    let (a, b) = (view.joint.a.0, view.joint.b.0);
    println!("a joint of {}.{} and {}.{}, length {}, impulse {}", a.slot, a.generation, b.slot, b.generation, view.joint.length, view.impulse);
    let under = world.contacts_of(world.body_in(0).expect("the floor is there"))?;
    let coloured = under.iter().filter(|contact| world.colour_of(contact.pair).is_some()).count();
    println!("{} contacts of the floor, of which {coloured} have a colour", under.len());
    let Counts { bodies, awake, joints, contacts, touching, islands, colours } = world.count()?;
    println!("{bodies} bodies, {awake} awake, {joints} joints, {contacts} contacts, {touching} touching, {islands} islands, {colours} colours");
    println!("gravity gave {}, all gave {}, by rules {}", world.total_of(Cause::Gravity).1, world.total().1, dillmonth::rules());
    let hits = world.all_hits(at(-9 * METRE, METRE / 2), at(18 * METRE, 0), &filter)?.len();
    let found = world.region_through(Box2 { lo: at(-9 * METRE, -METRE), hi: at(9 * METRE, 9 * METRE) }, &filter)?.len();
    let first = world.body_in(1).expect("the first ball is there");
    println!("{hits} hits and {found} shapes but for the floor, body {}.{}", first.slot, first.generation);
    Ok(())
}

fn ask_a_frame(scene: &mut Scene) -> Result<(), Refused> {
    let frame = scene.world.frame()?;
    play(&mut scene.world, 30)?;
    let pose = frame.pose(scene.balls[2]).expect("the ball was there");
    assert!(frame.pose(scene.balls[4]).is_none());
    let (shape, fraction) = frame.ray(at(0, 20 * METRE), at(0, -40 * METRE))?.expect("the ray hits");
    let found = frame.region(Box2 { lo: at(-9 * METRE, -METRE), hi: at(0, 9 * METRE) })?.len();
    let (calls, total) = (frame.calls(), frame.total().1);
    println!(
        "after {calls} calls a body was at {}, {}, a ray hit {}.{} at {fraction}, {found} were in a region, all had given {total}",
        pose.at.x, pose.at.y, shape.slot, shape.index
    );
    Ok(())
}

fn keep_a_journal() -> Result<(), Refused> {
    let (mut played, mut journal) = Journal::open(at(0, -179))?;
    let floor = [Shape::segment(at(-8 * METRE, 0), at(8 * METRE, 0)).friction(0.5)];
    journal.apply(&mut played, &Command::CreateBody { body: BodyDef::fixed(at(0, 0)), shapes: &floor })?;
    let mass = Mass { mass: 200, inertia: 27_000_000_000_000 };
    journal.apply(&mut played, &Command::CreateBody { body: BodyDef::dynamic(at(0, 3 * METRE), mass), shapes: &[circle(METRE / 2)] })?;
    assert_eq!(journal.apply(&mut played, &Command::Push(NOBODY, at(0, 0))), Err(Refused::StaleHandle));
    for _ in 0..30 {
        journal.apply(&mut played, &Command::Step(4))?;
    }
    let digest = journal.replay()?.digest()?;
    assert_eq!(digest, played.digest()?);
    println!("a journal of {} calls, whose replay has the digest {:02x}{:02x}{:02x}{:02x}..", journal.len(), digest[0], digest[1], digest[2], digest[3]);
    Ok(())
}

fn follow(scene: &mut Scene) -> Result<(), Refused> {
    let Scene { world, balls, platform, .. } = scene;
    let (balls, platform) = (balls.clone(), *platform);
    world.set_tag(balls[2], 7002)?;
    assert_eq!(world.tag(balls[2]), 7002);
    world.clear_events(true);
    world.push_to(balls[2], at(0, 6000))?;
    world.twist_to(balls[2], 2_000_000)?;
    world.twist(balls[3], 1_000_000_000_000)?;
    world.set_target(platform, at(METRE, 6 * METRE), Rot::degrees(30.0), 4)?;
    assert_eq!(world.push_to(platform, at(0, 0)), Err(Refused::NotAMover));
    assert_eq!(world.set_target(balls[2], at(0, 0), UPRIGHT, 4), Err(Refused::NotKinematic));
    let (course, view) = (world.motion(balls[2]).expect("the ball is there"), world.body(balls[2]).expect("the ball is there"));
    println!("a velocity of {}, {} and a spin of {}, tag {}", course.velocity.x, course.velocity.y, course.spin, view.tag);
    let course = world.motion(platform).expect("the platform is there");
    println!("a course of {}, {} and {}", course.velocity.x, course.velocity.y, course.spin);
    play(world, 1)?;
    let reached = world.body(platform).expect("the platform is there").pose;
    println!("after its four ticks at {}, {}, facing {}, {}", reached.at.x, reached.at.y, reached.facing.c, reached.facing.s);
    play(world, 60)?;
    let events = world.events()?;
    let count = |is: fn(&Happening) -> bool| events.iter().filter(|event| is(&event.happening)).count();
    let begun = count(|happening| matches!(happening, Happening::Begun { .. }));
    let ended = count(|happening| matches!(happening, Happening::Ended { .. }));
    let (slept, woke) = (count(|happening| matches!(happening, Happening::Slept(_))), count(|happening| matches!(happening, Happening::Woke(_))));
    println!("{} events: {begun} begun, {ended} ended, {slept} slept, {woke} woke", events.len());
    for event in &events {
        if let Happening::Begun { first, second, contact } = event.happening {
            let (slots, tags) = ((first.body.slot, second.body.slot), (first.tag, second.tag));
            let (points, impulse) = (contact.points, contact.first.normal_impulse);
            println!("step {}: {} and {} with tags {} and {}, {points} points, impulse {impulse}", event.step, slots.0, slots.1, tags.0, tags.1);
            break;
        }
    }
    world.clear_events(false);
    Ok(())
}

fn keep(world: World) -> Result<(), Refused> {
    let digest = world.digest()?;
    let text = world.save()?;
    assert_eq!(World::load(&text)?.digest()?, digest);
    assert_eq!(world.try_clone()?.digest()?, digest);
    let refused = World::load("{}").err().expect("that is no world");
    let clause = if let Refused::BadFile(clause) = refused { clause } else { 0 };
    println!("{} bytes, refused {} by clause {clause}", text.len(), refused.status());
    println!("{}", digest.map(|byte| format!("{byte:02x}")).concat());
    Ok(())
}

fn main() -> Result<(), Refused> {
    let mut scene = make_scene()?;
    play(&mut scene.world, 60)?;
    command_each(&mut scene)?;
    play(&mut scene.world, 60)?;
    command_all(&mut scene)?;
    play(&mut scene.world, 60)?;
    look(&mut scene)?;
    look_closer(&scene)?;
    ask_a_frame(&mut scene)?;
    keep_a_journal()?;
    follow(&mut scene)?;
    keep(scene.world)
}
