//! A game's loop over a world, in Rust: it prints what the program falling_game prints.
//!
//!     rustc --edition 2021 -O -L bindings/out -l static=dillmonth bindings/rust/falling_game.rs && ./falling_game

#[path = "dillmonth.rs"]
mod dillmonth;

use dillmonth::{gravity, velocity, BodyDef, BodyId, Kind, Mass, Refused, Rot, Set, Shape, Vec2, World, KILOGRAM, METRE, RATE};

const HALF: i64 = METRE / 2;
const CENTIMETRE: i64 = METRE / 100;
const SLOPE: Rot = Rot { c: 1_030_792_151, s: -300_647_711 };

struct Actor {
    name: &'static str,
    body: BodyId,
}

fn make_scene(world: &mut World) -> Result<Vec<Actor>, Refused> {
    let at = Vec2::metres;
    let line = |half: f64| Shape::segment(at(-half, 0.0), at(half, 0.0)).friction(0.5);
    let bar = Shape::capsule(at(-0.5, 0.0), at(0.5, 0.0), HALF / 4).friction(0.5);
    // the density is that of a square metre
    let (ball, stick, coin) = (Mass::circle(HALF, KILOGRAM)?, Mass::capsule(HALF, HALF / 4, KILOGRAM)?, Mass::circle(HALF / 4, KILOGRAM)?);
    let roles = [
        ("the floor", BodyDef::fixed(at(0.0, 0.0)), line(8.0)),
        ("the ramp", BodyDef::fixed(at(-4.0, 2.0)).facing(SLOPE), line(2.0)),
        ("the ball", BodyDef::dynamic(at(-5.0, 4.0), ball), Shape::circle(HALF).friction(0.5)),
        ("the stick", BodyDef::dynamic(at(3.0, 3.0), stick), bar),
        ("the coin", BodyDef::dynamic(at(0.0, 0.125), coin), Shape::circle(HALF / 4)),
        ("the lift", BodyDef::kinematic(at(0.0, 6.0), velocity(1.0, 0.0, RATE)), bar),
    ];
    let mut cast = Vec::new();
    for (name, body, shape) in roles {
        if let Kind::Dynamic(Mass { mass, inertia }) = body.kind {
            println!("{name} has the mass {mass} and the inertia {inertia}");
        }
        cast.push(Actor { name, body: world.create_body(&body, &[shape])? });
    }
    Ok(cast)
}

fn name_of(cast: &[Actor], slot: u32) -> &'static str {
    cast.iter().find(|actor| actor.body.slot == slot).map_or("the lift", |actor| actor.name)
}

fn play_frame(world: &mut World, cast: &[Actor], frame: u32) -> Result<(), Refused> {
    let coin = cast[4].body;
    if frame == 20 || frame == 200 {
        match world.push(coin, Vec2::new(20_000, 40_000)) {
            Ok(()) => println!("{frame}: the coin is kicked"),
            Err(Refused::StaleHandle) => println!("{frame}: there is no coin to kick"),
            Err(refused) => return Err(refused),
        }
    }
    world.step(4)?;
    let mut taken = false;
    for pair in world.begun() {
        let met = (name_of(cast, pair.first.slot), name_of(cast, pair.second.slot));
        println!("{frame}: {} meets {}", met.0, met.1);
        taken |= met == ("the ball", "the coin") || met == ("the coin", "the ball");
    }
    if taken {
        world.destroy_body(coin)?;
        if world.body(coin).is_none() {
            println!("{frame}: the coin is taken");
        }
    }
    if frame % 40 == 0 {
        println!("{frame}:");
        for pose in world.poses() {
            if world.body(pose.body).map_or(false, |view| view.set != Set::Static) {
                let name = name_of(cast, pose.body.slot);
                println!("   {name} is at {}, {} cm", pose.at.x / CENTIMETRE, pose.at.y / CENTIMETRE);
            }
        }
    }
    Ok(())
}

fn main() -> Result<(), Refused> {
    let mut world = World::new(gravity(0.0, -9.81, RATE))?;
    let cast = make_scene(&mut world)?;
    for frame in 1..=240 {
        play_frame(&mut world, &cast, frame)?;
    }
    Ok(())
}
