//! The lines of units.c, by the owner for Rust.

#[path = "../rust/dillmonth.rs"]
mod dillmonth;

use dillmonth::{gravity, kilograms, metres, push_of, speed, spin, ticks, velocity, BodyDef, BodyId, Kind, Mass, Refused, Rot, Shape, Vec2, METRE, NOBODY, RATE};

fn print(numbers: &[i64]) {
    let texts: Vec<String> = numbers.iter().map(i64::to_string).collect();
    println!("{}", texts.join(" "));
}

fn print_units(value: f64) {
    let (at, facing) = (Vec2::metres(value, -value), Rot::degrees(value * 9.25));
    let (down, push) = (gravity(value / 7.0, -value, 240), push_of(201, value, value / 3.0, 120));
    let friction = Shape::circle(METRE).friction(value).friction;
    print(&[at.x, at.y, facing.c, facing.s, down.x, down.y, push.x, push.y, speed(value, 240), speed(value, 60), spin(value, 256), kilograms(value), friction, ticks(value, RATE)]);
}

fn print_masses(half: i64, radius: i64, density: i64) {
    let of = |mass: Result<Mass, Refused>| mass.unwrap_or(Mass { mass: 0, inertia: 0 });
    let (disc, capsule) = (of(Mass::circle(radius, density)), of(Mass::capsule(half, radius, density)));
    print(&[disc.mass, disc.inertia, capsule.mass, capsule.inertia]);
}

fn main() {
    for i in -200..=200 {
        print_units(f64::from(i) * 0.37);
    }
    let mut seed: i64 = 1;
    for _ in 0..300 {
        let mut next = || {
            seed = seed * 48271 % 2147483647;
            seed >> (seed % 3 * 3 + 7)
        };
        let (half, radius, density) = (next(), next(), next());
        print_masses(half, radius, density >> 6);
    }
    print_masses(METRE / 2, METRE / 8, 256);
    print_masses(METRE / 2, METRE / 2, 256);
    print_masses((1 << 24) + 1, METRE, 256);
    print_masses(METRE, -1, 256);
    let shape = Shape::capsule(Vec2::metres(-1.0, 0.0), Vec2::metres(1.0, 0.0), metres(0.25));
    if let dillmonth::Form::Capsule { second, radius, .. } = shape.form {
        println!("1 {} {} {radius} {} {}", shape.group, second.x, shape.category, shape.mask);
    }
    let def = BodyDef::kinematic(Vec2::metres(2.0, 3.0), velocity(1.0, 0.0, RATE));
    if let Kind::Kinematic { velocity, .. } = def.kind {
        print(&[1, def.facing.c, def.facing.s, velocity.x]);
    }
    let id = BodyId { slot: 7, generation: 9 };
    print(&[id.packed() as i64, i64::from(BodyId::unpacked(id.packed()) == id && id != NOBODY)]);
}
