//! Worlds of rigid bodies for Rust, over `libdillmonth.a`.
//!
//! ```no_run
//! use dillmonth::{gravity, metres, BodyDef, Mass, Shape, Vec2, World, RATE};
//! # fn main() -> Result<(), dillmonth::Refused> {
//! let mut world = World::new(gravity(0.0, -9.81, RATE))?;
//! let floor = Shape::segment(Vec2::metres(-8.0, 0.0), Vec2::metres(8.0, 0.0));
//! world.create_body(&BodyDef::fixed(Vec2::metres(0.0, 0.0)), &[floor])?;
//! let disc = BodyDef::dynamic(Vec2::metres(0.0, 4.0), Mass::circle(metres(0.5), 256)?);
//! let ball = world.create_body(&disc, &[Shape::circle(metres(0.5)).restitution(0.75)])?;
//! world.step(1)?;
//! println!("{:?}", world.body(ball));
//! # Ok(())
//! # }
//! ```
//!
//! - A `World` is an owner: it is closed when it is dropped. It may be sent to another thread, and isn't shared by two.
//! - A refused call answers `Err(Refused)`, and has changed nothing.
//! - An id that names nothing any more: a question about it answers `None`, and a command is refused with `StaleHandle`.
//! - Numbers of the world are whole: lengths in u, of which a metre has 2^20, and times in ticks. `metres`, `speed`, `gravity` and others turn
//!   metres, seconds, kilograms and degrees into them by one rounding, so that peers which call them with the same numbers get the same ones.
//!
//! It needs Rust 1.63 and no other crate.
#![allow(dead_code)]

use std::cell::UnsafeCell;
use std::fmt;

/// How many ticks a second has on all pages: a frame of 60 a second is four steps of one tick. A world doesn't know it.
pub const RATE: i32 = 240;
/// u
pub const METRE: i64 = 1 << 20;
/// A cosine or a sine of 1.
pub const ONE: i64 = 1 << 30;
/// The choice of these helpers for the unit of mass, which is free.
pub const KILOGRAM: i64 = 256;
pub const UPRIGHT: Rot = Rot { c: ONE, s: 0 };
/// Names no body, ever.
pub const NOBODY: BodyId = BodyId { slot: 0, generation: 0 };

macro_rules! values {
    ($($(#[$note:meta])* $seen:vis $name:ident { $($field:ident: $type:ty),* $(,)? })*) => { $(
        $(#[$note])*
        #[repr(C)]
        #[derive(Clone, Copy, Debug, Default, PartialEq, Eq, PartialOrd, Ord, Hash)]
        $seen struct $name { $($seen $field: $type),* }
    )* };
}

values! {
    /// A place or a way in u, or a velocity in u/tick.
    pub Vec2 { x: i64, y: i64 }
    /// A facing: cosine and sine of the turn, times 2^30.
    pub Rot { c: i64, s: i64 }
    /// The id of a body. It holds numbers alone: in another world it means the body that has these numbers there.
    pub BodyId { slot: u32, generation: u32 }
    /// The id of a joint.
    pub JointId { slot: u32, generation: u32 }
    /// The slot of its body, and its place among the body's shapes.
    pub ShapeId { slot: u32, index: u32 }
    /// Two shapes, the lesser first.
    pub Pair { first: ShapeId, second: ShapeId }
    pub Box2 { lo: Vec2, hi: Vec2 }
    pub Pose { body: BodyId, at: Vec2, facing: Rot }
    /// A point where two shapes touch: its offset is from the centre of the first shape's body, its separation below 0 where they overlap, its impulses are along
    /// the normal and across it. All zeros where there is none.
    pub ContactPoint { offset: Vec2, separation: i64, normal_impulse: i64, tangent_impulse: i64 }
    /// Two near shapes, with up to two points where they touch. The normal leads from the first shape to the second, times 2^30.
    pub Contact { pair: Pair, points: u32, unused: u32, normal: Vec2, first: ContactPoint, second: ContactPoint }
    /// A velocity in u/tick, and a spin: the tangent of the turn of a tick, times 2^30.
    pub Course { velocity: Vec2, spin: i64 }
    RawEvent { step: u64, kind: u32, unused: u32, first: BodyId, second: BodyId, first_tag: u64, second_tag: u64, contact: Contact }
    RawShape { form: u32, group: i32, first: Vec2, second: Vec2, radius: i64, friction: i64, restitution: i64, category: u64, mask: u64 }
    RawBodyDef { kind: u32, unused: u32, at: Vec2, facing: Rot, mass: i64, inertia: i64, velocity: Vec2, spin: i64 }
    RawJointDef { a: BodyId, b: BodyId, from: Vec2, to: Vec2, length: i64, collide: u32, unused: u32 }
    RawView { pose: Pose, p: Vec2, l_low: u64, l_high: i64, velocity: Vec2, spin: i64, set: u32, island: u32, tag: u64 }
    /// How much there is of a world: `awake` counts movers, `contacts` near shapes, `colours` those that some constraint has.
    pub Counts { bodies: usize, awake: usize, joints: usize, contacts: usize, touching: usize, islands: usize, colours: usize }
    RawHit { is_hit: u32, fraction: u32, shape: ShapeId }
    /// Where a ray hits a shape: how far along the way, in 2^24ths, the point, and how the surface faces there, times 2^30.
    pub ShapeHit { fraction: u32, point: Vec2, normal: Vec2 }
    RawShapeHit { is_hit: u32, fraction: u32, point: Vec2, normal: Vec2 }
    RawInfo { kind: u32, enabled: u32, mass: i64, inertia: i64, shapes: usize, island: u32, unused: u32 }
    RawJointView { def: RawJointDef, impulse: i64, colour: u32, unused: u32 }
    RawSum { x_low: u64, x_high: i64, y_low: u64, y_high: i64 }
    RawFilter { without: BodyId, mask: u64, by_mask: u32, unused: u32 }
    RawCommand { kind: u32, shapes_from: u32, shapes_count: u32, unused: u32, body: RawBodyDef, joint: RawJointDef, by: Vec2, offset: Vec2, ticks: i64 }
    RawAnswer { status: u32, unused: u32, made: BodyId, step: u64 }
}

#[repr(C)]
struct Held {
    at: *mut u8,
}

// The library says that a world may go to another thread, which then gives it to one call at a time. `World` isn't `Sync`, so that is a matter of types.
unsafe impl Send for Held {}

#[repr(C)]
#[derive(Clone, Copy)]
struct HeldFrame {
    at: *mut u8,
}

extern "C" {
    fn dm_version() -> u32;
    fn dm_open(world: *mut Held, gravity: Vec2) -> u32;
    fn dm_close(world: *mut Held);
    fn dm_copy(from: *mut Held, to: *mut Held) -> u32;
    fn dm_settle(world: *mut Held) -> u32;
    fn dm_create_body(world: *mut Held, def: *const RawBodyDef, shapes: *const RawShape, count: usize, made: *mut BodyId) -> u32;
    fn dm_destroy_body(world: *mut Held, body: BodyId) -> u32;
    fn dm_create_joint(world: *mut Held, def: *const RawJointDef, made: *mut JointId) -> u32;
    fn dm_destroy_joint(world: *mut Held, joint: JointId) -> u32;
    fn dm_push(world: *mut Held, body: BodyId, by: Vec2) -> u32;
    fn dm_push_at(world: *mut Held, body: BodyId, by: Vec2, offset: Vec2) -> u32;
    fn dm_set_pose(world: *mut Held, body: BodyId, at: Vec2, facing: Rot) -> u32;
    fn dm_set_velocity(world: *mut Held, body: BodyId, velocity: Vec2, spin: i64) -> u32;
    fn dm_push_to(world: *mut Held, body: BodyId, velocity: Vec2) -> u32;
    fn dm_twist(world: *mut Held, body: BodyId, by: i64) -> u32;
    fn dm_twist_to(world: *mut Held, body: BodyId, spin: i64) -> u32;
    fn dm_set_target(world: *mut Held, body: BodyId, at: Vec2, facing: Rot, ticks: i64) -> u32;
    fn dm_motion(world: *mut Held, body: BodyId, out: *mut Course) -> u32;
    fn dm_events_clear(world: *mut Held, keeps: u32) -> u32;
    fn dm_events(world: *mut Held, out: *mut RawEvent, room: usize, count: *mut usize) -> u32;
    fn dm_set_tag(world: *mut Held, body: BodyId, tag: u64) -> u32;
    fn dm_tag(world: *mut Held, body: BodyId) -> u64;
    fn dm_set_gravity(world: *mut Held, gravity: Vec2) -> u32;
    fn dm_disable(world: *mut Held, body: BodyId) -> u32;
    fn dm_enable(world: *mut Held, body: BodyId) -> u32;
    fn dm_wake(world: *mut Held, body: BodyId) -> u32;
    fn dm_sleep(world: *mut Held, body: BodyId) -> u32;
    fn dm_step(world: *mut Held, ticks: i64, step: *mut u64) -> u32;
    fn dm_apply_all(world: *mut Held, commands: *const RawCommand, count: usize, shapes: *const RawShape, shapes_count: usize, answers: *mut RawAnswer, room: usize) -> usize;
    fn dm_poses(world: *mut Held, out: *mut Pose, room: usize) -> usize;
    fn dm_moved(world: *mut Held, out: *mut Pose, room: usize) -> usize;
    fn dm_begun(world: *mut Held, out: *mut Pair, room: usize) -> usize;
    fn dm_ended(world: *mut Held, out: *mut Pair, room: usize) -> usize;
    fn dm_slept(world: *mut Held, out: *mut BodyId, room: usize) -> usize;
    fn dm_woke(world: *mut Held, out: *mut BodyId, room: usize) -> usize;
    fn dm_body(world: *mut Held, body: BodyId, out: *mut RawView) -> u32;
    fn dm_steps(world: *mut Held) -> u64;
    fn dm_gravity(world: *mut Held) -> Vec2;
    fn dm_ray(world: *mut Held, from: Vec2, along: Vec2, out: *mut RawHit) -> u32;
    fn dm_info(world: *mut Held, body: BodyId, out: *mut RawInfo) -> u32;
    fn dm_shapes(world: *mut Held, body: BodyId, out: *mut RawShape, room: usize, count: *mut usize) -> u32;
    fn dm_joints_of(world: *mut Held, body: BodyId, out: *mut JointId, room: usize, count: *mut usize) -> u32;
    fn dm_contacts_of(world: *mut Held, body: BodyId, out: *mut Contact, room: usize, count: *mut usize) -> u32;
    fn dm_colour_of(world: *mut Held, first: ShapeId, second: ShapeId) -> u32;
    fn dm_body_in(world: *mut Held, slot: u32) -> BodyId;
    fn dm_joint_in(world: *mut Held, slot: u32) -> JointId;
    fn dm_joints(world: *mut Held, out: *mut JointId, room: usize) -> usize;
    fn dm_joint(world: *mut Held, joint: JointId, out: *mut RawJointView) -> u32;
    fn dm_count(world: *mut Held, out: *mut Counts) -> u32;
    fn dm_total_of(world: *mut Held, cause: u32, out: *mut RawSum) -> u32;
    fn dm_total(world: *mut Held, out: *mut RawSum) -> u32;
    fn dm_rules() -> u32;
    fn dm_ray_through(world: *mut Held, from: Vec2, along: Vec2, filter: *const RawFilter, out: *mut RawHit) -> u32;
    fn dm_ray_all(world: *mut Held, from: Vec2, along: Vec2, filter: *const RawFilter, count: *mut usize) -> u32;
    fn dm_hits_found(world: *mut Held, out: *mut RawHit, room: usize) -> usize;
    fn dm_ray_on_shape(world: *mut Held, from: Vec2, along: Vec2, shape: ShapeId, out: *mut RawShapeHit) -> u32;
    fn dm_region_through(world: *mut Held, bounds: *const Box2, filter: *const RawFilter, count: *mut usize) -> u32;
    fn dm_region(world: *mut Held, bounds: *const Box2, count: *mut usize) -> u32;
    fn dm_region_found(world: *mut Held, out: *mut ShapeId, room: usize) -> usize;
    fn dm_contacts(world: *mut Held, count: *mut usize) -> u32;
    fn dm_contacts_listed(world: *mut Held, out: *mut Contact, room: usize) -> usize;
    fn dm_frame_take(world: *mut Held, frame: *mut HeldFrame) -> u32;
    fn dm_frame_drop(frame: *mut HeldFrame);
    fn dm_frame_pose(frame: HeldFrame, body: BodyId, out: *mut Pose) -> u32;
    fn dm_frame_ray(frame: HeldFrame, from: Vec2, along: Vec2, out: *mut RawHit) -> u32;
    fn dm_frame_region(frame: HeldFrame, bounds: *const Box2, out: *mut ShapeId, room: usize, count: *mut usize) -> u32;
    fn dm_frame_total(frame: HeldFrame, out: *mut RawSum) -> u32;
    fn dm_frame_calls(frame: HeldFrame) -> u64;
    fn dm_save(world: *mut Held, bytes: *mut usize) -> u32;
    fn dm_saved(world: *mut Held, out: *mut u8, room: usize) -> usize;
    fn dm_load(world: *mut Held, text: *const u8, count: usize, clause: *mut u32) -> u32;
    fn dm_digest(world: *mut Held, out: *mut u8, room: usize) -> u32;
}

/// Why a call was refused.
#[derive(Clone, Copy, Debug, PartialEq, Eq, Hash)]
#[non_exhaustive]
pub enum Refused {
    NoMemory,
    StaleHandle,
    TooMany,
    BadShape,
    OutOfRange,
    NotAMover,
    SameBody,
    BodyDisabled,
    TooFast,
    WornOut,
    /// The saved world breaks this clause first.
    BadFile(u32),
    NotKinematic,
    NoWorld,
    BadKind,
    BadSpan,
    BadText,
    Other(u32),
}

/// Each refusal with its number, as scripts have it, and in words.
const REFUSALS: [(Refused, u32, &str); 15] = [
    (Refused::NoMemory, 1, "there is no memory"),
    (Refused::StaleHandle, 2, "the id names nothing that lives"),
    (Refused::TooMany, 3, "no slot can be given out"),
    (Refused::BadShape, 4, "no shape or more than eight, or one that isn't allowed"),
    (Refused::OutOfRange, 5, "a number is outside its limit"),
    (Refused::NotAMover, 6, "the body isn't dynamic"),
    (Refused::SameBody, 7, "both ends of the joint are one body"),
    (Refused::BodyDisabled, 8, "the body is disabled"),
    (Refused::TooFast, 9, "the momentum would come beyond its limit"),
    (Refused::WornOut, 10, "the world has accepted all the calls that it may"),
    (Refused::NotKinematic, 15, "the body isn't kinematic"),
    (Refused::NoWorld, 32, "there is no world"),
    (Refused::BadKind, 33, "a kind or a form that is none"),
    (Refused::BadSpan, 34, "the command names shapes beyond those of the batch"),
    (Refused::BadText, 35, "the text is no JSON"),
];

impl Refused {
    fn of(status: u32, clause: u32) -> Refused {
        match REFUSALS.iter().find(|row| row.1 == status) {
            Some(row) => row.0,
            None if status == 12 => Refused::BadFile(clause),
            None => Refused::Other(status),
        }
    }

    /// Its number, as scripts have it.
    pub fn status(self) -> u32 {
        match self {
            Refused::BadFile(_) => 12,
            Refused::Other(status) => status,
            _ => REFUSALS.iter().find(|row| row.0 == self).map_or(0, |row| row.1),
        }
    }
}

impl fmt::Display for Refused {
    fn fmt(&self, f: &mut fmt::Formatter) -> fmt::Result {
        match self {
            Refused::BadFile(clause) => write!(f, "the world refused: the saved world breaks clause {clause} of its format"),
            Refused::Other(status) => write!(f, "the world refused: {status}"),
            _ => write!(f, "the world refused: {}", REFUSALS.iter().find(|row| row.0 == *self).map_or("", |row| row.2)),
        }
    }
}

impl std::error::Error for Refused {}

fn outcome(status: u32, clause: u32) -> Result<(), Refused> {
    match status {
        0 => Ok(()),
        _ => Err(Refused::of(status, clause)),
    }
}

// ---- units ----

/// The nearest whole number, halves away from zero. What is too large becomes the greatest or the least number, which a world refuses.
fn nearest(value: f64) -> i64 {
    if value.is_nan() || value <= -9.2e18 {
        return i64::MIN;
    }
    if value > 9.2e18 {
        return i64::MAX;
    }
    let whole = value as i64;
    let rest = value - whole as f64;
    whole + i64::from(rest >= 0.5) - i64::from(rest <= -0.5)
}

/// Metres in u.
pub fn metres(metres: f64) -> i64 {
    nearest(metres * 1048576.0)
}

/// u in metres, to draw.
pub fn in_metres(u: i64) -> f64 {
    u as f64 / 1048576.0
}

/// Kilograms in the unit of mass that these helpers have.
pub fn kilograms(kilograms: f64) -> i64 {
    nearest(kilograms * 256.0)
}

/// Seconds in ticks.
pub fn ticks(seconds: f64, rate: i32) -> i64 {
    nearest(seconds * f64::from(rate))
}

/// Metres a second in u/tick.
pub fn speed(metres_a_second: f64, rate: i32) -> i64 {
    nearest(metres_a_second * 1048576.0 / f64::from(rate))
}

/// Metres a second in u/tick.
pub fn velocity(x: f64, y: f64, rate: i32) -> Vec2 {
    Vec2::new(speed(x, rate), speed(y, rate))
}

/// Metres a second a second in u/tick².
pub fn gravity(x: f64, y: f64, rate: i32) -> Vec2 {
    let square = f64::from(rate) * f64::from(rate);
    Vec2::new(nearest(x * 1048576.0 / square), nearest(y * 1048576.0 / square))
}

/// The push that gives a body of this mass so much of a velocity, which is in metres a second.
pub fn push_of(mass: i64, x: f64, y: f64, rate: i32) -> Vec2 {
    let push = |part: f64| nearest(mass as f64 * (part * 1048576.0) / f64::from(rate));
    Vec2::new(push(x), push(y))
}

/// Degrees a second as a spin of a kinematic body.
pub fn spin(degrees_a_second: f64, rate: i32) -> i64 {
    nearest(degrees_a_second * 18740330.145169 / f64::from(rate))
}

impl Vec2 {
    pub const fn new(x: i64, y: i64) -> Vec2 {
        Vec2 { x, y }
    }

    /// A place or a way that is given in metres.
    pub fn metres(x: f64, y: f64) -> Vec2 {
        Vec2::new(metres(x), metres(y))
    }

    /// x and y in metres, to draw.
    pub fn in_metres(self) -> (f64, f64) {
        (in_metres(self.x), in_metres(self.y))
    }
}

/// An eighth of a turn times `part`, which is in 2^31sts: its cosine or sine in 2^32nds, by Taylor's series with these terms.
fn eighth(part: u64, terms: [u64; 6]) -> u64 {
    let square = (part * part) >> 31;
    terms.iter().rev().skip(1).fold(terms[5], |sum, term| term - ((sum * square) >> 31))
}

impl Rot {
    /// The facing of a turn by so many degrees, counterclockwise: each part is the nearest whole number or next to it. Beyond a million turns it is
    /// zero, which is refused.
    pub fn degrees(degrees: f64) -> Rot {
        const EIGHTH: i64 = 45 << 32;
        const COSINE: [u64; 6] = [4294967296, 1324675879, 68093890, 1400124, 15423, 106];
        const SINE: [u64; 6] = [3373259426, 346799334, 10696163, 157094, 1346, 8];
        if !(degrees > -3.6e8 && degrees < 3.6e8) {
            return Rot::default();
        }
        let angle = ((degrees * 4294967296.0) as i64).rem_euclid(8 * EIGHTH);
        let quarter = (angle + EIGHTH) / (2 * EIGHTH);
        let rest = angle - quarter * 2 * EIGHTH;
        let part = (rest.unsigned_abs() + 45) / 90;
        let c = ((eighth(part, COSINE) + 2) >> 2) as i64;
        let s = ((((eighth(part, SINE) * part) >> 31) + 2) >> 2) as i64 * rest.signum();
        match quarter % 4 {
            0 => Rot { c, s },
            1 => Rot { c: -s, s: c },
            2 => Rot { c: -c, s: -s },
            _ => Rot { c: s, s: -c },
        }
    }

    /// The turn in degrees, from -180 to 180, to draw.
    pub fn in_degrees(self) -> f64 {
        (self.s as f64).atan2(self.c as f64).to_degrees()
    }
}

macro_rules! ids {
    ($($name:ident)*) => { $(
        impl $name {
            /// In one number: the slot, and the generation times 2^32.
            pub fn packed(self) -> u64 {
                u64::from(self.generation) << 32 | u64::from(self.slot)
            }

            pub fn unpacked(packed: u64) -> $name {
                $name { slot: packed as u32, generation: (packed >> 32) as u32 }
            }
        }
    )* };
}

ids! { BodyId JointId }

// ---- definitions ----

/// The form of a shape, in u from the body's centre. Segments are for static bodies.
#[derive(Clone, Copy, Debug, PartialEq, Eq)]
pub enum Form {
    Circle { center: Vec2, radius: i64 },
    Capsule { first: Vec2, second: Vec2, radius: i64 },
    Segment { first: Vec2, second: Vec2 },
}

/// A shape, with its friction and restitution in 256ths.
#[derive(Clone, Copy, Debug, PartialEq, Eq)]
pub struct Shape {
    pub form: Form,
    pub friction: i64,
    pub restitution: i64,
    /// Two shapes collide where the mask of each meets the category of the other, unless their groups are equal and not 0.
    pub category: u64,
    pub mask: u64,
    /// Equal groups other than 0 decide: a positive one collides, a negative one doesn't.
    pub group: i32,
}

impl Shape {
    /// A shape that collides with all, without friction and restitution.
    pub fn new(form: Form) -> Shape {
        Shape { form, friction: 0, restitution: 0, category: 1, mask: u64::MAX, group: 0 }
    }

    /// A circle about the body's centre.
    pub fn circle(radius: i64) -> Shape {
        Shape::new(Form::Circle { center: Vec2::default(), radius })
    }

    pub fn capsule(first: Vec2, second: Vec2, radius: i64) -> Shape {
        Shape::new(Form::Capsule { first, second, radius })
    }

    pub fn segment(first: Vec2, second: Vec2) -> Shape {
        Shape::new(Form::Segment { first, second })
    }

    /// The same with so much friction, as a share of 1.
    pub fn friction(self, share: f64) -> Shape {
        Shape { friction: nearest(share * 256.0), ..self }
    }

    /// The same with so much restitution, as a share of 1.
    pub fn restitution(self, share: f64) -> Shape {
        Shape { restitution: nearest(share * 256.0), ..self }
    }

    /// The same with this category and this mask.
    pub fn filter(self, category: u64, mask: u64) -> Shape {
        Shape { category, mask, ..self }
    }

    /// The same in this group.
    pub fn group(self, group: i32) -> Shape {
        Shape { group, ..self }
    }

    fn of(raw: &RawShape) -> Shape {
        let RawShape { first, second, radius, friction, restitution, category, mask, group, .. } = *raw;
        let form = match raw.form {
            0 => Form::Circle { center: first, radius },
            1 => Form::Capsule { first, second, radius },
            _ => Form::Segment { first, second },
        };
        Shape { form, friction, restitution, category, mask, group }
    }

    fn raw(&self) -> RawShape {
        let (form, first, second, radius) = match self.form {
            Form::Circle { center, radius } => (0, center, Vec2::default(), radius),
            Form::Capsule { first, second, radius } => (1, first, second, radius),
            Form::Segment { first, second } => (2, first, second, 0),
        };
        let Shape { friction, restitution, category, mask, group, .. } = *self;
        RawShape { form, group, first, second, radius, friction, restitution, category, mask }
    }
}

/// What a dynamic body weighs, and its inertia about its centre in mass·u².
#[derive(Clone, Copy, Debug, PartialEq, Eq)]
pub struct Mass {
    pub mass: i64,
    pub inertia: i64,
}

/// 2^40 square u are a square metre, and π is 355/113.
const UNDER: u128 = 113 << 40;

impl Mass {
    /// Of a disc: density·π·r², and mass·r²/2. The density is mass a square metre: 256 is a kilogram. `OutOfRange` for a radius beyond 2^24 u, a density beyond
    /// 32 bits, a mass that isn't 1 to 2^20, or an inertia beyond 2^60.
    pub fn circle(radius: i64, density: i64) -> Result<Mass, Refused> {
        let (radius, density) = (length(radius)?, weight(density)?);
        let square = radius * radius;
        Mass::within((2 * (355 * density * square) + UNDER) / (2 * UNDER), 2 * square, 2)
    }

    /// Of a capsule whose core is `half` long to either side of the body's centre: density·(4·r·h + π·r²), and
    /// mass·(8·h·(h² + 3·r²) + 3·π·r·(r² + 2·h²)) / (6·(4·h + π·r)). Refused as `circle`.
    pub fn capsule(half: i64, radius: i64, density: i64) -> Result<Mass, Refused> {
        let (h, r, density) = (length(half)?, length(radius)?, weight(density)?);
        if r == 0 {
            return Err(Refused::OutOfRange);
        }
        let girth = 452 * h + 355 * r;
        let bulk = 904 * h * (h * h + 3 * r * r) + 1065 * r * (r * r + 2 * h * h);
        Mass::within((2 * (r * girth * density) + UNDER) / (2 * UNDER), 2 * bulk, 6 * girth)
    }

    fn within(mass: u128, twice_over: u128, under: u128) -> Result<Mass, Refused> {
        if mass < 1 || mass > 1 << 20 {
            return Err(Refused::OutOfRange);
        }
        let inertia = (mass * twice_over + under) / (2 * under);
        if inertia > 1 << 60 {
            return Err(Refused::OutOfRange);
        }
        Ok(Mass { mass: mass as i64, inertia: inertia as i64 })
    }
}

fn length(u: i64) -> Result<u128, Refused> {
    if (0..=1 << 24).contains(&u) { Ok(u as u128) } else { Err(Refused::OutOfRange) }
}

fn weight(density: i64) -> Result<u128, Refused> {
    u32::try_from(density).map(u128::from).map_err(|_| Refused::OutOfRange)
}

/// What moves a body.
#[derive(Clone, Copy, Debug, PartialEq, Eq)]
pub enum Kind {
    Static,
    Kinematic { velocity: Vec2, spin: i64 },
    Dynamic(Mass),
}

/// A body to be made.
#[derive(Clone, Copy, Debug, PartialEq, Eq)]
pub struct BodyDef {
    pub kind: Kind,
    pub at: Vec2,
    pub facing: Rot,
}

impl BodyDef {
    /// A static body, upright.
    pub fn fixed(at: Vec2) -> BodyDef {
        BodyDef { kind: Kind::Static, at, facing: UPRIGHT }
    }

    /// A kinematic body, upright, that doesn't turn.
    pub fn kinematic(at: Vec2, velocity: Vec2) -> BodyDef {
        BodyDef { kind: Kind::Kinematic { velocity, spin: 0 }, at, facing: UPRIGHT }
    }

    /// A dynamic body, upright and at rest.
    pub fn dynamic(at: Vec2, mass: Mass) -> BodyDef {
        BodyDef { kind: Kind::Dynamic(mass), at, facing: UPRIGHT }
    }

    /// The same with this facing.
    pub fn facing(self, facing: Rot) -> BodyDef {
        BodyDef { facing, ..self }
    }

    fn raw(&self) -> RawBodyDef {
        let def = RawBodyDef { at: self.at, facing: self.facing, ..RawBodyDef::default() };
        match self.kind {
            Kind::Static => RawBodyDef { kind: 0, ..def },
            Kind::Kinematic { velocity, spin } => RawBodyDef { kind: 1, velocity, spin, ..def },
            Kind::Dynamic(Mass { mass, inertia }) => RawBodyDef { kind: 2, mass, inertia, ..def },
        }
    }
}

/// A joint to be made: each body with its anchor in the body's own axes.
#[derive(Clone, Copy, Debug, PartialEq, Eq)]
pub struct Joint {
    pub a: (BodyId, Vec2),
    pub b: (BodyId, Vec2),
    pub length: i64,
    /// Whether its two bodies collide.
    pub collide: bool,
}

impl Joint {
    /// From centre to centre. Its two bodies don't collide.
    pub fn between(a: BodyId, b: BodyId, length: i64) -> Joint {
        Joint { a: (a, Vec2::default()), b: (b, Vec2::default()), length, collide: false }
    }

    fn of(raw: &RawJointDef) -> Joint {
        Joint { a: (raw.a, raw.from), b: (raw.b, raw.to), length: raw.length, collide: raw.collide != 0 }
    }

    fn raw(&self) -> RawJointDef {
        RawJointDef { a: self.a.0, b: self.b.0, from: self.a.1, to: self.b.1, length: self.length, collide: self.collide.into(), unused: 0 }
    }
}

/// A command of a batch.
#[derive(Clone, Copy, Debug)]
pub enum Command<'a> {
    CreateBody { body: BodyDef, shapes: &'a [Shape] },
    DestroyBody(BodyId),
    CreateJoint(Joint),
    DestroyJoint(JointId),
    Push(BodyId, Vec2),
    PushAt { body: BodyId, by: Vec2, offset: Vec2 },
    SetPose { body: BodyId, at: Vec2, facing: Rot },
    SetVelocity { body: BodyId, velocity: Vec2, spin: i64 },
    SetGravity(Vec2),
    Disable(BodyId),
    Enable(BodyId),
    Wake(BodyId),
    Sleep(BodyId),
    Step(i64),
}

/// What a command of a batch answers.
#[derive(Clone, Copy, Debug, PartialEq, Eq)]
pub enum Reply {
    Body(BodyId),
    Joint(JointId),
    /// The number of the step.
    Step(u64),
    Done,
}

impl Command<'_> {
    /// The command as it lies in a batch, whose shapes its own are added to.
    fn raw(&self, all: &mut Vec<RawShape>) -> RawCommand {
        let of = |kind, id| RawCommand { kind, joint: RawJointDef { a: id, ..RawJointDef::default() }, ..RawCommand::default() };
        let raw = RawCommand::default();
        match *self {
            Command::CreateBody { body, shapes } => {
                let from = all.len();
                all.extend(shapes.iter().map(Shape::raw));
                RawCommand { body: body.raw(), shapes_from: from as u32, shapes_count: shapes.len() as u32, ..raw }
            }
            Command::DestroyBody(body) => of(1, body),
            Command::CreateJoint(joint) => RawCommand { kind: 2, joint: joint.raw(), ..raw },
            Command::DestroyJoint(joint) => of(3, BodyId::unpacked(joint.packed())),
            Command::Push(body, by) => RawCommand { by, ..of(4, body) },
            Command::PushAt { body, by, offset } => RawCommand { by, offset, ..of(5, body) },
            Command::SetPose { body, at, facing } => RawCommand { body: RawBodyDef { at, facing, ..raw.body }, ..of(6, body) },
            Command::SetVelocity { body, velocity, spin } => RawCommand { body: RawBodyDef { velocity, spin, ..raw.body }, ..of(7, body) },
            Command::SetGravity(by) => RawCommand { kind: 8, by, ..raw },
            Command::Disable(body) => of(9, body),
            Command::Enable(body) => of(10, body),
            Command::Wake(body) => of(11, body),
            Command::Sleep(body) => of(12, body),
            Command::Step(ticks) => RawCommand { kind: 13, ticks, ..raw },
        }
    }

    fn reply(&self, answer: &RawAnswer) -> Result<Reply, Refused> {
        outcome(answer.status, 0)?;
        Ok(match self {
            Command::CreateBody { .. } => Reply::Body(answer.made),
            Command::CreateJoint(_) => Reply::Joint(JointId::unpacked(answer.made.packed())),
            Command::Step(_) => Reply::Step(answer.step),
            _ => Reply::Done,
        })
    }
}

/// The set in which a body is.
#[derive(Clone, Copy, Debug, PartialEq, Eq)]
pub enum Set {
    Static,
    Disabled,
    Awake,
    /// With the name of the island with which it sleeps.
    Asleep(u32),
}

/// What kind of body one is.
#[derive(Clone, Copy, Debug, PartialEq, Eq)]
pub enum KindName {
    Static,
    Kinematic,
    Dynamic,
}

/// What a body is.
#[derive(Clone, Copy, Debug, PartialEq, Eq)]
pub struct Info {
    pub kind: KindName,
    pub is_enabled: bool,
    /// Zero but of a dynamic body.
    pub mass: Mass,
    /// How many shapes it has.
    pub shapes: usize,
    /// The name of a mover's island, awake or asleep: its lowest slot.
    pub island: Option<u32>,
}

impl Info {
    fn of(raw: RawInfo) -> Info {
        let kind = [KindName::Static, KindName::Kinematic, KindName::Dynamic][raw.kind as usize % 3];
        let mass = Mass { mass: raw.mass, inertia: raw.inertia };
        Info { kind, is_enabled: raw.enabled != 0, mass, shapes: raw.shapes, island: (raw.island != u32::MAX).then_some(raw.island) }
    }
}

/// What is seen of a joint.
#[derive(Clone, Copy, Debug, PartialEq, Eq)]
pub struct JointView {
    pub joint: Joint,
    /// The impulse that it keeps, in mass·u/tick, above 0 where it pushes its bodies apart.
    pub impulse: i64,
    /// Its colour while it acts, 0 to 23, or 24 in the overflow.
    pub colour: Option<u32>,
}

/// Which shapes a question sees: all but those of one body, and those alone whose category meets a mask.
#[derive(Clone, Copy, Debug, Default, PartialEq, Eq)]
pub struct Filter {
    pub without: Option<BodyId>,
    pub mask: Option<u64>,
}

impl Filter {
    fn raw(&self) -> RawFilter {
        RawFilter { without: self.without.unwrap_or_default(), mask: self.mask.unwrap_or(0), by_mask: self.mask.is_some().into(), unused: 0 }
    }
}

/// What gives the movers momentum.
#[derive(Clone, Copy, Debug, PartialEq, Eq)]
pub enum Cause {
    Commands,
    Gravity,
    Immovable,
    Clamp,
    Rest,
    Departed,
}

/// Two components in mass·u/tick.
fn sum_of(raw: RawSum) -> (i128, i128) {
    let wide = |low: u64, high: i64| i128::from(high) << 64 | i128::from(low);
    (wide(raw.x_low, raw.x_high), wide(raw.y_low, raw.y_high))
}

/// The number of the rules: peers have to have the same.
pub fn rules() -> u32 {
    unsafe { dm_rules() }
}

/// What is seen of a body.
#[derive(Clone, Copy, Debug, PartialEq, Eq)]
pub struct View {
    pub pose: Pose,
    /// The momentum.
    pub p: Vec2,
    /// The angular momentum.
    pub l: i128,
    /// Of a kinematic body.
    pub velocity: Vec2,
    pub spin: i64,
    pub set: Set,
    /// What `set_tag` gave it, or 0.
    pub tag: u64,
}

/// A body of an event, with the tag that it had then.
#[derive(Clone, Copy, Debug, PartialEq, Eq)]
pub struct Tagged {
    pub body: BodyId,
    pub tag: u64,
}

/// What happened in a step.
#[derive(Clone, Copy, Debug, PartialEq, Eq)]
pub enum Happening {
    /// Two shapes began to touch: the contact is as the step left it.
    Begun { first: Tagged, second: Tagged, contact: Contact },
    /// Two shapes ceased to touch.
    Ended { first: Tagged, second: Tagged, pair: Pair },
    Slept(Tagged),
    Woke(Tagged),
}

/// What happened, and in which step.
#[derive(Clone, Copy, Debug, PartialEq, Eq)]
pub struct Event {
    pub step: u64,
    pub happening: Happening,
}

impl Event {
    fn of(raw: &RawEvent) -> Event {
        let first = Tagged { body: raw.first, tag: raw.first_tag };
        let second = Tagged { body: raw.second, tag: raw.second_tag };
        let happening = match raw.kind {
            0 => Happening::Begun { first, second, contact: raw.contact },
            1 => Happening::Ended { first, second, pair: raw.contact.pair },
            2 => Happening::Slept(first),
            _ => Happening::Woke(first),
        };
        Event { step: raw.step, happening }
    }
}

impl View {
    fn of(raw: RawView) -> View {
        let RawView { pose, p, velocity, spin, tag, .. } = raw;
        let l = i128::from(raw.l_high) << 64 | i128::from(raw.l_low);
        let set = match raw.set {
            0 => Set::Static,
            1 => Set::Disabled,
            2 => Set::Awake,
            _ => Set::Asleep(raw.island),
        };
        View { pose, p, l, velocity, spin, set, tag }
    }
}

/// A world of rigid bodies.
pub struct World {
    // (a call that only looks writes here too, for as long as it lasts; no other thread sees it, as the cell isn't `Sync`)
    held: UnsafeCell<Held>,
}

impl World {
    /// An empty world with this gravity, in u/tick².
    pub fn new(gravity: Vec2) -> Result<World, Refused> {
        let world = World::none();
        outcome(unsafe { dm_open(world.raw(), gravity) }, 0)?;
        Ok(world)
    }

    /// The world of a text that `save` made.
    pub fn load(text: &str) -> Result<World, Refused> {
        let world = World::none();
        let mut clause = 0;
        let status = unsafe { dm_load(world.raw(), text.as_ptr(), text.len(), &mut clause) };
        outcome(status, clause)?;
        Ok(world)
    }

    /// A world of its own that is the same. It is no `Clone`, since memory may be refused.
    pub fn try_clone(&self) -> Result<World, Refused> {
        let copied = World::none();
        outcome(unsafe { dm_copy(self.raw(), copied.raw()) }, 0)?;
        Ok(copied)
    }

    fn none() -> World {
        assert_eq!(unsafe { dm_version() }, 1, "libdillmonth is of another version");
        World { held: UnsafeCell::new(Held { at: std::ptr::null_mut() }) }
    }

    fn raw(&self) -> *mut Held {
        self.held.get()
    }

    /// A body with one to eight shapes. Refused where a shape isn't allowed, a number is outside its limit, or no slot is free.
    pub fn create_body(&mut self, body: &BodyDef, shapes: &[Shape]) -> Result<BodyId, Refused> {
        let shapes: Vec<RawShape> = shapes.iter().map(Shape::raw).collect();
        let mut made = BodyId::default();
        outcome(unsafe { dm_create_body(self.raw(), &body.raw(), shapes.as_ptr(), shapes.len(), &mut made) }, 0)?;
        Ok(made)
    }

    /// A joint that holds two points at a distance.
    pub fn create_joint(&mut self, joint: &Joint) -> Result<JointId, Refused> {
        let mut made = JointId::default();
        outcome(unsafe { dm_create_joint(self.raw(), &joint.raw(), &mut made) }, 0)?;
        Ok(made)
    }

    /// Takes a body away, with its joints. Its contacts end untold.
    pub fn destroy_body(&mut self, body: BodyId) -> Result<(), Refused> {
        outcome(unsafe { dm_destroy_body(self.raw(), body) }, 0)
    }

    pub fn destroy_joint(&mut self, joint: JointId) -> Result<(), Refused> {
        outcome(unsafe { dm_destroy_joint(self.raw(), joint) }, 0)
    }

    /// An impulse in mass·u/tick on a dynamic body, which wakes.
    pub fn push(&mut self, body: BodyId, by: Vec2) -> Result<(), Refused> {
        outcome(unsafe { dm_push(self.raw(), body, by) }, 0)
    }

    /// An impulse at an offset from the body's centre.
    pub fn push_at(&mut self, body: BodyId, by: Vec2, offset: Vec2) -> Result<(), Refused> {
        outcome(unsafe { dm_push_at(self.raw(), body, by, offset) }, 0)
    }

    /// Sets a body somewhere else.
    pub fn set_pose(&mut self, body: BodyId, at: Vec2, facing: Rot) -> Result<(), Refused> {
        outcome(unsafe { dm_set_pose(self.raw(), body, at, facing) }, 0)
    }

    /// Sets the velocity and the spin of a kinematic body.
    pub fn set_velocity(&mut self, body: BodyId, velocity: Vec2, spin: i64) -> Result<(), Refused> {
        outcome(unsafe { dm_set_velocity(self.raw(), body, velocity, spin) }, 0)
    }

    /// Gives a dynamic body a velocity, by one push.
    pub fn push_to(&mut self, body: BodyId, velocity: Vec2) -> Result<(), Refused> {
        outcome(unsafe { dm_push_to(self.raw(), body, velocity) }, 0)
    }

    /// Gives a dynamic body an angular impulse, in mass·u²/tick: a push beside its centre, and the opposite one at it. Up to 2^40 it is met, up to 2^60 to the
    /// nearest 2^20. `NoMemory` and `WornOut` may come between the two, and the first one then stays.
    pub fn twist(&mut self, body: BodyId, by: i64) -> Result<(), Refused> {
        outcome(unsafe { dm_twist(self.raw(), body, by) }, 0)
    }

    /// Gives a dynamic body a spin, by a twist.
    pub fn twist_to(&mut self, body: BodyId, spin: i64) -> Result<(), Refused> {
        outcome(unsafe { dm_twist_to(self.raw(), body, spin) }, 0)
    }

    /// Gives a kinematic body the course that leads it to a pose in a step of so many ticks, which it keeps after that step.
    pub fn set_target(&mut self, body: BodyId, at: Vec2, facing: Rot, ticks: i64) -> Result<(), Refused> {
        outcome(unsafe { dm_set_target(self.raw(), body, at, facing, ticks) }, 0)
    }

    /// The velocity and the spin of a body, whatever its kind; `None` where the id names none.
    pub fn motion(&self, body: BodyId) -> Option<Course> {
        let mut course = Course::default();
        let status = unsafe { dm_motion(self.raw(), body, &mut course) };
        (status == 0).then_some(course)
    }

    /// Drops the events that were kept; from now on those of each step are kept, or none are.
    pub fn clear_events(&mut self, keeps: bool) {
        unsafe { dm_events_clear(self.raw(), keeps.into()) };
    }

    /// The events of all steps since `clear_events`, step by step. They stay.
    pub fn events(&self) -> Result<Vec<Event>, Refused> {
        let mut raw = vec![RawEvent::default(); 32];
        let mut count = 0;
        outcome(unsafe { dm_events(self.raw(), raw.as_mut_ptr(), raw.len(), &mut count) }, 0)?;
        if count > raw.len() {
            raw.resize(count, RawEvent::default());
            outcome(unsafe { dm_events(self.raw(), raw.as_mut_ptr(), raw.len(), &mut count) }, 0)?;
        }
        Ok(raw[..count].iter().map(Event::of).collect())
    }

    /// Gives a body a number of the program's own, which its view and its events have. No save and no digest has it.
    pub fn set_tag(&mut self, body: BodyId, tag: u64) -> Result<(), Refused> {
        outcome(unsafe { dm_set_tag(self.raw(), body, tag) }, 0)
    }

    /// The tag of a body, or 0.
    pub fn tag(&self, body: BodyId) -> u64 {
        unsafe { dm_tag(self.raw(), body) }
    }

    pub fn set_gravity(&mut self, gravity: Vec2) -> Result<(), Refused> {
        outcome(unsafe { dm_set_gravity(self.raw(), gravity) }, 0)
    }

    /// Takes a body out of the world for a while.
    pub fn disable(&mut self, body: BodyId) -> Result<(), Refused> {
        outcome(unsafe { dm_disable(self.raw(), body) }, 0)
    }

    pub fn enable(&mut self, body: BodyId) -> Result<(), Refused> {
        outcome(unsafe { dm_enable(self.raw(), body) }, 0)
    }

    /// Wakes the island of a dynamic body.
    pub fn wake(&mut self, body: BodyId) -> Result<(), Refused> {
        outcome(unsafe { dm_wake(self.raw(), body) }, 0)
    }

    /// Puts the island of a dynamic body to sleep.
    pub fn sleep(&mut self, body: BodyId) -> Result<(), Refused> {
        outcome(unsafe { dm_sleep(self.raw(), body) }, 0)
    }

    /// Lets 1 to 8 ticks pass, settles what was booked, and answers the number of the step.
    pub fn step(&mut self, ticks: i64) -> Result<u64, Refused> {
        let mut step = 0;
        outcome(unsafe { dm_step(self.raw(), ticks, &mut step) }, 0)?;
        self.settle();
        Ok(step)
    }

    /// Sums up what was booked, so that no memory is kept for it. `step` and `apply_all` do it.
    pub fn settle(&mut self) {
        unsafe { dm_settle(self.raw()) };
    }

    /// Does commands one after another, and answers each. A refused one changes nothing, and the next one follows.
    pub fn apply_all(&mut self, commands: &[Command]) -> Vec<Result<Reply, Refused>> {
        let mut shapes = Vec::new();
        let raw: Vec<RawCommand> = commands.iter().map(|command| command.raw(&mut shapes)).collect();
        let mut answers = vec![RawAnswer::default(); raw.len()];
        unsafe { dm_apply_all(self.raw(), raw.as_ptr(), raw.len(), shapes.as_ptr(), shapes.len(), answers.as_mut_ptr(), answers.len()) };
        self.settle();
        commands.iter().zip(&answers).map(|(command, answer)| command.reply(answer)).collect()
    }

    /// One command as it lies in a batch, of these shapes.
    fn apply_raw(&mut self, raw: &RawCommand, shapes: &[RawShape]) -> Result<RawAnswer, Refused> {
        let mut answer = RawAnswer::default();
        match unsafe { dm_apply_all(self.raw(), raw, 1, shapes.as_ptr(), shapes.len(), &mut answer, 1) } {
            1 => Ok(answer),
            _ => Err(Refused::NoWorld),
        }
    }

    /// Writes a list over another, whose room is used again.
    fn fill<T: Clone + Default>(&self, items: &mut Vec<T>, read: unsafe extern "C" fn(*mut Held, *mut T, usize) -> usize) {
        if items.len() < 32 {
            items.resize(32, T::default());
        }
        let count = unsafe { read(self.raw(), items.as_mut_ptr(), items.len()) };
        if count > items.len() {
            items.resize(count, T::default());
            unsafe { read(self.raw(), items.as_mut_ptr(), count) };
        }
        items.truncate(count);
    }

    fn all<T: Clone + Default>(&self, read: unsafe extern "C" fn(*mut Held, *mut T, usize) -> usize) -> Vec<T> {
        let mut items = Vec::new();
        self.fill(&mut items, read);
        items
    }

    /// The poses of all bodies, by slot.
    pub fn poses(&self) -> Vec<Pose> {
        self.all(dm_poses)
    }

    /// The same into a list that is kept, for a loop that draws.
    pub fn poses_into(&self, poses: &mut Vec<Pose>) {
        self.fill(poses, dm_poses);
    }

    /// The poses of those bodies that a step may move: awake dynamic ones, and kinematic ones.
    pub fn moved(&self) -> Vec<Pose> {
        self.all(dm_moved)
    }

    /// The same into a list that is kept.
    pub fn moved_into(&self, poses: &mut Vec<Pose>) {
        self.fill(poses, dm_moved);
    }

    /// The pairs of shapes that began to touch in the last step.
    pub fn begun(&self) -> Vec<Pair> {
        self.all(dm_begun)
    }

    /// The pairs of shapes that ceased to touch in the last step.
    pub fn ended(&self) -> Vec<Pair> {
        self.all(dm_ended)
    }

    /// The bodies that fell asleep in the last step.
    pub fn slept(&self) -> Vec<BodyId> {
        self.all(dm_slept)
    }

    /// The bodies that woke in the last step.
    pub fn woke(&self) -> Vec<BodyId> {
        self.all(dm_woke)
    }

    /// The contacts of near shapes.
    pub fn contacts(&self) -> Result<Vec<Contact>, Refused> {
        let mut count = 0;
        outcome(unsafe { dm_contacts(self.raw(), &mut count) }, 0)?;
        Ok(self.all(dm_contacts_listed))
    }

    /// The shapes whose boxes meet a box.
    pub fn region(&self, bounds: Box2) -> Result<Vec<ShapeId>, Refused> {
        let mut count = 0;
        outcome(unsafe { dm_region(self.raw(), &bounds, &mut count) }, 0)?;
        Ok(self.all(dm_region_found))
    }

    /// The first shape on a way, and how far along it, in 2^24ths.
    pub fn ray(&self, from: Vec2, along: Vec2) -> Result<Option<(ShapeId, u32)>, Refused> {
        let mut hit = RawHit::default();
        outcome(unsafe { dm_ray(self.raw(), from, along, &mut hit) }, 0)?;
        Ok((hit.is_hit != 0).then(|| (hit.shape, hit.fraction)))
    }

    /// The same through a filter.
    pub fn ray_through(&self, from: Vec2, along: Vec2, filter: &Filter) -> Result<Option<(ShapeId, u32)>, Refused> {
        let mut hit = RawHit::default();
        outcome(unsafe { dm_ray_through(self.raw(), from, along, &filter.raw(), &mut hit) }, 0)?;
        Ok((hit.is_hit != 0).then(|| (hit.shape, hit.fraction)))
    }

    /// What a ray hits of one shape, as it lies now: the point and the normal of a hit. `None` where it misses; refused where there is no such shape.
    pub fn ray_on(&self, shape: ShapeId, from: Vec2, along: Vec2) -> Result<Option<ShapeHit>, Refused> {
        let mut hit = RawShapeHit::default();
        outcome(unsafe { dm_ray_on_shape(self.raw(), from, along, shape, &mut hit) }, 0)?;
        Ok((hit.is_hit != 0).then(|| ShapeHit { fraction: hit.fraction, point: hit.point, normal: hit.normal }))
    }

    /// All that a ray hits, the nearest first. A way of zero hits the shapes that the start lies in.
    pub fn all_hits(&self, from: Vec2, along: Vec2, filter: &Filter) -> Result<Vec<(ShapeId, u32)>, Refused> {
        let mut count = 0;
        outcome(unsafe { dm_ray_all(self.raw(), from, along, &filter.raw(), &mut count) }, 0)?;
        Ok(self.all(dm_hits_found).iter().map(|hit| (hit.shape, hit.fraction)).collect())
    }

    /// The shapes whose boxes meet a box, through a filter.
    pub fn region_through(&self, bounds: Box2, filter: &Filter) -> Result<Vec<ShapeId>, Refused> {
        let mut count = 0;
        outcome(unsafe { dm_region_through(self.raw(), &bounds, &filter.raw(), &mut count) }, 0)?;
        Ok(self.all(dm_region_found))
    }

    /// What a body has, by a call that counts it and writes what fits.
    fn all_of<T: Clone + Default>(&self, body: BodyId, read: unsafe extern "C" fn(*mut Held, BodyId, *mut T, usize, *mut usize) -> u32) -> Result<Vec<T>, Refused> {
        let mut items = vec![T::default(); 32];
        let mut count = 0;
        outcome(unsafe { read(self.raw(), body, items.as_mut_ptr(), items.len(), &mut count) }, 0)?;
        if count > items.len() {
            items.resize(count, T::default());
            outcome(unsafe { read(self.raw(), body, items.as_mut_ptr(), items.len(), &mut count) }, 0)?;
        }
        items.truncate(count);
        Ok(items)
    }

    /// What a body is; `None` where the id names none.
    pub fn info(&self, body: BodyId) -> Option<Info> {
        let mut info = RawInfo::default();
        let status = unsafe { dm_info(self.raw(), body, &mut info) };
        (status == 0).then(|| Info::of(info))
    }

    /// The shapes of a body.
    pub fn shapes(&self, body: BodyId) -> Result<Vec<Shape>, Refused> {
        Ok(self.all_of(body, dm_shapes)?.iter().map(Shape::of).collect())
    }

    /// The joints of a body, by slot.
    pub fn joints_of(&self, body: BodyId) -> Result<Vec<JointId>, Refused> {
        self.all_of(body, dm_joints_of)
    }

    /// The contacts of a body.
    pub fn contacts_of(&self, body: BodyId) -> Result<Vec<Contact>, Refused> {
        self.all_of(body, dm_contacts_of)
    }

    /// The colour of a contact while it acts, 0 to 23, or 24 in the overflow.
    pub fn colour_of(&self, pair: Pair) -> Option<u32> {
        let colour = unsafe { dm_colour_of(self.raw(), pair.first, pair.second) };
        (colour != u32::MAX).then_some(colour)
    }

    /// All joints, by slot.
    pub fn joints(&self) -> Vec<JointId> {
        self.all(dm_joints)
    }

    /// What is seen of a joint; `None` where the id names none.
    pub fn joint(&self, joint: JointId) -> Option<JointView> {
        let mut view = RawJointView::default();
        let status = unsafe { dm_joint(self.raw(), joint, &mut view) };
        let colour = (view.colour != u32::MAX).then_some(view.colour);
        (status == 0).then(|| JointView { joint: Joint::of(&view.def), impulse: view.impulse, colour })
    }

    /// The id of the body in a slot, as a pair of shapes names it.
    pub fn body_in(&self, slot: u32) -> Option<BodyId> {
        let body = unsafe { dm_body_in(self.raw(), slot) };
        (body != BodyId::default()).then_some(body)
    }

    /// The id of the joint in a slot.
    pub fn joint_in(&self, slot: u32) -> Option<JointId> {
        let joint = unsafe { dm_joint_in(self.raw(), slot) };
        (joint != JointId::default()).then_some(joint)
    }

    /// How much there is.
    pub fn count(&self) -> Result<Counts, Refused> {
        let mut counts = Counts::default();
        outcome(unsafe { dm_count(self.raw(), &mut counts) }, 0)?;
        Ok(counts)
    }

    /// What a cause has given the movers, in mass·u/tick.
    pub fn total_of(&self, cause: Cause) -> (i128, i128) {
        let mut sum = RawSum::default();
        unsafe { dm_total_of(self.raw(), cause as u32, &mut sum) };
        sum_of(sum)
    }

    /// What all causes have given them: the movers' momentum.
    pub fn total(&self) -> (i128, i128) {
        let mut sum = RawSum::default();
        unsafe { dm_total(self.raw(), &mut sum) };
        sum_of(sum)
    }

    /// What is seen of a body; `None` where the id names none.
    pub fn body(&self, body: BodyId) -> Option<View> {
        let mut view = RawView::default();
        let status = unsafe { dm_body(self.raw(), body, &mut view) };
        (status == 0).then(|| View::of(view))
    }

    /// How many steps were accepted.
    pub fn steps(&self) -> u64 {
        unsafe { dm_steps(self.raw()) }
    }

    pub fn gravity(&self) -> Vec2 {
        unsafe { dm_gravity(self.raw()) }
    }

    /// What it shows now, for readers in other threads.
    pub fn frame(&self) -> Result<Frame, Refused> {
        let mut frame = Frame { held: HeldFrame { at: std::ptr::null_mut() } };
        outcome(unsafe { dm_frame_take(self.raw(), &mut frame.held) }, 0)?;
        Ok(frame)
    }

    /// The world as a text of JSON.
    pub fn save(&self) -> Result<String, Refused> {
        let mut count = 0;
        outcome(unsafe { dm_save(self.raw(), &mut count) }, 0)?;
        let mut text = vec![0; count];
        unsafe { dm_saved(self.raw(), text.as_mut_ptr(), count) };
        String::from_utf8(text).map_err(|_| Refused::BadText)
    }

    /// Worlds with the same plain lists, counts and totals have the same digest.
    pub fn digest(&self) -> Result<[u8; 32], Refused> {
        let mut digest = [0; 32];
        outcome(unsafe { dm_digest(self.raw(), digest.as_mut_ptr(), 32) }, 0)?;
        Ok(digest)
    }
}

impl Drop for World {
    fn drop(&mut self) {
        unsafe { dm_close(self.raw()) };
    }
}

/// What a world shows at one moment: `World::frame` takes one. It never changes, and outlives the world. Any number of threads may read one at once, with no lock,
/// also while the world steps: an `Arc` shares it, or a scope's borrow.
pub struct Frame {
    held: HeldFrame,
}

// The library says that a frame may go to another thread, and that calls which read one may be at once: they write nothing to it.
unsafe impl Send for Frame {}
unsafe impl Sync for Frame {}

impl Frame {
    /// Where an enabled body was; `None` where the id named none.
    pub fn pose(&self, body: BodyId) -> Option<Pose> {
        let mut pose = Pose::default();
        let status = unsafe { dm_frame_pose(self.held, body, &mut pose) };
        (status == 0).then(|| pose)
    }

    /// The first shape that a ray would have hit, and how far along the way, in 2^24ths.
    pub fn ray(&self, from: Vec2, along: Vec2) -> Result<Option<(ShapeId, u32)>, Refused> {
        let mut hit = RawHit::default();
        outcome(unsafe { dm_frame_ray(self.held, from, along, &mut hit) }, 0)?;
        Ok((hit.is_hit != 0).then(|| (hit.shape, hit.fraction)))
    }

    /// The shapes whose boxes met a box, ascending.
    pub fn region(&self, bounds: Box2) -> Result<Vec<ShapeId>, Refused> {
        let (mut found, mut count) = (vec![ShapeId::default(); 32], 0);
        outcome(unsafe { dm_frame_region(self.held, &bounds, found.as_mut_ptr(), found.len(), &mut count) }, 0)?;
        if count > found.len() {
            found.resize(count, ShapeId::default());
            outcome(unsafe { dm_frame_region(self.held, &bounds, found.as_mut_ptr(), found.len(), &mut count) }, 0)?;
        }
        found.truncate(count);
        Ok(found)
    }

    /// What all causes had given the movers: their momentum.
    pub fn total(&self) -> (i128, i128) {
        let mut sum = RawSum::default();
        unsafe { dm_frame_total(self.held, &mut sum) };
        sum_of(sum)
    }

    /// How many calls the world had accepted.
    pub fn calls(&self) -> u64 {
        unsafe { dm_frame_calls(self.held) }
    }
}

impl Drop for Frame {
    fn drop(&mut self) {
        unsafe { dm_frame_drop(&mut self.held) };
    }
}

/// The calls that a world accepted since it was opened, from which it can be made again: each command of the world goes by `apply`.
#[derive(Clone, Debug)]
pub struct Journal {
    gravity: Vec2,
    commands: Vec<RawCommand>,
    shapes: Vec<RawShape>,
}

impl Journal {
    /// An empty world with this gravity, and its journal.
    pub fn open(gravity: Vec2) -> Result<(World, Journal), Refused> {
        Ok((World::new(gravity)?, Journal { gravity, commands: Vec::new(), shapes: Vec::new() }))
    }

    /// Applies a command, and keeps it where it is accepted.
    pub fn apply(&mut self, world: &mut World, command: &Command) -> Result<Reply, Refused> {
        let before = self.shapes.len();
        let raw = command.raw(&mut self.shapes);
        let reply = world.apply_raw(&raw, &self.shapes).and_then(|answer| command.reply(&answer));
        match reply {
            Ok(_) => self.commands.push(raw),
            Err(_) => self.shapes.truncate(before),
        }
        reply
    }

    /// How many calls there are.
    pub fn len(&self) -> usize {
        self.commands.len()
    }

    pub fn is_empty(&self) -> bool {
        self.commands.is_empty()
    }

    /// A world with the same digest.
    pub fn replay(&self) -> Result<World, Refused> {
        let mut world = World::new(self.gravity)?;
        for raw in &self.commands {
            outcome(world.apply_raw(raw, &self.shapes)?.status, 0)?;
            world.settle();
        }
        Ok(world)
    }
}
