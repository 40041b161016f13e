//! Reads a scene of compact lines, applies it, and prints the processor time of its steps, of its rays and of its regions.
//!
//! `--each` prints that of each step, in nanoseconds; `--sum` prints a number over all motions and events after each step, and
//! over what rays and regions found. Rays that follow one another are asked together, and so are regions, with `--rounds=N`
//! N times, of which the least time counts.

mod steps;

use contacts_base::ShapeId;
use fixed_geom::Box2;
use shim::Global;
use std::io::Read;
use std::str::FromStr;
use world_core::*;
use world_queries::Hit;

/// The numbers of a line, by their place.
struct Line<'a>(Vec<&'a str>);

impl Line<'_> {
    fn at<T: FromStr>(&self, place: usize) -> T {
        self.0[place].parse().unwrap_or_else(|_| panic!("no number at place {place}: {:?}", self.0))
    }

    fn vector(&self, place: usize) -> Vec2 {
        Vec2 { x: self.at(place), y: self.at(place + 1) }
    }

    fn handle(&self, place: usize) -> Handle {
        Handle { slot: self.at(place), generation: self.at(place + 1) }
    }

    fn shape(&self) -> Shape {
        match self.0[6] {
            "circle" => Shape::Circle { center: self.vector(8), radius: self.at(10) },
            "segment" => Shape::Segment { first: self.vector(8), second: self.vector(10) },
            _ => Shape::Capsule { first: self.vector(8), second: self.vector(10), radius: self.at(12) },
        }
    }

    fn body(&self) -> BodyDef {
        let mut shapes = Shapes::new(Global);
        let _ = shapes.push(ShapeDef { shape: self.shape(), friction: self.at(7), ..ShapeDef::default() });
        BodyDef {
            kind: if self.0[1] == "dynamic" { Kind::Dynamic } else { Kind::Static },
            mass: MassData { mass: self.at(2), inertia: self.at(3) },
            x: self.vector(4),
            rot: Rot { c: 1 << 30, s: 0 },
            shapes,
        }
    }

    fn joint(&self) -> JointDef {
        JointDef {
            a: self.handle(1),
            b: self.handle(3),
            from: self.vector(5),
            to: self.vector(7),
            length: self.at(9),
            collide: self.at::<u8>(10) != 0,
        }
    }

    fn command(&self) -> Command {
        match self.0[0] {
            "g" => Command::SetGravity(self.vector(1)),
            "c" => Command::CreateBody(self.body()),
            "j" => Command::CreateJoint(self.joint()),
            "x" => Command::DestroyBody(self.handle(1)),
            "p" => Command::Push(self.handle(1), self.vector(3)),
            "D" => Command::Disable(self.handle(1)),
            "E" => Command::Enable(self.handle(1)),
            "z" => Command::Sleep(self.handle(1)),
            "s" => Command::Step(self.at(1)),
            _ => panic!("no such line: {:?}", self.0),
        }
    }
}

#[repr(C)]
struct Time {
    seconds: i64,
    nanoseconds: i64,
}

unsafe extern "C" {
    fn clock_gettime(clock: i32, time: *mut Time) -> i32;
}

/// The time by a clock of the system, in nanoseconds.
fn time_by(clock: i32) -> i64 {
    let mut time = Time { seconds: 0, nanoseconds: 0 };
    unsafe { clock_gettime(clock, &mut time) };
    time.seconds * 1_000_000_000 + time.nanoseconds
}

/// The processor time of this thread, in nanoseconds.
fn processor_time() -> i64 {
    time_by(3)
}

const PRIME: u64 = 0x100000001b3;

/// A number over all motions, and over how many contacts began and ended.
fn mixed(mut sum: u64, world: &WorldCore) -> u64 {
    for (slot, body) in world.bodies().iter().enumerate() {
        if let Some(body) = body {
            let m = &body.motion;
            for number in [m.x.x, m.x.y, m.p.x, m.p.y, m.rot.c, slot as i64] {
                sum = (sum ^ number as u64).wrapping_mul(PRIME).rotate_left(7);
            }
        }
    }
    let events = world.events();
    (sum ^ (events.begin().len() as u64 * 65_537 + events.end().len() as u64)).wrapping_mul(PRIME)
}

/// A number over where a ray hit.
fn mixed_hit(sum: u64, hit: Option<Hit>) -> u64 {
    let number = hit.map_or(0, |hit| 1 + u64::from(hit.fraction) * 65_536 + u64::from(hit.shape.slot));
    (sum ^ number).wrapping_mul(PRIME).rotate_left(7)
}

/// A number over which shapes a region has.
fn mixed_shapes(sum: u64, found: &[ShapeId]) -> u64 {
    let add = |sum: u64, id: &ShapeId| (sum ^ (u64::from(id.slot) * 8 + u64::from(id.index))).wrapping_mul(PRIME).rotate_left(7);
    found.iter().fold(sum.wrapping_add(found.len() as u64), add)
}

// Not inlined, so that the instructions of these two can be counted alone: `--toggle-collect='drive::ask_ray'`.
#[inline(never)]
fn ask_ray(world: &WorldCore, ray: &(Vec2, Vec2)) -> Option<Hit> {
    world_queries::ray(world, ray.0, ray.1)
}

#[inline(never)]
fn ask_region(world: &WorldCore, bounds: &Box2) -> shim::Vec<ShapeId> {
    world_queries::region(Global, world, bounds).expect("memory for what is found")
}

/// Rays of a scene, or regions: those that wait to be asked, how many were asked, the time that they took, and a number over
/// what they found.
struct Asked<Q> {
    waiting: Vec<Q>,
    count: usize,
    time: i64,
    sum: u64,
}

impl<Q> Asked<Q> {
    fn new() -> Self {
        Asked { waiting: Vec::new(), count: 0, time: 0, sum: 0 }
    }

    fn ask(&mut self, rounds: usize, answer: impl Fn(u64, &Q) -> u64) {
        let mut least = i64::MAX;
        let before = self.sum;
        for _ in 0..rounds {
            let start = processor_time();
            self.sum = self.waiting.iter().fold(before, &answer);
            least = least.min(processor_time() - start);
        }
        if !self.waiting.is_empty() {
            self.time += least;
            self.count += self.waiting.len();
            self.waiting.clear();
        }
    }

    fn print(&self, name: &str) {
        if self.count > 0 {
            print!("; {name}: {}, mean {:.0} ns", self.count, self.time as f64 / self.count as f64);
        }
    }
}

/// What a scene asks.
struct Questions {
    rays: Asked<(Vec2, Vec2)>,
    regions: Asked<Box2>,
    rounds: usize,
}

impl Questions {
    fn new() -> Self {
        let rounds = std::env::args().find_map(|word| word.strip_prefix("--rounds=")?.parse().ok()).unwrap_or(1);
        Questions { rays: Asked::new(), regions: Asked::new(), rounds }
    }

    /// Whether the line is a question, which then waits.
    fn takes(&mut self, line: &Line) -> bool {
        match line.0[0] {
            "r" => self.rays.waiting.push((line.vector(1), line.vector(3))),
            "q" => self.regions.waiting.push(Box2 { lo: line.vector(1), hi: line.vector(3) }),
            _ => return false,
        }
        true
    }

    /// Asks all that wait.
    fn ask(&mut self, world: &WorldCore) {
        self.rays.ask(self.rounds, |sum, ray| mixed_hit(sum, ask_ray(world, ray)));
        self.regions.ask(self.rounds, |sum, bounds| mixed_shapes(sum, &ask_region(world, bounds)));
    }
}

/// Does it, and gives the processor time that it took; by workers the time that has passed.
fn timed<T>(work: impl FnOnce() -> T) -> i64 {
    const THAT_PASSES: i32 = 1;
    let time = || if steps::are_by_clock() { time_by(THAT_PASSES) } else { processor_time() };
    let before = time();
    let _ = work();
    time() - before
}

fn run(text: &str, stepper: &mut steps::Stepper) {
    let asks = |word: &str| std::env::args().any(|given| given == word);
    let (each, summed) = (asks("--each"), asks("--sum"));
    let mut world = WorldCore::new(Global, Vec2 { x: 0, y: 0 }).expect("an empty world");
    let (mut others, mut sum, mut steps, mut questions) = (0, 0, Vec::new(), Questions::new());
    for line in text.lines() {
        let line = Line(line.split(' ').collect());
        if questions.takes(&line) {
            continue;
        }
        questions.ask(&world);
        let command = line.command();
        if let Command::Step(ticks) = command {
            let time = timed(|| stepper(&mut world, ticks));
            steps.push(time);
            if each {
                println!("{time}");
            }
            if summed {
                sum = mixed(sum, &world);
            }
        } else {
            others += timed(|| world.apply(&command));
        }
    }
    questions.ask(&world);
    let mean = steps.iter().sum::<i64>() as f64 / 1e3 / steps.len().max(1) as f64;
    let least = steps.iter().copied().min().unwrap_or(0) as f64 / 1e3;
    print!("steps: {}, mean {mean:.1} us, least {least:.1} us; other commands: {:.2} s", steps.len(), others as f64 / 1e9);
    questions.rays.print("rays");
    questions.regions.print("regions");
    println!("{}", if summed { format!("; sum {:x}", sum ^ questions.rays.sum ^ questions.regions.sum) } else { String::new() });
}

fn main() {
    let mut text = String::new();
    std::io::stdin().read_to_string(&mut text).expect("standard input can be read");
    steps::with_steps(&mut |stepper| run(&text, stepper));
}
