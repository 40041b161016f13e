//! Stands for the crate `crew`, whose mailboxes need the kit's queues: the same calls, the same waits, and a lock for each mailbox.

use shim::{Arc, Global, Scope, Threads, Vec, Wait};
use std::sync::atomic::{AtomicU64, Ordering};
use std::sync::{Condvar, Mutex};
use std::thread::JoinHandle;
use std::{hint, thread};

/// The round in which the crew ends.
const OVER: u64 = u64::MAX;

/// How often a thread looks before it sleeps, or lets others run, as in the crate.
const LOOKS: u32 = 2_000;

pub trait Gate {
    fn enter<R: Wait>(&self, rt: &R, piece: usize, of: usize);
}

#[derive(Clone, Copy)]
pub struct OpenGate;

impl Gate for OpenGate {
    fn enter<R: Wait>(&self, _: &R, _: usize, _: usize) {}
}

pub trait Work {
    type Item;
    type Out;
    fn work<R: Wait>(&self, rt: &R, item: Self::Item) -> Self::Out;
}

/// A piece of a map. Its answers are there once it was entered.
struct Slip<W: Work> {
    work: Arc<W>,
    entered: bool,
    items: Vec<W::Item>,
    answers: Vec<W::Out>,
}

impl<W: Work> Slip<W> {
    fn worked<R: Wait>(mut self, rt: &R) -> Slip<W> {
        if !self.entered {
            self.entered = true;
            for item in std::mem::replace(&mut self.items, Vec::new(Global)) {
                let _ = self.answers.push(self.work.work(rt, item));
            }
        }
        self
    }
}

/// The mailbox of a piece. The word is 1 while a slip lies there that nobody has begun.
struct Post<W: Work> {
    open: AtomicU64,
    slip: Mutex<Option<Slip<W>>>,
}

impl<W: Work> Post<W> {
    fn put(&self, slip: Slip<W>) {
        *self.slip.lock().expect("no thread has panicked") = Some(slip);
    }

    fn get(&self) -> Option<Slip<W>> {
        self.slip.try_lock().ok().and_then(|mut slip| slip.take())
    }

    fn work<R: Wait>(&self, rt: &R) {
        if self.open.load(Ordering::SeqCst) != 0 && self.open.swap(0, Ordering::SeqCst) != 0 {
            let slip = self.slip.lock().expect("no thread has panicked").take();
            if let Some(slip) = slip {
                self.put(slip.worked(rt));
            }
        }
    }
}

/// Counts the maps, and wakes the workers that sleep until the next one.
struct Bell {
    round: AtomicU64,
    asleep: AtomicU64,
    lock: Mutex<()>,
    rung: Condvar,
}

impl Bell {
    fn ring(&self, round: u64) {
        self.round.store(round, Ordering::SeqCst);
        if self.asleep.load(Ordering::SeqCst) != 0 {
            drop(self.lock.lock().expect("no thread has panicked"));
            self.rung.notify_all();
        }
    }

    fn wait_past(&self, seen: u64, word: &AtomicU64) -> u64 {
        for _ in 0..LOOKS {
            let now = self.round.load(Ordering::SeqCst);
            if now != seen || word.load(Ordering::SeqCst) != 0 {
                return now;
            }
            hint::spin_loop();
        }
        self.asleep.fetch_add(1, Ordering::SeqCst);
        let mut held = self.lock.lock().expect("no thread has panicked");
        while self.round.load(Ordering::SeqCst) == seen {
            held = self.rung.wait(held).expect("no thread has panicked");
        }
        self.asleep.fetch_sub(1, Ordering::SeqCst);
        self.round.load(Ordering::SeqCst)
    }
}

pub struct Crew<'s, G, W: Work> {
    gate: &'s G,
    bell: std::sync::Arc<Bell>,
    round: u64,
    posts: std::vec::Vec<std::sync::Arc<Post<W>>>,
    threads: std::vec::Vec<JoinHandle<()>>,
}

/// The value, once nobody else has it.
pub fn sole<R: Wait, T>(_: &R, shared: Arc<T>) -> T {
    let mut shared = shared;
    loop {
        match Arc::try_unwrap(shared) {
            Ok(value) => return value,
            Err(back) => shared = back,
        }
        thread::yield_now();
    }
}

impl<'s, G: Gate, W: Work> Crew<'s, G, W> {
    /// Takes the items out, a piece of one item each, and adds the answers in their order. The caller works the first piece, and then those
    /// that no worker has begun.
    pub fn map_with<R: Wait>(&mut self, rt: &R, work: &Arc<W>, items: &mut Vec<W::Item>, out: &mut Vec<W::Out>) {
        let helped = self.posts.len().min(items.len().saturating_sub(1));
        let posts = &self.posts[..helped];
        for post in posts.iter().rev() {
            let mut own = Vec::new(Global);
            let _ = own.push(items.pop().expect("there are items enough"));
            let work = Arc::try_clone(work).expect("memory is never refused");
            post.put(Slip { work, entered: false, items: own, answers: Vec::new(Global) });
            post.open.store(1, Ordering::SeqCst);
        }
        self.round += 1;
        self.bell.ring(self.round);
        self.gate.enter(rt, 0, posts.len() + 1);
        for item in std::mem::replace(items, Vec::new(Global)) {
            let _ = out.push(work.work(rt, item));
        }
        let mut back: std::vec::Vec<Option<Slip<W>>> = posts.iter().map(|_| None).collect();
        let mut looks = 0;
        while back.iter().any(|slip| slip.is_none()) {
            for (post, slip) in posts.iter().zip(&mut back).rev() {
                if slip.is_none() {
                    *slip = post.get().map(|slip| slip.worked(rt));
                }
            }
            if looks < LOOKS {
                hint::spin_loop();
                looks += 1;
            } else {
                thread::yield_now();
            }
        }
        for slip in back.into_iter().flatten() {
            for answer in slip.answers {
                let _ = out.push(answer);
            }
        }
    }

    pub fn end<R: Threads>(self, _: &R) {
        self.bell.ring(OVER);
        for thread in self.threads {
            thread.join().expect("no thread has panicked");
        }
    }
}

/// How a crew is made.
#[derive(Clone, Copy)]
pub struct CrewDef {
    pub workers: usize,
    pub least: usize,
    pub room: usize,
}

/// Starts a crew of the caller and `def.workers` - 1 threads.
pub fn start<'s, E, R: Threads + Wait + Sync, G: Gate + Sync, W: Work + Send + Sync + 's>(
    _: &Scope<'s, E>,
    rt: &'s R,
    _: Global,
    gate: &'s G,
    def: CrewDef,
) -> Result<Crew<'s, G, W>, fixed_geom::Refusal>
where
    W::Item: Send + 's,
    W::Out: Send + 's,
{
    if def.workers == 0 || def.workers > 64 {
        return Err(fixed_geom::Refusal::OutOfRange);
    }
    let (round, asleep) = (AtomicU64::new(0), AtomicU64::new(0));
    let bell = std::sync::Arc::new(Bell { round, asleep, lock: Mutex::new(()), rung: Condvar::new() });
    let post = || std::sync::Arc::new(Post { open: AtomicU64::new(0), slip: Mutex::new(None) });
    let posts: std::vec::Vec<_> = (1..def.workers).map(|_| post()).collect();
    let mut threads = std::vec::Vec::new();
    for first in 0..posts.len() {
        let (bell, mut posts) = (bell.clone(), posts.clone());
        posts.rotate_left(first);
        let serve = move || {
            let mut seen = 0;
            loop {
                seen = bell.wait_past(seen, &posts[0].open);
                if seen == OVER {
                    return;
                }
                for post in &posts {
                    post.work(rt);
                }
            }
        };
        // `end` joins the thread before what it borrows goes.
        let thread = unsafe { thread::Builder::new().spawn_unchecked(serve) };
        threads.push(thread.map_err(|_| fixed_geom::Refusal::NoThread)?);
    }
    Ok(Crew { gate, bell, round: 0, posts, threads })
}

/// A piece of work over what is lent to all pieces.
pub trait Piece {
    type Lent;
    type Out;

    fn work(self, lent: &Self::Lent) -> Self::Out;
}

/// What was lent and comes back, and whether the pieces are worked.
pub struct Returned<L> {
    pub lent: L,
    pub is_done: bool,
}

/// Who works pieces.
pub trait PieceMap<P: Piece> {
    fn workers(&self) -> usize;

    fn map_pieces(&mut self, lent: P::Lent, pieces: &mut Vec<P>, answers: &mut Vec<P::Out>) -> Returned<P::Lent>;
}

/// The thread that calls, which cuts nothing up.
#[derive(Clone, Copy)]
pub struct CallingThread;

impl<P: Piece> PieceMap<P> for CallingThread {
    fn workers(&self) -> usize {
        1
    }

    fn map_pieces(&mut self, lent: P::Lent, _: &mut Vec<P>, _: &mut Vec<P::Out>) -> Returned<P::Lent> {
        Returned { lent, is_done: false }
    }
}
