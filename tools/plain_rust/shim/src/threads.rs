//! Stands for what workers use of the kit's library: shared values, waits, and scopes of threads.

use crate::{AllocError, AllocFailed, Global};
use std::marker::PhantomData;
use std::ops::Deref;
pub use std::sync::atomic::Ordering;
use std::sync::{Condvar, Mutex};

/// A shared value.
pub struct Arc<T, A = Global>(std::sync::Arc<T>, PhantomData<A>);

impl<T> Arc<T, Global> {
    pub fn new(_: Global, value: T) -> Result<Self, AllocFailed<T>> {
        Ok(Arc(std::sync::Arc::new(value), PhantomData))
    }

    pub fn try_clone(shared: &Self) -> Result<Self, AllocError> {
        Ok(Arc(shared.0.clone(), PhantomData))
    }

    pub fn try_unwrap(shared: Self) -> Result<T, Self> {
        std::sync::Arc::try_unwrap(shared.0).map_err(|back| Arc(back, PhantomData))
    }
}

impl<T, A> Deref for Arc<T, A> {
    type Target = T;

    #[inline(always)]
    fn deref(&self) -> &T {
        &self.0
    }
}

/// A word of which a thread may sleep until it has another value.
pub struct AtomicU64 {
    word: std::sync::atomic::AtomicU64,
    lock: Mutex<()>,
    woken: Condvar,
}

impl AtomicU64 {
    pub fn new(word: u64) -> AtomicU64 {
        AtomicU64 { word: std::sync::atomic::AtomicU64::new(word), lock: Mutex::new(()), woken: Condvar::new() }
    }

    #[inline(always)]
    pub fn load(&self, order: Ordering) -> u64 {
        self.word.load(order)
    }

    pub fn store(&self, word: u64, order: Ordering) {
        self.word.store(word, order)
    }

    pub fn fetch_add(&self, more: u64, order: Ordering) -> u64 {
        self.word.fetch_add(more, order)
    }

    /// Sleeps while the lower half of the word is this.
    pub fn park<R: Wait>(&self, _: &R, seen: u32) {
        let held = self.lock.lock().unwrap();
        drop(self.woken.wait_while(held, |_| self.word.load(Ordering::SeqCst) as u32 == seen).unwrap());
    }

    pub fn wake_all(&self) {
        drop(self.lock.lock().unwrap());
        self.woken.notify_all();
    }
}

/// What contracts alone see of a value.
pub struct Snapshot<T>(PhantomData<fn() -> T>);

impl<T> Snapshot<T> {
    pub fn of(_: &T) -> Self {
        Snapshot(PhantomData)
    }
}

/// A runtime that may wait for ever.
pub trait Wait {
    #[inline(always)]
    fn forever(&self) -> std::iter::Repeat<()> {
        std::iter::repeat(())
    }
}

/// A runtime that starts threads.
pub trait Threads {}

/// A runtime that hands out its allocator.
pub trait AllocGlobal {
    fn alloc(&self) -> Global {
        Global
    }
}

/// The runtime of the program.
pub struct Runtime;

impl Wait for Runtime {}
impl Threads for Runtime {}
impl AllocGlobal for Runtime {}

/// Where threads may be started. Who starts one joins it before the scope ends.
pub struct Scope<'s, E>(PhantomData<(&'s (), E)>);

/// What a scope is opened with.
pub struct ScopeEnv;

pub fn scope_env() -> ScopeEnv {
    ScopeEnv
}

pub fn scope<'s, R, T>(_: ScopeEnv, _: &R, work: impl FnOnce(&Scope<'s, ScopeEnv>) -> T) -> T {
    work(&Scope(PhantomData))
}
