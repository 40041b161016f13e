//! Stands for the kit's `rtrb`: a ring of a fixed size from one thread to another. Each step of it is in one order with all others, as there.

use shim::{AllocError, Global};
use std::cell::UnsafeCell;
use std::marker::PhantomData;
use std::mem::MaybeUninit;
use std::sync::Arc;
use std::sync::atomic::{AtomicUsize, Ordering};

/// What may follow in a ring. Only contracts see it.
pub trait Protocol<T> {}

pub struct AnyItems;

impl<T> Protocol<T> for AnyItems {}

#[derive(Debug)]
pub struct PopError;

#[derive(Debug)]
pub enum PushError<T> {
    Full(T),
}

struct Ring<T> {
    popped: AtomicUsize,
    pushed: AtomicUsize,
    slots: Box<[UnsafeCell<MaybeUninit<T>>]>,
}

unsafe impl<T: Send> Sync for Ring<T> {}

impl<T> Drop for Ring<T> {
    fn drop(&mut self) {
        for number in *self.popped.get_mut()..*self.pushed.get_mut() {
            let place = number % self.slots.len();
            // It was pushed, and never popped.
            unsafe { self.slots[place].get_mut().assume_init_drop() };
        }
    }
}

pub struct RingBuffer<T>(PhantomData<T>);

pub struct Producer<T, A = Global, P = AnyItems> {
    ring: Arc<Ring<T>>,
    popped: usize,
    pushed: usize,
    kind: PhantomData<(A, P)>,
}

pub struct Consumer<T, A = Global, P = AnyItems> {
    ring: Arc<Ring<T>>,
    popped: usize,
    pushed: usize,
    kind: PhantomData<(A, P)>,
}

impl<T> RingBuffer<T> {
    pub fn new(alloc: Global, capacity: usize) -> Result<(Producer<T>, Consumer<T>), AllocError> {
        Self::with_protocol::<Global, AnyItems>(alloc, capacity)
    }

    pub fn with_protocol<A, P>(_: A, capacity: usize) -> Result<(Producer<T, A, P>, Consumer<T, A, P>), AllocError> {
        let slots = (0..capacity).map(|_| UnsafeCell::new(MaybeUninit::uninit())).collect();
        let ring = Arc::new(Ring { popped: AtomicUsize::new(0), pushed: AtomicUsize::new(0), slots });
        let producer = Producer { ring: ring.clone(), popped: 0, pushed: 0, kind: PhantomData };
        Ok((producer, Consumer { ring, popped: 0, pushed: 0, kind: PhantomData }))
    }
}

impl<T, A, P> Producer<T, A, P> {
    pub fn push(&mut self, item: T) -> Result<(), PushError<T>> {
        if self.pushed - self.popped == self.ring.slots.len() {
            self.popped = self.ring.popped.load(Ordering::SeqCst);
            if self.pushed - self.popped == self.ring.slots.len() {
                return Err(PushError::Full(item));
            }
        }
        let place = self.pushed % self.ring.slots.len();
        // The slot is empty, and the consumer doesn't look at it before the count says so.
        unsafe { *self.ring.slots[place].get() = MaybeUninit::new(item) };
        self.pushed += 1;
        self.ring.pushed.store(self.pushed, Ordering::SeqCst);
        Ok(())
    }

    pub fn push_reserved(&mut self, item: T) {
        let _ = self.push(item);
    }
}

impl<T, A, P> Consumer<T, A, P> {
    pub fn pop(&mut self) -> Result<T, PopError> {
        if self.pushed == self.popped {
            self.pushed = self.ring.pushed.load(Ordering::SeqCst);
            if self.pushed == self.popped {
                return Err(PopError);
            }
        }
        let place = self.popped % self.ring.slots.len();
        // The producer has filled it, and fills it again only after the count says so.
        let item = unsafe { (*self.ring.slots[place].get()).assume_init_read() };
        self.popped += 1;
        self.ring.popped.store(self.popped, Ordering::SeqCst);
        Ok(item)
    }

    pub fn pop_known(&mut self) -> T {
        self.pop().expect("an item is there")
    }

    pub fn slots_beside(&mut self, producer: &mut Producer<T, A, P>) -> usize {
        self.pushed = producer.pushed;
        self.pushed - self.popped
    }
}
