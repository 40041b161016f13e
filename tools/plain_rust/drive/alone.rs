//! Steps by the calling thread.

use world_core::{Refusal, Reply, WorldCore};

/// Makes a step of so many ticks.
pub type Stepper<'a> = dyn FnMut(&mut WorldCore, i64) -> Result<Reply, Refusal> + 'a;

/// Whether steps are timed by the clock, and not by the processor time of the thread.
pub fn are_by_clock() -> bool {
    false
}

/// Runs a program of steps.
pub fn with_steps(run: &mut dyn FnMut(&mut Stepper)) {
    run(&mut |world, ticks| world.step_one(ticks));
}
