//! Steps by workers: `--workers=N`, and `--all` for those steps as well that aren't worth it.

use shim::{Global, Runtime, scope, scope_env};
use world_core::{Refusal, Reply, WorldCore};
use world_workers::{OpenGate, StepCrew, PartMemory, StepWorkers};

/// Makes a step of so many ticks.
pub type Stepper<'a> = dyn FnMut(&mut WorldCore, i64) -> Result<Reply, Refusal> + 'a;

/// How many workers are asked for.
fn workers() -> Option<u64> {
    let word = std::env::args().find_map(|word| word.strip_prefix("--workers=").map(str::to_owned))?;
    Some(word.parse().expect("a number of workers"))
}

/// Whether steps are timed by the clock, and not by the processor time of the thread.
pub fn are_by_clock() -> bool {
    workers().is_some()
}

/// Runs a program of steps.
pub fn with_steps(run: &mut dyn FnMut(&mut Stepper)) {
    let Some(count) = workers() else {
        return run(&mut |world, ticks| world.step_one(ticks));
    };
    let all = std::env::args().any(|word| word == "--all");
    scope(scope_env(), &Runtime, |scope| {
        if all {
            let memory = PartMemory::for_all_steps(Global);
            let crew = StepCrew::start(scope, &Runtime, Global, &OpenGate, count as usize, memory);
            let mut crew = crew.ok().expect("workers that start");
            run(&mut |world, ticks| world.step_by(&mut crew, ticks));
            drop(crew.end());
        } else {
            let mut crew = StepWorkers::new(scope, &Runtime, Global, &OpenGate, count);
            run(&mut |world, ticks| crew.step(world, ticks));
            crew.end();
        }
    });
}
