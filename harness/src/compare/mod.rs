//! The comparison: groups of cases, each case fixed by a seed, a group and a number. Uses all of this folder.

pub mod bounds;
pub mod call;
pub mod damage;
pub mod fence;
pub mod ground;
pub mod groups;
pub mod options;
pub mod random;
pub mod states;

use crate::engine::Engine;
use ground::Ground;
use groups::{GROUPS, Group, Work};
use options::{Amount, Options};
use random::Random;
use std::panic::{AssertUnwindSafe, catch_unwind};
use std::time::{Duration, Instant};

/// No case takes so many seconds; one that does hangs.
const PATIENCE: u32 = 1200;
/// So many cases of a group are done even where its share of the time is up.
const AT_LEAST: u64 = 20;

/// How many groups passed and how many failed.
#[derive(Clone, Copy, PartialEq, Eq, Debug, Default)]
pub struct Count {
    pub passed: usize,
    pub failed: usize,
}

/// Does the work of a case, with the command that repeats it told wherever it goes wrong.
fn guarded<T>(command: &str, work: impl FnOnce() -> Result<T, String>) -> Result<T, String> {
    fence::set_last_word(
        &format!("  a fault or a hang in the core\n  repeat: {command}\n0 passed, 1 failed\n"),
        PATIENCE,
    );
    let done = catch_unwind(AssertUnwindSafe(work));
    let done = done.unwrap_or_else(|_| Err("the comparison itself stopped (see above)".to_string()));
    done.map_err(|what| format!("{what}\n  repeat: {command}"))
}

fn run_group(ground: &mut Ground, options: &Options, group: &Group, time: Duration) -> Result<u64, String> {
    let name = group.name;
    match group.work {
        Work::Whole(whole) => {
            let command = options.command(&format!("--group {name}"));
            guarded(&command, || whole(ground))
        }
        Work::Cases(case, _) => {
            let start = Instant::now();
            let (first, count) = match (options.case, options.amount) {
                (Some(case), _) => (case, Some(1)),
                (None, Amount::Cases(count)) => (0, Some(count)),
                (None, Amount::Seconds(_)) => (0, None),
            };
            let mut done = 0;
            while count.map_or(done < AT_LEAST || start.elapsed() < time, |count| done < count) {
                let number = first + done;
                let command = options.command(&format!("--group {name} --case {number}"));
                let mut random = Random::of_case(options.seed, name, number);
                guarded(&command, || case(ground, &mut random)).map_err(|what| format!("case {number}: {what}"))?;
                done += 1;
            }
            Ok(done)
        }
    }
}

/// The time of each group: the whole ones take what they need, the others share what is left, and a quarter at least.
fn share(group: &Group, chosen: &[&Group], left: Duration) -> Duration {
    let share = |group: &Group| match group.work {
        Work::Whole(_) => 0,
        Work::Cases(_, share) => share,
    };
    let all: u32 = chosen.iter().map(|group| share(group)).sum();
    left.mul_f64(f64::from(share(group)) / f64::from(all.max(1)))
}

/// Holds a core to the second implementation. Prints a line for each group, and why it failed where it did.
pub fn compare(core: &dyn Engine, options: &Options) -> Count {
    fence::watch();
    let mut ground = Ground::new(core, options.program.clone());
    let mut count = Count::default();
    let start = Instant::now();
    println!("seed {}", options.seed);
    let chosen: Vec<&Group> = GROUPS.iter().filter(|group| options.takes(group.name)).collect();
    let (whole, cases): (Vec<&Group>, Vec<&Group>) =
        chosen.iter().partition(|group| matches!(group.work, Work::Whole(_)));
    let mut run = |groups: &[&Group]| {
        let left = options.time().saturating_sub(start.elapsed()).max(options.time() / 4);
        for group in groups {
            if options.first && count.failed > 0 {
                return;
            }
            match run_group(&mut ground, options, group, share(group, groups, left)) {
                Ok(0) => println!("{}: no cases", group.name),
                Ok(done) => {
                    count.passed += 1;
                    println!("{}: {done} cases, all equal ({})", group.name, group.about);
                }
                Err(what) => {
                    count.failed += 1;
                    println!("{}: FAILED ({})\n  {what}", group.name, group.about);
                }
            }
        }
    };
    run(&whole);
    run(&cases);
    fence::set_last_word("", 0);
    count
}
