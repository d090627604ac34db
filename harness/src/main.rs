//! The command: reads its options, runs the comparison or the self-test, prints the count. Uses the library.

use hop_harness::compare::groups::GROUPS;
use hop_harness::compare::options::{Options, USAGE};
use hop_harness::{compare::compare, core::core, selftest::selftest};
use std::process::ExitCode;

fn main() -> ExitCode {
    let options = match Options::read(std::env::args().skip(1)) {
        Ok(options) => options,
        Err(what) => {
            eprintln!("{what}\n{USAGE}");
            return ExitCode::from(2);
        }
    };
    if options.list {
        for group in GROUPS {
            println!("{}: {}", group.name, group.about);
        }
        return ExitCode::SUCCESS;
    }
    let count = if options.selftest {
        selftest()
    } else if let Some(core) = core() {
        compare(core, &options)
    } else {
        eprintln!("built without the archive: there is no core to compare (make archive writes it)");
        return ExitCode::from(2);
    };
    println!("{} passed, {} failed", count.passed, count.failed);
    if count.failed == 0 && count.passed > 0 { ExitCode::SUCCESS } else { ExitCode::FAILURE }
}
