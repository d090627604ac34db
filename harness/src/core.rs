//! The core in the archive, behind the trait that the second implementation has too. Uses the archive alone, and
//! another one that it is timed beside. A build that found no archive has no core here, and says so where one is asked
//! for.
#![allow(unsafe_code)]

use crate::engine::Engine;

/// The core, where the archive was there when this was built.
pub fn core() -> Option<&'static dyn Engine> {
    #[cfg(archive)]
    return Some(&linked::Core);
    #[cfg(not(archive))]
    return None;
}

/// The core of another archive, where one was named: its calls have other names, so that both can be linked.
pub fn before() -> Option<&'static dyn Engine> {
    #[cfg(before)]
    return Some(&renamed::Core);
    #[cfg(not(before))]
    return None;
}

/// The calls that the other archive lacks, since it is older than they are. There is no answer to any of them.
pub fn before_lacks() -> Vec<&'static str> {
    let has = [cfg!(before_worth), cfg!(before_why), cfg!(before_route), cfg!(before_notice)];
    ["worth", "why", "route", "notice"].into_iter().zip(has).filter(|&(_, has)| !has).map(|(call, _)| call).collect()
}

/// Calls of an archive, with this in front of their names. Where the archive lacks them there is no answer to any.
#[cfg(any(archive, before))]
macro_rules! calls {
    ($before:literal, $has:meta, $(fn $call:ident($($of:ident: $kind:ty),*) -> $answer:ty;)*) => {
        #[cfg($has)]
        unsafe extern "C" {
            $(#[link_name = concat!($before, stringify!($call))]
            fn $call($($of: $kind),*) -> $answer;)*
        }
        $(#[cfg(not($has))]
        unsafe fn $call($(_: $kind),*) -> $answer {
            panic!("an archive that has no {} was asked for it", stringify!($call))
        })*
    };
}

/// The core whose calls have this in front of their names. Those that came with a request are there under a condition.
#[cfg(any(archive, before))]
macro_rules! linked {
    ($name:ident, $before:literal, worth: $worth:meta, why: $why:meta, route: $route:meta, notice: $notice:meta) => {
        mod $name {
            use crate::engine::{Answer, Engine, Ran, Read, Reason, Way};

            calls! { $before, all(),
                fn hop_size(n: usize) -> usize;
                fn hop_make(state: *mut u8, len: usize, n: usize) -> u32;
                fn hop_check(state: *const u8, len: usize) -> u32;
                fn hop_up(state: *mut u8, len: usize, a: usize, b: usize) -> u32;
                fn hop_down(state: *mut u8, len: usize, a: usize, b: usize) -> u32;
                fn hop_deliver(state: *mut u8, len: usize, from: usize, to: usize) -> u32;
                fn hop_pass(state: *mut u8, len: usize) -> Answer;
                fn hop_run(state: *mut u8, len: usize, allowance: u8) -> Ran;
                fn hop_queue_length(state: *const u8, len: usize, from: usize, to: usize) -> Answer;
                fn hop_total_queued(state: *const u8, len: usize) -> Answer;
                fn hop_status(state: *const u8, len: usize, node: usize, out: *mut u8, out_len: usize) -> Answer;
                fn hop_write_event(kind: u32, first: u16, second: u16, out: *mut u8, out_len: usize) -> Answer;
                fn hop_read_event(bytes: *const u8, len: usize, place: *mut usize) -> Read;
            }
            calls! { $before, $worth,
                fn hop_worth(state: *const u8, len: usize, trial: *mut u8, trial_len: usize,
                             lines: *mut i32, lines_len: usize) -> Answer;
            }
            calls! { $before, $why,
                fn hop_why(state: *const u8, len: usize, node: usize, destination: usize,
                           list: *mut u8, list_len: usize) -> Reason;
            }
            calls! { $before, $route,
                fn hop_route(state: *const u8, len: usize, node: usize, destination: usize) -> Way;
            }
            calls! { $before, $notice,
                fn hop_notice(state: *mut u8, len: usize, noticing: usize, other: usize) -> u32;
            }

            pub struct Core;

            // Each call is lent whole slices for its own time; the borrows keep state, output, trial and list apart.
            impl Engine for Core {
                fn size(&self, n: usize) -> usize {
                    unsafe { hop_size(n) }
                }

                fn make(&self, state: &mut [u8], n: usize) -> u32 {
                    unsafe { hop_make(state.as_mut_ptr(), state.len(), n) }
                }

                fn check(&self, state: &[u8]) -> u32 {
                    unsafe { hop_check(state.as_ptr(), state.len()) }
                }

                fn up(&self, state: &mut [u8], a: usize, b: usize) -> u32 {
                    unsafe { hop_up(state.as_mut_ptr(), state.len(), a, b) }
                }

                fn down(&self, state: &mut [u8], a: usize, b: usize) -> u32 {
                    unsafe { hop_down(state.as_mut_ptr(), state.len(), a, b) }
                }

                fn notice(&self, state: &mut [u8], noticing: usize, other: usize) -> u32 {
                    unsafe { hop_notice(state.as_mut_ptr(), state.len(), noticing, other) }
                }

                fn deliver(&self, state: &mut [u8], from: usize, to: usize) -> u32 {
                    unsafe { hop_deliver(state.as_mut_ptr(), state.len(), from, to) }
                }

                fn pass(&self, state: &mut [u8]) -> Answer {
                    unsafe { hop_pass(state.as_mut_ptr(), state.len()) }
                }

                fn run(&self, state: &mut [u8], allowance: u8) -> Ran {
                    unsafe { hop_run(state.as_mut_ptr(), state.len(), allowance) }
                }

                fn route(&self, state: &[u8], node: usize, destination: usize) -> Way {
                    unsafe { hop_route(state.as_ptr(), state.len(), node, destination) }
                }

                fn queue_length(&self, state: &[u8], from: usize, to: usize) -> Answer {
                    unsafe { hop_queue_length(state.as_ptr(), state.len(), from, to) }
                }

                fn total_queued(&self, state: &[u8]) -> Answer {
                    unsafe { hop_total_queued(state.as_ptr(), state.len()) }
                }

                fn status(&self, state: &[u8], node: usize, out: &mut [u8]) -> Answer {
                    unsafe { hop_status(state.as_ptr(), state.len(), node, out.as_mut_ptr(), out.len()) }
                }

                fn write_event(&self, kind: u32, first: u16, second: u16, out: &mut [u8]) -> Answer {
                    unsafe { hop_write_event(kind, first, second, out.as_mut_ptr(), out.len()) }
                }

                fn read_event(&self, bytes: &[u8], place: &mut usize) -> Read {
                    unsafe { hop_read_event(bytes.as_ptr(), bytes.len(), place) }
                }

                fn worth(&self, state: &[u8], trial: &mut [u8], lines: &mut [i32]) -> Answer {
                    let (trial_at, lines_at) = (trial.as_mut_ptr(), lines.as_mut_ptr());
                    unsafe { hop_worth(state.as_ptr(), state.len(), trial_at, trial.len(), lines_at, lines.len()) }
                }

                fn why(&self, state: &[u8], node: usize, destination: usize, list: &mut [u8]) -> Reason {
                    let (list_at, room) = (list.as_mut_ptr(), list.len());
                    unsafe { hop_why(state.as_ptr(), state.len(), node, destination, list_at, room) }
                }
            }
        }
    };
}

#[cfg(archive)]
linked!(linked, "", worth: all(), why: all(), route: all(), notice: all());
#[cfg(before)]
linked!(renamed, "before_", worth: before_worth, why: before_why, route: before_route, notice: before_notice);
