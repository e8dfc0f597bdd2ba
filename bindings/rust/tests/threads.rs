//! Two threads at once, small stacks, and the deepest brackets.
mod common;

use puchkewa::{clean, tape, with_stack, Cleaner, Kind, Line, Listing, Settings};
use std::thread;

#[test]
fn a_cleaner_is_send() {
    fn is_send<T: Send>() {}
    is_send::<Cleaner>();
    is_send::<puchkewa::Refusal>();
}

#[test]
fn two_threads_at_once_answer_as_one() {
    let inputs: Vec<_> = common::answers().into_iter().filter_map(|a| Some((a.settings?, a.tape))).collect();
    let run = |inputs: &[(Settings, Vec<u8>)]| -> Vec<_> {
        let mut cleaner = Cleaner::new();
        inputs.iter().map(|(settings, tape)| cleaner.clean_tape(tape, *settings).map(|c| c.read())).collect()
    };
    let alone = run(&inputs);
    thread::scope(|scope| {
        let threads: Vec<_> = (0..2).map(|_| scope.spawn(|| (0..4).map(|_| run(&inputs)).collect::<Vec<_>>())).collect();
        for thread in threads {
            for answers in thread.join().expect("a thread") {
                assert_eq!(answers, alone);
            }
        }
    });
}

#[test]
fn a_small_stack_is_enough_for_the_calls_on_a_thread() {
    let raw = tape::read(&common::sample()).expect("the sample");
    let want = clean(&raw, Settings::default()).expect("the sample");
    let small = thread::Builder::new().stack_size(64 << 10);
    let got = small.spawn(move || Cleaner::new().clean_on_thread(&raw, Settings::default())).expect("a thread").join().expect("an answer");
    assert_eq!(got, Ok(want));
}

#[test]
fn the_deepest_brackets_have_room() {
    let brackets = |open: usize, close: usize| Listing {
        lines: vec![Line::new(0)
            .with(Kind::Keyword, "return")
            .with(Kind::Punct, format!(" {}", "(".repeat(open)))
            .with(Kind::Register, "rax")
            .with(Kind::Punct, format!("{};", ")".repeat(close)))],
    };
    let profile = Settings { profile: true, ..Settings::default() };
    let even = brackets(12_000, 12_000);
    assert_eq!(clean(&even, profile).map(|c| c.counts.removed), Ok(0));
    assert_eq!(puchkewa::start_value(&even, "rax", &[], 5), Ok(5));
    let open = tape::write(&brackets(24_500, 0)).expect("a tape");
    let said = with_stack(|| Cleaner::new().clean_tape(&open, profile).map(drop));
    assert_eq!(said.map_err(|r| (r.number(), r.place())), Err((Some(14), Some(0))));
}
