//! Calls of the library, as tests of a server would make them.
use l4emu::{Call, CallError};
use std::process::Command;

const LOCKS: &str = include_str!("../../../../examples/locks.l4");

fn on(text: impl AsRef<[u8]>, words: &[&str]) -> l4emu::Answer {
    Call::new(words).file("m.l4", text).answer().unwrap()
}

#[test]
fn two_locks_that_are_taken_in_opposite_order_get_stuck() {
    let answer = on(LOCKS, &["endings", "m.l4", "--stuck", "--none"]);
    assert_eq!(answer.status, 4);
    assert!(answer.out_text().contains("waiting 1.1#2 21.1\nwaiting 2.1#2 11.1\n"));
    assert!(answer.out_text().ends_with(" whole\n"));
}

#[test]
fn a_replay_of_its_record_prints_what_a_run_printed() {
    let run = on(LOCKS, &["run", "m.l4", "--record", "list"]);
    assert_eq!(run.status, 0);
    let replay = Call::new(["replay", "m.l4", "--schedule", "@list"])
        .file("m.l4", LOCKS)
        .file("list", &run.recorded)
        .answer()
        .unwrap();
    assert_eq!((replay.status, replay.out), (run.status, run.out));
}

#[test]
fn an_expectation_that_is_not_met_is_told() {
    let answer = Call::new(["run", "m.l4", "--expect", "wanted", "--report"])
        .file("m.l4", LOCKS)
        .file("wanted", "never waiting ..\n")
        .answer()
        .unwrap();
    assert_eq!(answer.status, 4);
    assert!(answer.faults_text().contains("waiting 1.1#2 21.1"));
}

#[test]
fn faulty_input_is_answered_and_the_next_call_works() {
    let long = "a".repeat((1 << 20) + 1);
    let cut = &LOCKS[..LOCKS.find("ipc").unwrap() + 5];
    let faults: [(&[u8], &str); 6] = [
        (b"l5\n", "l4run: line 1: BadLine\n"),
        (b"", "l4run: line 1: BadLine\n"),
        (long.as_bytes(), "l4run: line 0: TooLong\n"),
        (b"\x00\xff\xfe\x01\n\x80", "l4run: line 1: BadLine\n"),
        (b"l4 1 64\ncpus 17\n", "l4run: line 2: BadNumber\n"),
        (cut.as_bytes(), "cut"),
    ];
    for (text, fault) in faults {
        let answer = on(text, &["run", "m.l4"]);
        assert_eq!((answer.status, answer.out.len()), (1, 0));
        if fault != "cut" {
            assert_eq!(answer.faults_text(), fault);
        }
        assert_eq!(on(LOCKS, &["run", "m.l4"]).status, 0);
    }
}

#[test]
fn a_file_that_is_not_there_is_a_fault() {
    let answer = Call::new(["audit", "m.l4", "t"]).file("m.l4", LOCKS).answer().unwrap();
    assert_eq!((answer.status, answer.faults_text().as_ref()), (1, "l4run: cannot read t\n"));
}

#[test]
fn wrong_words_are_told() {
    let answer = on(LOCKS, &["run", "m.l4", "--turn", "5"]);
    assert_eq!((answer.status, answer.out.len()), (2, 0));
    assert!(answer.faults_text().contains("--turn"));
    assert_eq!(Call::new([b"\xff"]).answer().unwrap().faults_text(), "l4run: an argument is not UTF-8\n");
    assert_eq!(Call::new(["a\0b"]).answer(), Err(CallError::ZeroInWord));
    let four = (0..4).fold(Call::new(["run", "m.l4"]), |call, _| call.file("m.l4", LOCKS));
    assert_eq!(four.answer(), Err(CallError::TooManyFiles));
}

#[test]
fn a_buffer_that_is_too_small_stays_as_it_is() {
    let call = Call::new(["run", "m.l4", "--report"]).file("m.l4", LOCKS);
    let whole = call.answer().unwrap();
    let mut small = vec![7; whole.out.len() - 1];
    let lengths = call.answer_into(&mut small, &mut [], &mut []).unwrap();
    assert_eq!((lengths.status, lengths.out), (0, whole.out.len()));
    assert!(small.iter().all(|byte| *byte == 7));
    let mut large = vec![7; whole.out.len() + 1];
    call.answer_into(&mut large, &mut [], &mut []).unwrap();
    assert_eq!(large.split_last(), Some((&7, whole.out.as_slice())));
}

#[test]
fn four_threads_call_at_once() {
    let wanted = on(LOCKS, &["endings", "m.l4", "--stuck"]);
    std::thread::scope(|scope| {
        for _ in 0..4 {
            scope.spawn(|| {
                for _ in 0..20 {
                    assert_eq!(on(LOCKS, &["endings", "m.l4", "--stuck"]), wanted);
                }
            });
        }
    });
}

// Two threads that send to each other for ever.
const FOR_EVER: &str = "l4 1 64\ncpus 1\nthread 1.1 cpu 0 space 1\nipc 2.1 2.1 never never\njump 1\n\
                        thread 2.1 cpu 0 space 2\nipc nil 1.1 never never\nipc 1.1 nil never never\njump 1\n";

// Started by the next test, in a process that has little memory.
#[test]
#[ignore]
fn in_little_memory() {
    let answer = on(FOR_EVER, &["run", "m.l4", "--turns", "1000000"]);
    assert_eq!((answer.status, answer.faults_text().as_ref()), (1, "l4run: no memory\n"));
    assert_eq!(on(LOCKS, &["run", "m.l4"]).status, 0);
}

#[test]
fn refused_memory_is_a_fault() {
    let tests = std::env::current_exe().unwrap();
    let status = Command::new("sh")
        .args(["-c", "ulimit -v 40000 && exec \"$0\" --ignored --exact in_little_memory --test-threads 1"])
        .arg(tests)
        .status()
        .unwrap();
    assert!(status.success());
}
