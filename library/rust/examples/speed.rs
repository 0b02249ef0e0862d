//! Calls a second through the library, by single calls and in lists, and through the second model's own functions, in one
//! process, side by side; no text on any side. `library/test speed` runs it. All sides do as many calls between two looks at
//! the clock. A list is made beforehand, as the frames of single calls are.

use std::hint::black_box;
use std::time::{Duration, Instant};

use max35101::{Answers, Calls, Model};
use second_model::Model as Second;

const ROUNDS: usize = 200;
/// Shorter than a turn on the processor, so that the best round has no other work in it.
const ROUND: Duration = Duration::from_millis(3);
/// Calls of a list, and of the other sides between two looks at the clock: captures have thousands, and the calls and
/// answers of so many lie near the processor.
const LISTED: u32 = 1024;

/// The best rate of several rounds, in calls a second.
fn rate(rounds: &mut f64, calls: u32, mut run: impl FnMut()) {
    let begin = Instant::now();
    let mut done = 0u64;
    while begin.elapsed() < ROUND {
        run();
        done += u64::from(calls);
    }
    *rounds = rounds.max(done as f64 / begin.elapsed().as_secs_f64());
}

const SET_UP: [&[u8]; 3] = [&[0x38, 0x10, 0x10], &[0x40, 0x00, 0x60], &[0x05]];

fn ready() -> (Model, Second) {
    let (mut model, mut second) = (Model::fresh(), Second::fresh());
    for frame in SET_UP {
        model.transaction(frame, &mut [], &mut []).expect("set-up");
        second.transaction(frame, &mut [], &mut []).expect("set-up");
    }
    (model, second)
}

/// One row, of `calls` calls that are done over and over: by single calls, in a list and by the second model, in turn. A
/// stretch is one call, and counts for its ticks: `counted` in all.
fn row(
    name: &str,
    (calls, counted): (u32, u32),
    single: impl Fn(&mut Model),
    add: impl Fn(&mut Calls),
    theirs: impl Fn(&mut Second),
) {
    let ((mut model, mut second), (mut in_list, _)) = (ready(), ready());
    let (mut list, mut answers) = (Calls::new(), Answers::new());
    let times = LISTED / calls;
    (0..times).for_each(|_| add(&mut list));
    in_list.run(&list, &mut [], &mut answers);
    assert!(answers.iter().all(|(answer, _)| answer.is_ok()), "{name}");
    assert_eq!(list.len(), (times * calls) as usize, "{name}");
    let [mut by_single, mut by_list, mut by_second] = [0.0; 3];
    for _ in 0..ROUNDS {
        rate(&mut by_single, times * counted, || {
            (0..times).for_each(|_| single(&mut model));
        });
        rate(&mut by_list, times * counted, || {
            in_list.run(black_box(&list), &mut [], &mut answers);
            black_box(&answers);
        });
        rate(&mut by_second, times * counted, || {
            (0..times).for_each(|_| theirs(&mut second));
        });
    }
    print_row(name, by_single, Some(by_list), by_second);
}

fn print_row(name: &str, single: f64, list: Option<f64>, second: f64) {
    let million = |rate: f64| format!("{:.1}", rate / 1e6);
    let ratio = |rate: f64| format!("{:.2}", rate / second);
    println!(
        "{name:<38} {:>10} {:>10} {:>10} {:>8} {:>8}",
        million(single),
        list.map(million).unwrap_or_default(),
        million(second),
        ratio(single),
        list.map(ratio).unwrap_or_default()
    );
}

const READ: [u8; 17] = [0xB0, 0, 0, 0, 0, 0, 0, 0, 0, 0, 0, 0, 0, 0, 0, 0, 0];
const WRITE: [u8; 9] = [0x38, 0x10, 0x10, 0x00, 0x01, 0x00, 0x02, 0x00, 0x03];
const DIFFERENCE: [u8; 5] = [0xE2, 0, 0, 0, 0];
const STATUS: [u8; 3] = [0xFE, 0, 0];

/// A frame with an output of N bytes.
fn send<const N: usize>(model: &mut Model, frame: &[u8]) {
    let mut output = [0; N];
    black_box(model.transaction(black_box(frame), &mut output, &mut [])).expect("accepted");
    black_box(output);
}

fn second_send<const N: usize>(second: &mut Second, frame: &[u8]) {
    let mut output = [0; N];
    black_box(second.transaction(black_box(frame), &mut output, &mut [])).expect("accepted");
    black_box(output);
}

fn deliver(model: &mut Model) {
    black_box(model.deliver_flight(black_box(&[100]), black_box(&[90]))).expect("a delivery");
}

fn second_deliver(second: &mut Second) {
    black_box(second.deliver_flight(black_box(&[100]), black_box(&[90]))).expect("a delivery");
}

/// A delivery, and the reads of its difference and of the status.
fn evaluate(model: &mut Model) {
    deliver(model);
    send::<4>(model, &DIFFERENCE);
    send::<2>(model, &STATUS);
}

fn list_evaluation(list: &mut Calls) {
    list.deliver_flight(&[100], &[90]);
    list.transaction(&DIFFERENCE, 4).transaction(&STATUS, 2);
}

fn second_evaluate(second: &mut Second) {
    second_deliver(second);
    second_send::<4>(second, &DIFFERENCE);
    second_send::<2>(second, &STATUS);
}

fn tick(model: &mut Model) {
    black_box(model.tick());
}

fn second_tick(second: &mut Second) {
    black_box(second.tick());
}

fn main() {
    println!(
        "{:<38} {:>10} {:>10} {:>10} {:>8} {:>8}",
        "million calls a second", "single", "in a list", "second", "single", "in a list"
    );
    row(
        "tick",
        (1, 1),
        tick,
        |list| {
            list.tick();
        },
        second_tick,
    );
    row(
        "read of 8 registers",
        (1, 1),
        |model| send::<16>(model, &READ),
        |list| {
            list.transaction(&READ, 16);
        },
        |second| second_send::<16>(second, &READ),
    );
    row(
        "write of 4 registers",
        (1, 1),
        |model| send::<0>(model, &WRITE),
        |list| {
            list.transaction(&WRITE, 0);
        },
        |second| second_send::<0>(second, &WRITE),
    );
    row(
        "TOF_Diff and its delivery",
        (2, 2),
        |model| {
            send::<0>(model, &[0x02]);
            deliver(model);
        },
        |list| {
            list.transaction(&[0x02], 0).deliver_flight(&[100], &[90]);
        },
        |second| {
            second_send::<0>(second, &[0x02]);
            second_deliver(second);
        },
    );
    row(
        "start, 4 ticks, delivery, two reads",
        (8, 8),
        |model| {
            send::<0>(model, &[0x02]);
            (0..4).for_each(|_| tick(model));
            evaluate(model);
        },
        |list| {
            list.transaction(&[0x02], 0);
            list.tick().tick().tick().tick();
            list_evaluation(list);
        },
        |second| {
            second_send::<0>(second, &[0x02]);
            (0..4).for_each(|_| second_tick(second));
            second_evaluate(second);
        },
    );
    row(
        "start, 100 ticks, delivery, two reads",
        (5, 104),
        |model| {
            send::<0>(model, &[0x02]);
            black_box(model.stretch(100)).expect("not too long");
            evaluate(model);
        },
        |list| {
            list.transaction(&[0x02], 0).stretch(100);
            list_evaluation(list);
        },
        |second| {
            second_send::<0>(second, &[0x02]);
            (0..100).for_each(|_| second_tick(second));
            second_evaluate(second);
        },
    );
    let (mut model, mut second) = ready();
    let (mut stretches, mut ticks) = (0.0, 0.0);
    for _ in 0..ROUNDS {
        rate(&mut stretches, 16_384, || {
            black_box(model.stretch(16_384).expect("not too long"));
        });
        rate(&mut ticks, 16_384, || {
            (0..16_384).for_each(|_| second_tick(&mut second));
        });
    }
    print_row("ticks of a stretch of 16,384", stretches, None, ticks);
}
