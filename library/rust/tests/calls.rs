//! Each call's answers in plain numbers, and bytes that are no model.

use max35101::{
    degrees, degrees_by, listing, nanoseconds, quietest, quietest_place, write_listing, Answer,
    Answers, Calls, Delivered, Digits, EventPlace, Model, Refusal, Started, Stretched, Ticked,
    LONGEST_STRETCH, MODEL_SIZE,
};

#[test]
fn bytes_that_are_no_model() {
    let stored = *Model::fresh().as_bytes();
    assert_eq!(stored.len(), MODEL_SIZE);
    assert_eq!(stored[0], 1);
    for size in [0, 1, MODEL_SIZE - 1] {
        assert_eq!(Model::from_bytes(&stored[..size]), Err(Refusal::Unsound));
    }
    assert_eq!(
        Model::from_bytes(&[stored.as_slice(), &[0]].concat()),
        Err(Refusal::Unsound)
    );
    // The version, a flag of 2, the month 0 and 13.
    for (place, byte) in [(0, 0), (0, 2), (1, 2), (18, 255), (65, 0), (65, 13)] {
        let mut bytes = stored;
        bytes[place] = byte;
        assert_eq!(
            Model::from_bytes(&bytes),
            Err(Refusal::Unsound),
            "{place}: {byte}"
        );
    }
    // The 12-hour form of a fresh clock, and the year 99: models too.
    for (place, byte) in [(1, 1), (61, 99)] {
        let mut bytes = stored;
        bytes[place] = byte;
        let model = Model::from_bytes(&bytes).expect("a model");
        assert_eq!(model.as_bytes(), &bytes);
        assert_eq!(Model::try_from(model.as_ref()), Ok(model));
    }
}

#[test]
fn a_stretch_that_is_too_long() {
    let mut model = Model::fresh();
    assert_eq!(model.stretch(LONGEST_STRETCH + 1), Err(Refusal::Span));
    assert_eq!(model, Model::fresh());
    assert!(model.stretch(LONGEST_STRETCH).is_ok());
    assert_ne!(model, Model::fresh());
}

#[test]
fn the_state_of_the_run() {
    let mut model = Model::fresh();
    assert!(!model.initialised());
    assert_eq!((model.flight_left(), model.flight_place()), (None, None));
    // One hit in each direction; three differences, one every half second; Initialize; EVTMG2.
    let frames: [&[u8]; 4] = [&[0x38, 0x10, 0x10], &[0x3F, 0x01, 0x00], &[0x05], &[0x08]];
    for frame in frames {
        model
            .transaction(frame, &mut [], &mut [])
            .expect("accepted");
    }
    assert!(model.initialised());
    model.tick();
    let left = (model.flight_left(), model.temperature_left());
    assert_eq!(left, (Some(8191), None));
    let place = EventPlace {
        planned: 3,
        started: 1,
        settled: 0,
        good: 0,
        next_start: Some(16_383),
        continuous: false,
    };
    assert_eq!(model.flight_place(), Some(place));
    model.deliver_flight(&[100], &[90]).expect("awaited");
    let settled = EventPlace {
        settled: 1,
        good: 1,
        ..place
    };
    assert_eq!(model.flight_place(), Some(settled));
    assert_eq!(
        (model.flight_left(), model.temperature_place()),
        (None, None)
    );
    for _ in 0..2 {
        model.stretch(LONGEST_STRETCH).expect("not too long");
    }
    let place = model.flight_place().expect("an event");
    assert_eq!((place.started, place.next_start), (3, None));
}

#[test]
fn set_up_frames() {
    let mut model = Model::fresh();
    assert_eq!(model.setup_frames(), Vec::<Vec<u8>>::new());
    model
        .transaction(&[0x38, 0x12, 0x34], &mut [], &mut [])
        .expect("a write");
    model
        .transaction(&[0x43, 0x00, 0x10], &mut [], &mut [])
        .expect("a write");
    assert_eq!(
        model.setup_frames(),
        [vec![0x38, 0x12, 0x34], vec![0x43, 0x00, 0x10]]
    );
}

#[test]
fn degrees_of_a_probe() {
    assert_eq!(degrees(1000, 1000), Ok(0));
    // IEC 60751: 1,385.055 ohms at 100 degrees.
    assert_eq!(degrees(1_385_055, 1_000_000), Ok(100_000));
    assert_eq!(degrees(1, 0), Err(Refusal::OffTheTable));
    assert_eq!(degrees_by(&[], 1, 1), Err(Refusal::BadTable));
    assert_eq!(degrees_by(&[500_000, 1_500_000], 1, 1), Ok(500));
}

#[test]
fn quiet_runs_and_nanoseconds() {
    let values = [9, 1, 2, 2, 7];
    assert_eq!(quietest_place(&values, 2), Ok(2));
    assert_eq!(quietest(&values, 3), Ok(&values[1..4]));
    assert_eq!(quietest(&values, 0), Err(Refusal::Width));
    assert_eq!(quietest(&values, 6), Err(Refusal::Width));
    assert_eq!(nanoseconds(65_536), 250.0);
    assert_eq!(nanoseconds(i32::MIN), -8_192_000.0);
}

#[test]
fn listings() {
    let text = listing(Digits::Eight, &[65_536, -1], 0xA).expect("eight digits");
    assert_eq!(text.lines().count(), 2);
    assert_eq!(text.len(), 2 * Digits::Eight.line());
    assert!(text.starts_with("0000000A"), "{text}");
    assert_eq!(
        listing(Digits::Two, &[0, 0], 0xFF),
        Err(Refusal::CaptureNumber)
    );
    let mut output = [7; 22];
    assert_eq!(
        write_listing(Digits::Eight, &[0], 0, &mut output),
        Err(Refusal::ShortListing)
    );
    assert_eq!(output, [7; 22]);
}

#[test]
fn a_list_goes_on_after_a_refusal() {
    let mut calls = Calls::new();
    calls.transaction(&[0x02], 0);
    calls
        .transaction(&[0x38, 0x10, 0x10], 0)
        .transaction(&[0x05], 0);
    calls.transaction(&[0x02], 0).tick().stretch(16_385);
    calls.deliver_flight(&[0x64], &[0x01]);
    calls.transaction(&[0xE2, 0, 0, 0, 0], 4);
    calls.deliver_temperature(&[1, 2, 3, 4]).stretch(100);
    let (mut model, mut answers) = (Model::fresh(), Answers::new());
    model.run(&calls, &mut [], &mut answers);
    let none = Ok(Answer::Transaction(Started::default()));
    let flight = Started {
        flight: true,
        temperature: false,
    };
    let wanted = [
        Err(Refusal::NotInitialised),
        none,
        none,
        Ok(Answer::Transaction(flight)),
        Ok(Answer::Tick(Ticked::default())),
        Err(Refusal::Span),
        Ok(Answer::Delivery(Delivered::Good)),
        none,
        Err(Refusal::NotAwaited),
        Ok(Answer::Stretch(Stretched::default())),
    ];
    assert_eq!(
        answers.iter().map(|(answer, _)| answer).collect::<Vec<_>>(),
        wanted
    );
    let outputs: Vec<&[u8]> = answers.iter().map(|(_, output)| output).collect();
    assert_eq!(outputs.concat(), [0, 0, 0, 0x63]);
    let before = model.clone();
    calls.clear();
    model.run(&calls, &mut [], &mut answers);
    assert!(calls.is_empty() && answers.iter().next().is_none() && model == before);
}

#[test]
fn a_list_stays_as_it_was_after_a_panic() {
    let mut calls = Calls::new();
    calls.transaction(&[0x38, 0x10, 0x10], 0);
    let too_long = std::panic::AssertUnwindSafe(|| {
        calls.transaction(&[0x05], usize::MAX);
    });
    let hook = std::panic::take_hook();
    std::panic::set_hook(Box::new(|_| {}));
    let caught = std::panic::catch_unwind(too_long);
    std::panic::set_hook(hook);
    assert!(caught.is_err());
    calls
        .transaction(&[0x05], 0)
        .transaction(&[0xB8, 0, 0], 2)
        .tick();
    assert_eq!(calls.len(), 4);
    let (mut model, mut answers) = (Model::fresh(), Answers::new());
    model.run(&calls, &mut [], &mut answers);
    assert_eq!(answers.iter().len(), 4);
    let mut outputs: Vec<u8> = Vec::new();
    for (answer, output) in &answers {
        assert!(answer.is_ok());
        outputs.extend(output);
    }
    assert_eq!(outputs, [0x10, 0x10]);
}
