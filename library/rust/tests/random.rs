//! A million random calls through the library and on the second model, in one process; the model is stored and loaded
//! again after each. Then the calls beside the model.

use max35101::{Answer, Answers, Calls, Delivered, Digits, Model, FLASH_SIZE};
use second_model::model::Outcome;
use second_model::Model as Second;
use second_model::{record, set_up_frames, thermometer};

const CALLS: u64 = 1_000_000;
const SEED: u64 = 0x1357_9BDF_0246_8ACE;

/// Numbers that look random, by xorshift.
struct Random(u64);

impl Random {
    fn next(&mut self) -> u64 {
        self.0 ^= self.0 << 13;
        self.0 ^= self.0 >> 7;
        self.0 ^= self.0 << 17;
        self.0
    }

    fn below(&mut self, n: u64) -> u64 {
        (self.next() >> 11) % n
    }

    fn byte(&mut self) -> u8 {
        self.next().to_le_bytes()[3]
    }
}

/// The same chip twice.
struct Pair {
    model: Model,
    flash: Vec<u8>,
    second: Second,
    second_flash: Vec<u8>,
}

fn number<T>(answer: &Result<T, max35101::Refusal>) -> Option<u32> {
    answer.as_ref().err().map(|refusal| refusal.number())
}

fn second_number<T>(answer: &Result<T, second_model::refusal::Refusal>) -> Option<u32> {
    answer.as_ref().err().map(|&refusal| refusal as u32)
}

fn outcome(delivered: Delivered) -> Outcome {
    match delivered {
        Delivered::Good => Outcome::Good,
        Delivered::Failed => Outcome::Failed,
    }
}

impl Pair {
    fn fresh() -> Pair {
        Pair {
            model: Model::fresh(),
            flash: vec![0xFF; FLASH_SIZE],
            second: Second::fresh(),
            second_flash: vec![0xFF; FLASH_SIZE],
        }
    }

    fn transaction(&mut self, frame: &[u8], room: usize) -> Option<u32> {
        let (mut output, mut second_output) = (vec![0xEE; room], vec![0xEE; room]);
        let answer = self.model.transaction(frame, &mut output, &mut self.flash);
        let second = self
            .second
            .transaction(frame, &mut second_output, &mut self.second_flash);
        assert_eq!(number(&answer), second_number(&second), "{frame:02X?}");
        let started = answer.map(|started| (started.flight, started.temperature));
        let second_started = second.map(|started| (started.flight, started.temperature));
        assert_eq!(started.ok(), second_started.ok(), "{frame:02X?}");
        assert_eq!(output, second_output, "{frame:02X?}");
        number(&answer)
    }

    fn ticks(&mut self, count: u32) {
        for tick in 1..=count {
            let (said, second) = (self.model.tick(), self.second.tick());
            let said = [
                said.flight_started,
                said.flight_failed,
                said.temperature_started,
                said.temperature_failed,
            ];
            let second = [
                second.flight_started,
                second.flight_failed,
                second.temperature_started,
                second.temperature_failed,
            ];
            assert_eq!(said, second, "tick {tick}");
            self.store_and_load();
        }
    }

    fn stretch(&mut self, count: u32) {
        let said = self.model.stretch(count).expect("not too long");
        let mut ticks = [None; 4];
        for tick in 1..=count {
            let report = self.second.tick();
            let happened = [
                report.flight_started,
                report.flight_failed,
                report.temperature_started,
                report.temperature_failed,
            ];
            for (place, happened) in ticks.iter_mut().zip(happened) {
                if happened {
                    *place = Some(tick);
                }
            }
        }
        let said = [
            said.flight_started,
            said.flight_failed,
            said.temperature_started,
            said.temperature_failed,
        ];
        assert_eq!(said, ticks);
    }

    fn delivery(&mut self, up: &[u32], down: Option<&[u32]>) -> Option<u32> {
        let wide = |words: &[u32]| words.iter().map(|&word| word.into()).collect::<Vec<i64>>();
        let (answer, second) = match down {
            Some(down) => (
                self.model.deliver_flight(up, down),
                self.second.deliver_flight(&wide(up), &wide(down)),
            ),
            None => (
                self.model.deliver_temperature(up),
                self.second.deliver_temperature(&wide(up)),
            ),
        };
        assert_eq!(number(&answer), second_number(&second));
        assert_eq!(answer.map(outcome).ok(), second.ok());
        number(&answer)
    }

    /// What the registers, the questions and the set-up's frames say, and the user flash.
    fn compare(&mut self) {
        for address in 0xB0..=0xFF {
            let word = self.model.peek(address).expect("an address");
            assert_eq!(word, self.second.register(address), "{address:02X}");
        }
        assert_eq!(self.model.interrupt_pending(), self.second.interrupt());
        let (flight, temperature) = (&self.second.flight, &self.second.temperature);
        assert_eq!(self.model.flight_awaited(), flight.is_awaited());
        assert_eq!(self.model.temperature_awaited(), temperature.is_awaited());
        assert_eq!(self.model.regulator_on(), self.second.regulator_on);
        assert_eq!(self.model.initialised(), self.second.initialised);
        let now = self.second.now;
        for (left, place, kind) in [
            (self.model.flight_left(), self.model.flight_place(), flight),
            (
                self.model.temperature_left(),
                self.model.temperature_place(),
                temperature,
            ),
        ] {
            assert_eq!(left.is_some(), kind.is_awaited());
            if let Some(left) = left {
                assert!(kind.fails_at(now + i64::from(left)));
            }
            assert_eq!(place.is_some(), !kind.is_finished());
            if let (Some(place), Some(series)) = (place, &kind.series) {
                assert_eq!(i64::from(place.good), series.good());
                match place.next_start {
                    Some(next) => assert!(kind.starts_at(now + i64::from(next))),
                    None => assert_eq!(place.started, place.planned),
                }
            }
        }
        let frames = set_up_frames::frames(&self.second.registers);
        assert_eq!(self.model.setup_frames(), frames);
        assert_eq!(self.flash, self.second_flash);
    }

    fn store_and_load(&mut self) {
        let loaded = Model::from_bytes(self.model.as_bytes()).expect("what was stored");
        assert_eq!(loaded, self.model);
        self.model = loaded;
    }
}

/// A frame that is often a good one.
fn frame(random: &mut Random) -> Vec<u8> {
    let word = |random: &mut Random| [random.byte(), random.byte()];
    let mut frame = match random.below(16) {
        0 => vec![random.byte()],
        1 => vec![0x05],
        2 => vec![0x38, 0x10 | random.byte() & 0x0F, 0x10],
        3 => vec![0x40, 0x00, 0x60],
        4 => vec![0x40, random.byte(), random.byte()],
        5 => vec![0x42, random.byte() & 0x1F, random.byte()],
        6 => vec![0x43, random.byte() & 0x0F, random.byte() & 0xFC],
        7 => vec![0x02 + (random.byte() & 1)],
        8 => vec![0x07 + random.byte() % 4],
        9 => vec![0xE2, 0, 0, 0, 0],
        10 => vec![0xB0 + random.byte() % 80; 1 + 2 * random.below(9) as usize],
        11 => vec![0xFE, 0, 0],
        12 => vec![0x0C + (random.byte() & 1)],
        13 => vec![0x10, random.byte() & 0x1F, random.byte() & 0xFE, 0x12, 0x34],
        14 => vec![0x90, random.byte() & 0x1F, random.byte(), 0, 0],
        _ => vec![0x30 + random.byte() % 20],
    };
    if random.below(8) == 0 {
        for _ in 0..random.below(4) {
            frame.extend(word(random));
        }
    }
    if random.below(40) == 0 {
        frame.truncate(random.below(3) as usize);
    }
    frame
}

fn hits(random: &mut Random) -> Vec<u32> {
    let count = if random.below(8) == 0 {
        random.below(8)
    } else {
        1 + random.below(6)
    };
    let wide = random.below(4) == 0;
    (0..count)
        .map(|_| random.next() as u32 >> if wide { 0 } else { 9 })
        .collect()
}

#[test]
fn a_million_calls() {
    let mut random = Random(SEED);
    let mut pair = Pair::fresh();
    let (mut calls, mut refused, mut ticks) = (0u64, 0u64, 0u64);
    while calls < CALLS {
        if random.below(2_000) == 0 {
            pair = Pair::fresh();
        }
        let answer = match random.below(10) {
            0..=4 => {
                let frame = frame(&mut random);
                let room = random.below(3) as usize * frame.len();
                pair.transaction(&frame, room)
            }
            5 => {
                let count = 1 + random.below(30) as u32;
                pair.ticks(count);
                calls += u64::from(count) - 1;
                ticks += u64::from(count);
                None
            }
            6 => {
                let bits = random.below(15);
                let count = random.below(1 << bits) as u32;
                pair.stretch(count);
                ticks += u64::from(count);
                None
            }
            7 | 8 => {
                let up = hits(&mut random);
                let down = if random.below(8) == 0 {
                    hits(&mut random)
                } else {
                    up.iter().map(|&word| word ^ 0x55).collect()
                };
                let one_way = random.below(4) == 0;
                pair.delivery(&up, Some(if one_way { &[] } else { &down }))
            }
            _ => {
                let words: Vec<u32> = (0..4).map(|_| random.next() as u32 >> 8).collect();
                pair.delivery(&words, None)
            }
        };
        calls += 1;
        refused += u64::from(answer.is_some());
        pair.store_and_load();
        if random.below(32) == 0 {
            pair.compare();
        }
    }
    pair.compare();
    println!("{calls} calls, {refused} refused, {ticks} ticks, no difference");
    assert!(
        refused * 5 < calls * 4,
        "too few accepted calls: {refused} of {calls} refused"
    );
}

/// Random calls in lists through `run`, and one by one; the answers, outputs, models and flashes are the same.
#[test]
fn lists_are_single_calls() {
    let mut random = Random(SEED ^ 1);
    let (mut model, mut flash) = (Model::fresh(), vec![0xFF; FLASH_SIZE]);
    let (mut single, mut single_flash) = (model.clone(), flash.clone());
    let (mut calls, mut answers) = (Calls::new(), Answers::new());
    let (mut done, mut refused) = (0, 0);
    while done < CALLS {
        calls.clear();
        let mut wanted: Vec<(Result<Answer, max35101::Refusal>, Vec<u8>)> = Vec::new();
        for _ in 0..random.below(40) {
            let (answer, output) = one(&mut random, &mut calls, &mut single, &mut single_flash);
            refused += u64::from(answer.is_err());
            wanted.push((answer, output));
        }
        model.run(&calls, &mut flash, &mut answers);
        let given: Vec<_> = answers
            .iter()
            .map(|(answer, output)| (answer, output.to_vec()))
            .collect();
        assert_eq!(given, wanted);
        assert_eq!(model, single);
        assert_eq!(flash, single_flash);
        done += wanted.len() as u64;
    }
    println!("{done} calls in lists, {refused} refused, no difference");
    assert!(refused * 5 < done * 4, "too few accepted calls");
}

/// One random call, put into the list and done by itself.
fn one(
    random: &mut Random,
    calls: &mut Calls,
    model: &mut Model,
    flash: &mut [u8],
) -> (Result<Answer, max35101::Refusal>, Vec<u8>) {
    match random.below(10) {
        0..=4 => {
            let frame = frame(random);
            let mut output = vec![0; random.below(3) as usize * frame.len()];
            calls.transaction(&frame, output.len());
            let answer = model.transaction(&frame, &mut output, flash);
            (answer.map(Answer::Transaction), output)
        }
        5 => {
            calls.tick();
            (Ok(Answer::Tick(model.tick())), Vec::new())
        }
        6 => {
            let bits = random.below(16);
            let ticks = random.below(1 << bits) as u32;
            calls.stretch(ticks);
            (model.stretch(ticks).map(Answer::Stretch), Vec::new())
        }
        7 | 8 => {
            let up = hits(random);
            let down = if random.below(4) == 0 {
                Vec::new()
            } else {
                up.clone()
            };
            calls.deliver_flight(&up, &down);
            let answer = model.deliver_flight(&up, &down);
            (answer.map(Answer::Delivery), Vec::new())
        }
        _ => {
            let words: Vec<u32> = (0..3 + random.below(2) as usize)
                .map(|_| random.next() as u32 >> 8)
                .collect();
            calls.deliver_temperature(&words);
            let answer = model.deliver_temperature(&words);
            (answer.map(Answer::Delivery), Vec::new())
        }
    }
}

const BESIDE: u64 = 20_000;

/// Set-ups of words that are often the factory's: the same frames, and they bring a fresh model to the set-up.
#[test]
fn set_ups_as_frames() {
    let mut random = Random(SEED ^ 2);
    let mut frames = 0;
    for _ in 0..BESIDE {
        let mut pair = Pair::fresh();
        for _ in 0..random.below(6) {
            // The alarm at 35h takes no random word.
            let first = [0x34, 0x36 + random.byte() % 14][random.below(2) as usize];
            let mut write = vec![first];
            let most = if first == 0x34 {
                1
            } else {
                0x44 - u64::from(first)
            };
            for _ in 0..=random.below(most) {
                let word = [0, random.byte()][random.below(2) as usize];
                write.extend([word & 0x0F, word]);
            }
            assert_eq!(pair.transaction(&write, 0), None, "{write:02X?}");
        }
        pair.compare();
        let mut other = Pair::fresh();
        for frame in pair.model.setup_frames() {
            assert_eq!(other.transaction(&frame, 0), None, "{frame:02X?}");
            frames += 1;
        }
        assert_eq!(other.model.setup_frames(), pair.model.setup_frames());
        assert_eq!(other.model.as_bytes(), pair.model.as_bytes());
    }
    println!("{BESIDE} set-ups, {frames} frames, no difference");
}

/// A table that is often a good one.
fn table(random: &mut Random) -> Vec<u32> {
    let count = match random.below(4) {
        0 => random.below(4),
        1 => 510 + random.below(5),
        _ => 2 + random.below(200),
    };
    let (mut entry, step) = (900_000 + random.below(200_000), 1 + random.below(4_000));
    let mut table = Vec::new();
    for _ in 0..count {
        table.push(entry as u32);
        entry += 1 + random.below(step);
    }
    if random.below(8) == 0 && count > 0 {
        let place = random.below(count) as usize;
        table[place] = [0, 10_000_000, 10_000_001][random.below(3) as usize];
    }
    table
}

/// The words of a probe, often of a resistance on the table or just off it, and of its reference.
fn probe(random: &mut Random, table: &[u32]) -> (u32, u32) {
    let reference = match random.below(16) {
        0 => [0, 1, 1_000_000, u32::MAX][random.below(4) as usize],
        _ => 1 + (random.next() as u32 >> 10),
    };
    let least = u64::from(*table.first().unwrap_or(&5)).max(2) - 2;
    let largest = u64::from(*table.last().unwrap_or(&5)).max(least) + 2;
    let milliohms = least + random.below(largest - least + 1);
    let near = (u64::from(reference) * milliohms).div_ceil(1_000_000) as u32;
    match random.below(16) {
        0 => (u32::MAX, reference),
        1 => (random.next() as u32, reference),
        _ => (near, reference),
    }
}

#[test]
fn degrees() {
    let mut random = Random(SEED ^ 3);
    let pt1000 = thermometer::pt1000();
    let mut refused = 0;
    for _ in 0..BESIDE {
        let (word, reference) = probe(&mut random, &pt1000);
        let given = max35101::degrees(word, reference);
        let wanted = thermometer::degrees(&pt1000, word, reference);
        assert_eq!(number(&given), second_number(&wanted));
        assert_eq!(given.ok(), wanted.ok(), "{word} {reference}");
        refused += u64::from(given.is_err());
        let own = table(&mut random);
        let (word, reference) = probe(&mut random, &own);
        let given = max35101::degrees_by(&own, word, reference);
        let wanted = thermometer::degrees(&own, word, reference);
        assert_eq!(number(&given), second_number(&wanted));
        assert_eq!(given.ok(), wanted.ok(), "{own:?} {word} {reference}");
        refused += u64::from(given.is_err());
    }
    println!("{} degrees, {refused} refused, no difference", 2 * BESIDE);
    assert!(refused * 5 < 2 * BESIDE * 4, "too few accepted calls");
}

#[test]
fn quiet_runs_and_listings() {
    let mut random = Random(SEED ^ 4);
    let mut refused = 0;
    for _ in 0..BESIDE {
        let wide = [0, 20, 28][random.below(3) as usize];
        let differences: Vec<i32> = (0..random.below(60))
            .map(|_| random.next() as i32 >> wide)
            .collect();
        let width = random.below(differences.len() as u64 + 3) as usize;
        let given = max35101::quietest_place(&differences, width);
        let wanted = record::quietest(&differences, width);
        assert_eq!(number(&given), second_number(&wanted));
        let place = wanted.map(|(place, _)| place).ok();
        assert_eq!(given.ok(), place, "{differences:?} {width}");
        let run = max35101::quietest(&differences, width).ok();
        assert_eq!(run, place.map(|place| &differences[place..place + width]));
        refused += u64::from(given.is_err());
        for (digits, last) in [(Digits::Two, 0xFF), (Digits::Eight, u32::MAX)] {
            let first = match random.below(3) {
                0 => last - random.below(64) as u32,
                1 => random.next() as u32,
                _ => random.below(200) as u32,
            };
            let given = max35101::listing(digits, &differences, first);
            let wanted = record::listing(&differences, first, digits as usize);
            assert_eq!(number(&given), second_number(&wanted));
            refused += u64::from(given.is_err());
            assert_eq!(given.ok(), wanted.ok(), "{differences:?} {first}");
        }
    }
    println!(
        "{} runs and listings, {refused} refused, no difference",
        3 * BESIDE
    );
    assert!(refused * 5 < 3 * BESIDE * 4, "too few accepted calls");
}
