//! How frames' decodings end, by rate, by call, and after how many rounds.

use crate::frame::FRAME_ROUNDS;
use crate::frame_decoding::{Answer, By, Frame};
use crate::oracle::RATES;
use crate::rounds::{UP_TO, listed};

/// The ways to an end, of frames that are not turned down by 1 or 3.
const WAYS: [&str; 6] = [
    "accepted by rounds",
    "accepted by the list",
    "10 with fallback 0",
    "10 blind with fallback 1",
    "11 by rounds",
    "11 by the list",
];

/// All numbers of a frame.
const NUMBERS: [u8; 5] = [0, 1, 3, 10, 11];

/// Frames counted: by rate and way, by call and number, and those accepted by rounds, by their count.
#[derive(Default)]
pub struct FrameEnds {
    ways: [[u64; WAYS.len()]; RATES.len()],
    numbers: [[u64; NUMBERS.len()]; By::ALL.len()],
    accepted: [u64; UP_TO.len()],
}

impl FrameEnds {
    pub fn count(&mut self, frame: &Frame, answer: &Answer) {
        let place = NUMBERS.iter().position(|&number| number == answer.number);
        self.numbers[frame.by.index()][place.expect("a frame's number")] += 1;
        if let Some(way) = way(frame, answer) {
            self.ways[frame.rate][way] += 1;
        }
        if answer.number == 0 && !answer.is_from_list {
            self.accepted[UP_TO.partition_point(|&last| last < answer.rounds)] += 1;
        }
    }

    /// Prints the counts. None of them may be 0 but what cannot be: a call that takes neither rate nor
    /// layout is never turned down by 1, and no word is found without a round.
    pub fn finish(self) {
        for (rate, ways) in self.ways.iter().enumerate() {
            println!("frames of rate {rate}: {}", listed(&WAYS, ways));
            assert!(ways.iter().all(|&count| count > 0), "frames of every way");
        }
        println!(
            "frames accepted by rounds, by rounds up to {}",
            listed(&UP_TO, &self.accepted)
        );
        assert_eq!(self.accepted[0], 0, "no frame without a round");
        assert!(
            self.accepted[1..].iter().all(|&count| count > 0),
            "frames of every count of rounds"
        );
        for (by, numbers) in By::ALL.into_iter().zip(&self.numbers) {
            let name = By::NAMES[by.index()];
            println!("{name}, by number {}", listed(&NUMBERS, numbers));
            let takes_numbers = !matches!(by, By::Prior | By::Nothing);
            let mut all = NUMBERS.iter().zip(numbers);
            assert!(
                all.all(|(&number, &count)| (count > 0) == (number != 1 || takes_numbers)),
                "frames of every number"
            );
        }
    }
}

/// The way to the end among `WAYS`, where the frame is not turned down by 1 or 3. A count of rounds goes
/// with it: the list's is that of all.
fn way(frame: &Frame, answer: &Answer) -> Option<usize> {
    let is_blind = !frame.priors.are_some();
    let way = match (answer.number, answer.is_from_list) {
        (1 | 3, _) => return None,
        (0, false) => 0,
        (0, true) => 1,
        (10, _) if frame.fallback == 0 => 2,
        (10, _) => 3,
        (11, false) => 4,
        (11, true) => 5,
        (number, _) => panic!("a frame has no number {number}"),
    };
    let may_be_list = frame.fallback == 1 && !is_blind;
    assert!(way != 3 || is_blind, "10 only where the list is not asked");
    assert!(!answer.is_from_list || may_be_list, "the list is asked");
    assert!(
        matches!(way, 0 | 4) || answer.rounds as usize == FRAME_ROUNDS,
        "all rounds are made where they find no word"
    );
    Some(way)
}
