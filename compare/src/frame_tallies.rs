//! The cases of the calls that decode a frame.

use crate::filling::{BEFORE, Filling};
use crate::frame_decoding::{Answer, By, Frame};
use crate::frame_ends::FrameEnds;
use crate::lent_frame::LentFrame;
use crate::own_frame::OwnFrames;
use crate::report::{Case, HeldTo, Tally};

/// The original's own call of the same name is asked too in one of so many cases of the call that takes
/// everything, and in all of the others: it answers what build.rs's sibling tells.
const OWN_CALL: u64 = 8;

/// And so it is with the Rust's own exp and ln.
const OWN_EXP: u64 = 16;

pub struct FrameTallies {
    calls: [Tally; By::ALL.len()],
    ends: FrameEnds,
    own: OwnFrames,
}

/// What the original makes of a frame, and the parts as ours left them.
pub struct Asked {
    pub answer: Answer,
    pub lent: LentFrame,
}

impl FrameTallies {
    pub fn new() -> Self {
        Self {
            calls: By::NAMES.map(Tally::new),
            ends: FrameEnds::default(),
            own: OwnFrames::default(),
        }
    }

    /// With one filling in every part, and with the other and noise in the work parts; a call that does
    /// its work is made once, with either in turn.
    pub fn ask(&mut self, frame: &Frame) -> Asked {
        let answer = frame.answer();
        let turn = self.calls[frame.by.index()].cases();
        if answer.posteriors.is_some() && (frame.by != By::At || turn.is_multiple_of(OWN_CALL)) {
            assert!(
                frame.original_bits() == answer.bits,
                "{frame}: the sibling's bits are not those of the original"
            );
        }
        if answer.posteriors.is_some() && turn % OWN_EXP == 3 {
            self.own.count(frame, &answer);
        }
        self.ends.count(frame, &answer);
        let is_refused = matches!(answer.number, 1 | 3);
        if is_refused {
            self.compare(frame, &answer, 0, turn);
        }
        let choice = if is_refused { 1 } else { turn as usize % 2 };
        let lent = self.compare(frame, &answer, choice, turn);
        Asked { answer, lent }
    }

    fn compare(&mut self, frame: &Frame, answer: &Answer, choice: usize, turn: u64) -> LentFrame {
        let fillings: &'static [Filling; 2] = &BEFORE;
        let filling = &fillings[choice];
        let held_to = match answer.number {
            1 | 3 => HeldTo::Document,
            _ => HeldTo::Rust,
        };
        let mut lent = LentFrame::new(frame, filling, (choice == 1).then_some(turn));
        let mut case = Case::held_to(held_to);
        case.value("number", lent.call(frame), answer.number);
        lent.compare(&mut case, frame, filling, answer);
        self.calls[frame.by.index()].count(case, || {
            format!("{frame} with {} in each byte", filling.narrow)
        });
        lent
    }

    /// So far, of the call that takes everything.
    pub fn cases(&self) -> u64 {
        self.calls[By::At.index()].cases()
    }

    /// Prints each call's line and gives the differences of all.
    pub fn finish(self) -> u64 {
        let differences = self.calls.into_iter().map(Tally::finish).sum();
        self.ends.finish();
        self.own.finish();
        differences
    }
}
