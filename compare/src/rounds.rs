//! How decodings end, and after how many rounds.

/// Rounds are counted up to each of these, past the one before.
pub const UP_TO: [u32; 9] = [0, 1, 2, 4, 8, 16, 32, 64, 100];

/// The numbers that turn a decoding down before its rounds.
const TURNED_DOWN: [u8; 5] = [2, 3, 6, 7, 9];

#[derive(Default)]
pub struct Rounds {
    accepted: [u64; UP_TO.len()],
    by_10: [u64; UP_TO.len()],
    turned_down: [u64; TURNED_DOWN.len()],
}

impl Rounds {
    /// Counts a decoding.
    pub fn count(&mut self, number: u8, rounds: u32) {
        let span = UP_TO.partition_point(|&last| last < rounds);
        let of_number = || TURNED_DOWN.iter().position(|&other| other == number);
        match number {
            0 => self.accepted[span] += 1,
            10 => self.by_10[span] += 1,
            _ => self.turned_down[of_number().expect("a decoding's number")] += 1,
        }
    }

    /// Prints the counts.
    pub fn finish(self) {
        let Self {
            accepted,
            by_10,
            turned_down,
        } = self;
        println!(
            "decodings accepted: {}, by rounds up to {}",
            accepted.iter().sum::<u64>(),
            listed(&UP_TO, &accepted)
        );
        println!(
            "decodings refused by 10: {}, by rounds up to {}",
            by_10.iter().sum::<u64>(),
            listed(&UP_TO, &by_10)
        );
        println!(
            "decodings turned down before their rounds, by number {}",
            listed(&TURNED_DOWN, &turned_down)
        );
        assert_eq!(accepted[0], 0, "no word without a round");
        let mut counts = accepted[1..].iter().chain(&by_10).chain(&turned_down);
        assert!(counts.all(|&count| count > 0), "decodings of every kind");
    }
}

/// Counts beside their names.
pub fn listed<T: std::fmt::Display>(names: &[T], counts: &[u64]) -> String {
    let named = |(name, count)| format!("{name}: {count}");
    let all: Vec<String> = names.iter().zip(counts).map(named).collect();
    all.join(", ")
}
