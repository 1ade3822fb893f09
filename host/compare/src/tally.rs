//! How many calls of each kind met each answer.

/// The three calls.
#[derive(Clone, Copy)]
pub enum Kind {
    Check,
    Draw,
    Pack,
}

/// The refusals that each call can give; 0 is success.
const POSSIBLE: [(Kind, &str, &[u32]); 3] = [
    (
        Kind::Check,
        "check",
        &[0, 1, 2, 3, 4, 5, 6, 7, 8, 9, 10, 11, 12, 13, 14, 15],
    ),
    (
        Kind::Draw,
        "draw",
        &[0, 1, 2, 3, 4, 5, 6, 7, 8, 9, 10, 11, 12, 13, 14, 15, 16, 17],
    ),
    (Kind::Pack, "pack", &[0, 8, 17, 18, 19, 20]),
];

/// Calls by kind and number, and written packets by f and form.
#[derive(Default)]
pub struct Tally {
    answers: [[u64; 21]; 3],
    f: [u64; 15],
    forms: [u64; 3],
}

impl Tally {
    /// Counts a call.
    pub fn count(&mut self, kind: Kind, number: u32) {
        self.answers[kind as usize][number as usize] += 1;
    }

    /// Counts a written packet by its flag.
    pub fn packet(&mut self, flag: u8) {
        self.f[usize::from(flag / 16)] += 1;
        self.forms[match flag % 8 {
            0..=3 => 0,
            4..=6 => 1,
            _ => 2,
        }] += 1;
    }

    /// All calls.
    pub fn calls(&self) -> u64 {
        self.answers.iter().flatten().sum()
    }

    /// Prints a line for each kind, and what was packed.
    pub fn print(&self) {
        for (kind, name, possible) in POSSIBLE {
            let counts = &self.answers[kind as usize];
            print!(
                "{name}: {} calls, {} accepted; refused",
                counts.iter().sum::<u64>(),
                counts[0]
            );
            for &number in &possible[1..] {
                print!(" {number}:{}", counts[number as usize]);
            }
            println!();
        }
        let [short, extended, long] = self.forms;
        println!(
            "packets: {short} short, {extended} extended, {long} long; f 0 to 14: {:?}",
            self.f
        );
    }

    /// The answers that were possible and not met.
    pub fn missing(&self) -> Vec<String> {
        let mut missing = Vec::new();
        for (kind, name, possible) in POSSIBLE {
            let unmet = |&&number: &&u32| self.answers[kind as usize][number as usize] == 0;
            missing.extend(
                possible
                    .iter()
                    .filter(unmet)
                    .map(|number| format!("{name} {number}")),
            );
        }
        missing
    }
}
