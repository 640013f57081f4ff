//! Asks by mode: how often each was granted, and refused with 14 and with 15.

use std::fmt;

/// The modes, with whether their mediating sets are judged: Detect and Change Protection can't be
/// refused with 15 (01, "Rows, roles and the test"; 02, [2]).
const MODES: [(&str, bool); 5] = [
    ("Read", true),
    ("Write", true),
    ("Execute", true),
    ("Detect", false),
    ("Change Protection", false),
];

/// The numbers that are counted: granted, the row not passed, mediating sets unfit.
const JUDGED: [usize; 3] = [0, 14, 15];
const UNFIT: usize = 2;

/// How often each mode gave each of these numbers.
#[derive(Default)]
pub struct ByMode([[u64; 3]; 5]);

impl ByMode {
    /// Counts an ask's answer; one that its mode can't give is an error.
    pub fn count(&mut self, mode: u8, number: usize) -> Result<(), String> {
        let Some(which) = JUDGED.iter().position(|&judged| judged == number) else {
            return Ok(());
        };
        match MODES.get(usize::from(mode)) {
            Some((_, mediated)) if *mediated || which != UNFIT => {
                self.0[usize::from(mode)][which] += 1;
                Ok(())
            }
            _ => Err(format!("no answer of an ask for mode {mode}")),
        }
    }

    /// What had to be met and was not.
    pub fn missing(&self) -> Vec<String> {
        let mut missing = Vec::new();
        for ((mode, mediated), counts) in MODES.iter().zip(self.0) {
            for (which, number) in JUDGED.iter().enumerate() {
                if counts[which] == 0 && (*mediated || which != UNFIT) {
                    missing.push(format!("ask, {mode}, never gave {number}"));
                }
            }
        }
        missing
    }

    /// Asks granted, and asks refused with 14 or 15.
    pub fn judged(&self) -> [u64; 2] {
        let count = |which: usize| -> u64 { self.0.iter().map(|counts| counts[which]).sum() };
        [count(0), count(1) + count(UNFIT)]
    }
}

impl fmt::Display for ByMode {
    fn fmt(&self, f: &mut fmt::Formatter<'_>) -> fmt::Result {
        writeln!(f, "{:>9} {:>9} {:>9}", "ask: 0", "14", "15")?;
        for ((mode, mediated), [granted, row, unfit]) in MODES.iter().zip(self.0) {
            let unfit = match mediated {
                true => unfit.to_string(),
                false => "-".to_string(),
            };
            writeln!(f, "{granted:>9} {row:>9} {unfit:>9}  {mode}")?;
        }
        Ok(())
    }
}
