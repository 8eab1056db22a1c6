//! What was compared, and what came of it.

use std::fmt;

/// All answers of the library and all memory that it left, in their order, as one number (FNV-1a): the same for libraries that answer alike.
pub struct Digest(u64);

impl Default for Digest {
    fn default() -> Digest {
        Digest(0xcbf2_9ce4_8422_2325)
    }
}

impl Digest {
    pub fn add(&mut self, bytes: impl IntoIterator<Item = u8>) {
        for byte in bytes {
            self.0 = (self.0 ^ u64::from(byte)).wrapping_mul(0x0000_0100_0000_01b3);
        }
    }
}

/// What was compared.
#[derive(Default)]
pub struct Tally {
    /// How often each number 0 to 16 was answered, for judge, write, list, quick, run and reason.
    pub answers: [[u64; 17]; 6],
    pub tickets: u64,
    /// Those of the tickets that have a circulation among the steps that can be read.
    pub circulating: u64,
    /// Those with pairs that trade places, and those that are out of order by the table alone.
    pub with_pairs: u64,
    pub table_alone: u64,
    /// Of the first five entries, so that it can be compared with that of a library that has no sixth.
    pub digest: Digest,
    pub reason_digest: Digest,
}

impl Tally {
    pub fn of_number(&self, number: usize) -> u64 {
        self.answers.iter().map(|entry| entry[number]).sum()
    }
}

impl fmt::Display for Tally {
    fn fmt(&self, f: &mut fmt::Formatter) -> fmt::Result {
        writeln!(
            f,
            "number {:>9} {:>9} {:>9} {:>9} {:>9} {:>9}",
            "judge", "write", "list", "quick", "run", "reason"
        )?;
        for number in 0..17 {
            write!(f, "{number:>6}")?;
            for entry in &self.answers {
                write!(f, " {:>9}", entry[number])?;
            }
            writeln!(f)?;
        }
        let (Digest(digest), Digest(reasons)) = (&self.digest, &self.reason_digest);
        writeln!(
            f,
            "{} tickets, {} of them with circulations; digest {digest:016x} of the first five entries",
            self.tickets, self.circulating
        )?;
        writeln!(
            f,
            "{} with pairs that trade places, {} by the table alone; digest {reasons:016x} of reason",
            self.with_pairs, self.table_alone
        )
    }
}
