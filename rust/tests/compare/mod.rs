//! The six entries beside the reference: number, place, count and all lent memory. Shared by the test and the example `differential`.

mod records;
mod tally;

use std::fmt;

use hurkeztor::entries::{self, PairRecord};
use reference::reason::Record;
use reference::tickets::{Random, as_words};
use reference::{Answers, reading};

use records::{to_library, to_reference};
pub use tally::Tally;

/// Words, bytes or records on either side of what is lent, which no entry may touch.
const GUARD: usize = 16;
/// The place of reason among the entries.
const REASON: usize = 5;
/// The longest list that is lent.
const MOST_RECORDS: usize = 4000;
/// With more iterations, the reference takes long for each list.
const MANY_ITERATIONS: usize = 500;

/// A ticket that an entry and the reference answer differently.
pub struct Difference {
    seed: u64,
    index: u64,
    call: String,
    library: String,
    reference: String,
    ticket: Vec<u8>,
}

impl fmt::Display for Difference {
    fn fmt(&self, f: &mut fmt::Formatter) -> fmt::Result {
        writeln!(f, "seed {}, index {}: {} differs", self.seed, self.index, self.call)?;
        writeln!(f, "  library    {}", self.library)?;
        writeln!(f, "  reference  {}", self.reference)?;
        write!(f, "  words      {}", as_words(&self.ticket))
    }
}

/// An entry's answer as the reference has it.
fn as_reference(answer: entries::Answer) -> reference::Answer {
    reference::Answer {
        number: answer.number,
        place: answer.place,
        count: answer.count,
    }
}

/// One ticket on its way through the entries.
struct Comparison<'a> {
    ticket: &'a [u8],
    answers: Answers,
    random: Random,
    tally: &'a mut Tally,
}

/// The call, what the library answered and left, and what the reference did.
struct Apart {
    call: String,
    library: String,
    reference: String,
}

type Outcome = Result<(), Apart>;

/// What memory is lent in: bytes, the words of a store, or pair records.
trait Unit: PartialEq + fmt::Debug + Copy {
    fn bytes(self) -> impl IntoIterator<Item = u8>;
}

impl Unit for u8 {
    fn bytes(self) -> impl IntoIterator<Item = u8> {
        [self]
    }
}

impl Unit for u32 {
    fn bytes(self) -> impl IntoIterator<Item = u8> {
        self.to_le_bytes()
    }
}

impl Unit for PairRecord {
    fn bytes(self) -> impl IntoIterator<Item = u8> {
        let indices = [self.source, self.sink].concat();
        let rest = [self.source_statement, self.sink_statement, self.kind];
        let indices = indices.into_iter().flat_map(i16::to_le_bytes);
        indices.chain(rest.into_iter().flat_map(u16::to_le_bytes))
    }
}

impl Comparison<'_> {
    /// Both answers and both memories, the guards with them.
    fn equal<T: Unit>(
        &mut self,
        entry: usize,
        call: String,
        library: (entries::Answer, &[T]),
        reference: (reference::Answer, &[T]),
    ) -> Outcome {
        self.tally.answers[entry][reference.0.number as usize] += 1;
        let entries::Answer { number, place, count } = library.0;
        let digest = if entry == REASON {
            &mut self.tally.reason_digest
        } else {
            &mut self.tally.digest
        };
        digest.add([u32::from(number), place, count].into_iter().flat_map(u32::to_le_bytes));
        digest.add(library.1.iter().flat_map(|unit| unit.bytes()));
        if as_reference(library.0) != reference.0 {
            return Err(Apart {
                call,
                library: format!("{:?}", library.0),
                reference: format!("{:?}", reference.0),
            });
        }
        match (0..library.1.len()).find(|at| library.1[*at] != reference.1[*at]) {
            None => Ok(()),
            Some(at) => Err(Apart {
                call: format!("memory after {call}"),
                library: format!("{:?} at {}", library.1[at], at as i64 - GUARD as i64),
                reference: format!("{:?}", reference.1[at]),
            }),
        }
    }

    fn judge(&mut self) -> Outcome {
        let (library, reference) = (entries::judge(self.ticket), self.answers.judge());
        self.equal::<u8>(0, "judge".into(), (library, &[]), (reference, &[]))
    }

    /// The output's exact length, a greater one, one too short and none; or, on a refusal, none and some.
    fn lengths(&mut self, output: Option<usize>) -> Vec<usize> {
        match output {
            Some(length) => vec![length, length + 1 + self.random.below(50), length - 1, 0],
            None => vec![0, self.random.below(3000)],
        }
    }

    fn bytes(&mut self, length: usize) -> Vec<u8> {
        let first = self.random.bits() as u8;
        let pattern = (0..length + 2 * GUARD).map(|at| first.wrapping_add((at as u8).wrapping_mul(89)));
        pattern.collect()
    }

    fn write(&mut self) -> Outcome {
        let output = self.answers.new_nest().ok().map(|output| output.len());
        for length in self.lengths(output) {
            let (mut ours, lent) = (self.bytes(length), GUARD..GUARD + length);
            let mut theirs = ours.clone();
            let library = entries::write(self.ticket, &mut ours[lent.clone()]);
            let reference = self.answers.write(&mut theirs[lent]);
            self.equal(1, format!("write into {length} bytes"), (library, &ours), (reference, &theirs))?;
        }
        Ok(())
    }

    fn list(&mut self) -> Outcome {
        let output = self.answers.listing().ok().map(|output| output.len());
        for length in self.lengths(output) {
            let (mut ours, lent) = (self.bytes(length), GUARD..GUARD + length);
            let mut theirs = ours.clone();
            let library = entries::list(self.ticket, &mut ours[lent.clone()]);
            let reference = self.answers.list(&mut theirs[lent]);
            self.equal(2, format!("list into {length} bytes"), (library, &ours), (reference, &theirs))?;
        }
        Ok(())
    }

    /// Numbers of accesses that are there, and some that are not.
    fn quick(&mut self) -> Outcome {
        let statements = self.answers.admitted.as_ref().map(|admitted| &admitted.ticket.nest.statements);
        let accesses = statements.map_or(1, |s| s.iter().map(|s| 1 + s.reads.len()).sum());
        let strange = self
            .random
            .pick(&[0, accesses as u64 + 1, u64::MAX, 1 << 32, (1 << 32) + 1, 1 << 63]);
        let mut pairs = vec![(1, 1), (strange, 1), (1, strange)];
        for _ in 0..accesses.min(8) {
            let (first, second) = (self.random.below(accesses), self.random.below(accesses));
            pairs.push((first as u64 + 1, second as u64 + 1));
        }
        for (first, second) in pairs {
            let library = entries::quick(self.ticket, first, second);
            let reference = self.answers.quick(first, second);
            self.equal::<u8>(3, format!("quick {first} {second}"), (library, &[]), (reference, &[]))?;
        }
        Ok(())
    }

    fn store(&mut self, length: usize) -> Vec<u32> {
        let word = |_| {
            let any = self.random.bits() as u32;
            self.random.pick(&[any, any, any & 0xff, 0, 1, u32::MAX, 1 << 31])
        };
        (0..length + 2 * GUARD).map(word).collect()
    }

    /// Stores of the right length, one more, one less and none; or, on a refusal, none and some.
    fn run(&mut self) -> Outcome {
        let elements = match &self.answers.judged {
            Ok(judged) => Some(judged.nest.elements() as usize),
            Err(_) => None,
        };
        let lengths = match elements {
            Some(right) => vec![right, right + 1, right - 1, 0],
            None => vec![0, self.random.below(200)],
        };
        for length in lengths {
            let (mut ours, lent) = (self.store(length), GUARD..GUARD + length);
            let mut theirs = ours.clone();
            let library = entries::run(self.ticket, &mut ours[lent.clone()]);
            let reference = self.answers.run(&mut theirs[lent]);
            self.equal(4, format!("run on {length} words"), (library, &ours), (reference, &theirs))?;
        }
        Ok(())
    }

    fn records(&mut self, length: usize) -> Vec<PairRecord> {
        let record = |_| {
            let [a, b, c] = [(); 3].map(|()| self.random.bits());
            let indices = |bits: u64| [0, 16, 32, 48].map(|shift| (bits >> shift) as i16);
            PairRecord {
                source: indices(a),
                sink: indices(b),
                source_statement: c as u16,
                sink_statement: (c >> 16) as u16,
                kind: (c >> 32) as u16,
            }
        };
        (0..length + 2 * GUARD).map(record).collect()
    }

    /// Lists of exactly as many records as there are pairs, more, fewer, one and none; or, where no pair trades places, none and some.
    fn list_lengths(&mut self) -> Vec<usize> {
        if let Ok(admitted) = &self.answers.admitted
            && admitted.points.len() > MANY_ITERATIONS
        {
            return vec![self.random.below(MOST_RECORDS)];
        }
        let told = self.answers.reason(&mut []);
        let lengths = match told.count as usize {
            pairs if told.place > 0 && pairs > 0 => vec![pairs, pairs + 1 + self.random.below(20), self.random.below(pairs), 1, 0],
            _ => vec![self.random.below(20), 0],
        };
        lengths.into_iter().map(|length| length.min(MOST_RECORDS)).collect()
    }

    fn reason(&mut self) -> Outcome {
        for (call, length) in self.list_lengths().into_iter().enumerate() {
            let (mut ours, lent) = (self.records(length), GUARD..GUARD + length);
            let mut theirs: Vec<Record> = ours.iter().map(to_reference).collect();
            let library = entries::reason(self.ticket, &mut ours[lent.clone()]);
            let reference = self.answers.reason(&mut theirs[lent]);
            let theirs: Vec<PairRecord> = theirs.iter().map(to_library).collect();
            let out_of_order = call == 0 && reference.number == 0 && reference.place > 0;
            self.tally.with_pairs += u64::from(out_of_order && reference.count > 0);
            self.tally.table_alone += u64::from(out_of_order && reference.count == 0);
            self.equal(
                REASON,
                format!("reason with {length} records"),
                (library, &ours),
                (reference, &theirs),
            )?;
        }
        Ok(())
    }
}

/// Which entries are compared.
#[derive(Clone, Copy, PartialEq)]
pub enum Compared {
    All,
    Reason,
}

/// The entries on the ticket that is made of a seed and an index.
pub fn compare(
    compared: Compared,
    ticket: impl Fn(u64, u64) -> Vec<u8>,
    seed: u64,
    index: u64,
    tally: &mut Tally,
) -> Result<(), Box<Difference>> {
    let bytes = ticket(seed, index);
    tally.tickets += 1;
    tally.circulating += u64::from(has_circulation(&bytes));
    let lent = bytes.clone();
    let mut comparison = Comparison {
        ticket: &lent,
        answers: Answers::to(&bytes),
        random: Random::of(!seed, index),
        tally,
    };
    let entries = [
        Comparison::judge,
        Comparison::write,
        Comparison::list,
        Comparison::quick,
        Comparison::run,
        Comparison::reason,
    ];
    let first = if compared == Compared::Reason { REASON } else { 0 };
    let mut outcome = entries[first..].iter().try_for_each(|entry| entry(&mut comparison));
    if outcome.is_ok() && lent != bytes {
        outcome = Err(Apart {
            call: "the lent ticket".into(),
            library: as_words(&lent),
            reference: "unchanged".into(),
        });
    }
    outcome.map_err(|apart| {
        Box::new(Difference {
            seed,
            index,
            call: apart.call,
            library: apart.library,
            reference: apart.reference,
            ticket: bytes,
        })
    })
}

/// Whether kind 5 is among the steps that can be read.
pub fn has_circulation(ticket: &[u8]) -> bool {
    reading::kinds(ticket).contains(&5)
}
