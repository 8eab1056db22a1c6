//! What is answered: the six functions, and the order of the refusals.

use std::collections::BTreeSet;

use crate::directions::{Line, backwards, conflicts, mapped, vectors};
use crate::points::{Point, admit, spread};
use crate::quick::apart;
use crate::reason::{Record, traded};
use crate::ticket::{Access, Nest, Ticket};
use crate::{echo, limits, reading, run as running, writing};

/// A number of the table, and a place.
#[derive(Clone, Copy, PartialEq, Eq, Debug)]
pub struct Refusal {
    pub number: u8,
    pub place: u32,
}

impl Refusal {
    pub fn new(number: u8, place: usize) -> Refusal {
        let place = u32::try_from(place).expect("a place of a ticket");
        Refusal { number, place }
    }
}

/// Number 0 accepted, else 1 to 16. The place at acceptance and the count at a refusal are 0. For the reason of a 10 the number is 0, the place the
/// refused step, and the count that of the pair records; 0 of them is 'by the table alone'.
#[derive(Clone, Copy, PartialEq, Eq, Debug, Hash)]
pub struct Answer {
    pub number: u8,
    pub place: u32,
    pub count: u32,
}

fn answer(count: Result<usize, Refusal>) -> Answer {
    match count {
        Ok(count) => Answer {
            number: 0,
            place: 0,
            count: u32::try_from(count).expect("a count of a ticket"),
        },
        Err(refusal) => Answer {
            number: refusal.number,
            place: refusal.place,
            count: 0,
        },
    }
}

/// A ticket without refusals 1 to 9: its iterations in the old order, and their conflicts.
pub struct Admitted {
    pub ticket: Ticket,
    pub points: Vec<Point>,
    pub lines: BTreeSet<Line>,
}

fn admitted(ticket: Ticket) -> Result<Admitted, Refusal> {
    let points = admit(&ticket.nest)?;
    let lines = conflicts(&ticket.nest, &points);
    Ok(Admitted { ticket, points, lines })
}

/// A ticket without refusals 1 to 13: the new nest, and its iterations in the new order.
pub struct Judged {
    pub nest: Nest,
    pub points: Vec<Point>,
}

/// The new nest, step by step: 10, 11, 12.
fn stepped(admitted: &Admitted) -> Result<Nest, Refusal> {
    let mut nest = admitted.ticket.nest.clone();
    let mut set = vectors(&admitted.lines);
    for (number, step) in (1..).zip(&admitted.ticket.steps) {
        set = set.iter().flat_map(|vector| mapped(step, vector)).collect();
        if set.iter().any(|vector| backwards(vector)) {
            return Err(Refusal::new(10, number));
        }
        nest = limits::after(step, &nest).map_err(|refused| Refusal::new(refused, number))?;
    }
    Ok(nest)
}

/// All that the answers to one ticket follow from, so that a caller who wants several has it worked out once.
pub struct Answers {
    pub admitted: Result<Admitted, Refusal>,
    pub judged: Result<Judged, Refusal>,
}

impl Answers {
    pub fn to(ticket: &[u8]) -> Answers {
        Answers::of(reading::read(ticket))
    }

    /// The same of a ticket that is read, or refused as it is. It may have more steps than a ticket's bytes.
    pub fn of(read: Result<Ticket, Refusal>) -> Answers {
        let admitted = read.and_then(admitted);
        let judged = match &admitted {
            Ok(admitted) => stepped(admitted).and_then(|nest| {
                let points = spread(&nest)?;
                Ok(Judged { nest, points })
            }),
            Err(refusal) => Err(*refusal),
        };
        Answers { admitted, judged }
    }

    fn admitted(&self) -> Result<&Admitted, Refusal> {
        self.admitted.as_ref().map_err(|refusal| *refusal)
    }

    /// The ticket as it was admitted, too, since whatever is judged was.
    fn judged(&self) -> Result<(&Admitted, &Judged), Refusal> {
        let judged = self.judged.as_ref().map_err(|refusal| *refusal)?;
        Ok((self.admitted()?, judged))
    }

    /// What write puts into a buffer that is long enough.
    pub fn new_nest(&self) -> Result<Vec<u8>, Refusal> {
        self.judged().map(|(_, judged)| writing::written(&judged.nest))
    }

    /// What list puts into a buffer that is long enough.
    pub fn listing(&self) -> Result<Vec<u8>, Refusal> {
        self.admitted().map(|admitted| {
            let loops = admitted.ticket.nest.loops.len();
            echo::listing(loops, admitted.points.len(), &admitted.lines).into_bytes()
        })
    }

    pub fn judge(&self) -> Answer {
        answer(self.judged().map(|(admitted, _)| admitted.points.len()))
    }

    pub fn write(&self, out: &mut [u8]) -> Answer {
        answer(self.new_nest().and_then(|bytes| hand_over(&bytes, out)))
    }

    pub fn list(&self, out: &mut [u8]) -> Answer {
        answer(self.listing().and_then(|bytes| hand_over(&bytes, out)))
    }

    pub fn quick(&self, first: u64, second: u64) -> Answer {
        let apart = || {
            let nest = &self.admitted()?.ticket.nest;
            let (first, second) = (access(nest, first)?, access(nest, second)?);
            Ok(usize::from(apart(nest, first, second)))
        };
        answer(apart())
    }

    pub fn run(&self, store: &mut [u32]) -> Answer {
        let mut ran = || {
            let (admitted, judged) = self.judged()?;
            let nest = &admitted.ticket.nest;
            if let Some(opaque) = nest.statements.iter().position(|s| s.rule == 0) {
                return Err(Refusal::new(15, opaque + 1));
            }
            if store.len() as i64 != nest.elements() {
                return Err(Refusal::new(16, 0));
            }
            running::run(&admitted.ticket.steps, judged, store);
            Ok(admitted.points.len())
        };
        answer(ran())
    }

    /// The pairs that trade places at the step that is refused with 10, as many as the list can take; else what judge answers.
    pub fn reason(&self, list: &mut [Record]) -> Answer {
        match (&self.admitted, &self.judged) {
            (Ok(Admitted { ticket, points, .. }), Err(Refusal { number: 10, place })) => {
                let mut count = 0;
                traded(&ticket.nest, points, &ticket.steps[..*place as usize], |record| {
                    if let Some(lent) = list.get_mut(count as usize) {
                        *lent = record;
                    }
                    count += 1;
                });
                Answer {
                    number: 0,
                    place: *place,
                    count,
                }
            }
            _ => self.judge(),
        }
    }
}

/// The output at the front of the lent buffer, or 14; bytes beyond those written keep their values.
fn hand_over(output: &[u8], buffer: &mut [u8]) -> Result<usize, Refusal> {
    if output.len() > buffer.len() {
        return Err(Refusal::new(14, 0));
    }
    buffer[..output.len()].copy_from_slice(output);
    Ok(output.len())
}

/// An access by its number, from 1 in ticket order.
fn access(nest: &Nest, number: u64) -> Result<&Access, Refusal> {
    let accesses: Vec<&Access> = nest.statements.iter().flat_map(|s| s.accesses()).collect();
    match number.checked_sub(1) {
        Some(before) if before < accesses.len() as u64 => Ok(accesses[before as usize]),
        _ => Err(Refusal::new(4, 0)),
    }
}

pub fn judge(ticket: &[u8]) -> Answer {
    Answers::to(ticket).judge()
}

pub fn write(ticket: &[u8], out: &mut [u8]) -> Answer {
    Answers::to(ticket).write(out)
}

pub fn list(ticket: &[u8], out: &mut [u8]) -> Answer {
    Answers::to(ticket).list(out)
}

/// Count 1 apart, 0 perhaps.
pub fn quick(ticket: &[u8], first: u64, second: u64) -> Answer {
    Answers::to(ticket).quick(first, second)
}

pub fn run(ticket: &[u8], store: &mut [u32]) -> Answer {
    Answers::to(ticket).run(store)
}

pub fn reason(ticket: &[u8], list: &mut [Record]) -> Answer {
    Answers::to(ticket).reason(list)
}
