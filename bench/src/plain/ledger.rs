//! The ledger of links (section 6).

use super::Refusal;
use super::figures::figures;
use super::sheet::{Declaration, Path};

pub const LINKS: usize = 16;

/// The records that a ledger is lent.
pub const RECORDS: usize = 64;

const LARGEST_CAPACITY: u32 = 1_000_000;

const LARGEST_NUMBER: u32 = 65_535;

#[derive(Clone, Copy, Debug, Default, PartialEq, Eq)]
pub struct Record {
    pub number: u32,
    pub rate: u32,
    /// Bit i for link i.
    pub links: u32,
    /// 0 while the path is held, 1 once it is confirmed.
    pub mark: u32,
}

impl Record {
    const CLEAR: Record = Record {
        number: 0,
        rate: 0,
        links: 0,
        mark: 0,
    };

    /// Whether a number of the record is out of its range, without a branch.
    fn out_of_range(&self) -> bool {
        (self.number > LARGEST_NUMBER)
            | (self.rate.wrapping_sub(1) >= 65_535)
            | (self.links > 0xFFFF)
            | (self.mark > 1)
    }

    /// All bits of the record's numbers.
    fn bits(&self) -> u32 {
        self.number | self.rate | self.links | self.mark
    }

    fn is_on(&self, link: usize) -> bool {
        self.links >> link & 1 == 1
    }
}

/// What a held path reserves, and its delay.
#[derive(Clone, Copy, Debug, PartialEq, Eq)]
pub struct Held {
    pub rate: u32,
    pub delay: u64,
}

/// The links' capacities and reserved totals, and how many of the lent records stand.
#[derive(Clone, Copy, Debug, PartialEq, Eq)]
pub struct Ledger {
    pub capacities: [u32; LINKS],
    pub totals: [u32; LINKS],
    pub count: usize,
}

/// What a path reserves on each link that it names: by its last row.
fn reserved_by(declaration: &Declaration) -> u32 {
    let row = declaration.last_row();
    row.quota.div_ceil(row.interval)
}

fn links_of(path: &Path) -> u32 {
    path.places[..path.count]
        .iter()
        .fold(0, |links, place| links | 1 << place.link)
}

/// Of any two places in a ring of all records, one is among so many behind the other.
const HALF: usize = RECORDS / 2;

/// Whether two records, whose numbers have 16 bits, have one number: each is compared with those of half a ring behind it, so many at a time whatever its place is.
/// The other places of the ring are 0, so 0 is left out there and counted.
fn repeats(standing: &[Record]) -> bool {
    let mut ring = [0_u16; RECORDS + HALF];
    for (number, record) in ring.iter_mut().zip(standing) {
        *number = record.number as u16;
    }
    ring.copy_within(..HALF, RECORDS);
    let twice = ring
        .array_windows::<{ HALF + 1 }>()
        .fold(0_u16, |twice, [number, behind @ ..]| {
            let met = behind
                .iter()
                .fold(0, |met, other| met | u16::from(other == number));
            twice | if *number == 0 { 0 } else { met }
        });
    let zeros: usize = ring[..RECORDS]
        .iter()
        .map(|&number| usize::from(number == 0))
        .sum();
    twice != 0 || zeros + standing.len() > RECORDS + 1
}

/// The sums of the rates on each link: a rate is masked by its link's bit.
fn sums(standing: &[Record]) -> [u32; LINKS] {
    let mut sums = [0_u32; LINKS];
    for record in standing {
        for (link, sum) in sums.iter_mut().enumerate() {
            *sum += record.rate & (record.links >> link & 1).wrapping_neg();
        }
    }
    sums
}

fn find(standing: &[Record], number: u32) -> Option<usize> {
    standing.iter().position(|record| record.number == number)
}

impl Ledger {
    /// A new ledger; clears all records.
    pub fn open(capacities: [u32; LINKS], records: &mut [Record]) -> Result<Ledger, Refusal> {
        if records.len() != RECORDS {
            return Err(Refusal::Unusable);
        }
        if capacities
            .iter()
            .any(|&capacity| capacity > LARGEST_CAPACITY)
        {
            return Err(Refusal::OutOfRange(0));
        }
        records.fill(Record::CLEAR);
        Ok(Ledger {
            capacities,
            totals: [0; LINKS],
            count: 0,
        })
    }

    /// Holds a sheet's path under a number.
    pub fn hold(
        &mut self,
        records: &mut [Record],
        number: u32,
        sheet: &[u8],
    ) -> Result<Held, Refusal> {
        if number > LARGEST_NUMBER {
            return Err(Refusal::Unusable);
        }
        self.test(records)?;
        let figures = figures(sheet)?;
        if find(&records[..self.count], number).is_some() {
            return Err(Refusal::PathNumberWrong);
        }
        if self.count == RECORDS {
            return Err(Refusal::LedgerFull);
        }
        let record = Record {
            number,
            rate: reserved_by(&figures.path.declaration),
            links: links_of(&figures.path),
            mark: 0,
        };
        for link in 0..LINKS {
            if record.is_on(link) && self.totals[link] + record.rate > self.capacities[link] {
                return Err(Refusal::LinkShort);
            }
        }
        for (link, total) in self.totals.iter_mut().enumerate() {
            if record.is_on(link) {
                *total += record.rate;
            }
        }
        records[self.count] = record;
        self.count += 1;
        Ok(Held {
            rate: record.rate,
            delay: figures.delay,
        })
    }

    /// Confirms the held path of a number.
    pub fn confirm(&self, records: &mut [Record], number: u32) -> Result<(), Refusal> {
        if number > LARGEST_NUMBER {
            return Err(Refusal::Unusable);
        }
        self.test(records)?;
        let standing = &mut records[..self.count];
        let at = find(standing, number).ok_or(Refusal::PathNumberWrong)?;
        if standing[at].mark == 1 {
            return Err(Refusal::ConfirmedAlready);
        }
        standing[at].mark = 1;
        Ok(())
    }

    /// Releases the path of a number, and closes the gap.
    pub fn release(&mut self, records: &mut [Record], number: u32) -> Result<(), Refusal> {
        if number > LARGEST_NUMBER {
            return Err(Refusal::Unusable);
        }
        self.test(records)?;
        let standing = &mut records[..self.count];
        let at = find(standing, number).ok_or(Refusal::PathNumberWrong)?;
        let gone = standing[at];
        for (link, total) in self.totals.iter_mut().enumerate() {
            if gone.is_on(link) {
                *total -= gone.rate;
            }
        }
        standing.copy_within(at + 1.., at);
        self.count -= 1;
        records[self.count] = Record::CLEAR;
        Ok(())
    }

    /// What a link's capacity leaves to further paths, by the stored total.
    pub fn spare_rate(&self, link: u32) -> Result<u32, Refusal> {
        let unusable = self.capacities.iter().zip(&self.totals).fold(
            false,
            |unusable, (&capacity, &total)| {
                unusable | (capacity > LARGEST_CAPACITY) | (total > capacity)
            },
        );
        if unusable {
            return Err(Refusal::Unusable);
        }
        let link = link as usize;
        if link >= LINKS {
            return Err(Refusal::OutOfRange(0));
        }
        Ok(self.capacities[link] - self.totals[link])
    }

    /// Tests all that is stored and lent, with as few branches as there can be.
    fn test(&self, records: &[Record]) -> Result<(), Refusal> {
        if records.len() != RECORDS || self.count > RECORDS {
            return Err(Refusal::Unusable);
        }
        let (standing, clear) = records.split_at(self.count);
        let out_of_range = standing
            .iter()
            .fold(false, |out, record| out | record.out_of_range());
        let unclear = clear.iter().fold(0, |bits, record| bits | record.bits());
        if out_of_range | (unclear != 0) | repeats(standing) {
            return Err(Refusal::Unusable);
        }
        let unusable = sums(standing)
            .iter()
            .zip(&self.totals)
            .zip(&self.capacities)
            .fold(false, |unusable, ((&sum, &total), &capacity)| {
                unusable | (capacity > LARGEST_CAPACITY) | (sum > capacity) | (sum != total)
            });
        if unusable {
            return Err(Refusal::Unusable);
        }
        Ok(())
    }
}
