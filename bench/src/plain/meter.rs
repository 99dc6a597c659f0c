//! A meter: whether a slot's input keeps the declaration (sections 2, 6 and 7; document 02, item 6).

use super::sheet::{Declaration, Row, Rows};
use super::words::{HALF_ROW, all_zero, bits, sum, sum_and_bits};
use super::{LARGEST, Refusal};

/// The words that a meter is lent.
pub const METER_WORDS: usize = 1_024;

const LAST_SLOT: u32 = 1_073_741_822;

/// Its next slot's number and, under a smooth declaration, the block's total.
#[derive(Clone, Copy, Debug, PartialEq, Eq)]
pub struct Meter {
    pub declaration: Declaration,
    pub slot: u32,
    pub block: u64,
}

/// The most that a slot's input may be under rows, if any input keeps them. Word j of the ring is the input of the latest slot whose number
/// leaves j. The slots before this one lie in two parts of it; each row adds those to the sum that no row before it has counted.
fn room_in_rows(ring: &[u32], slot: u32, rows: &[Row]) -> Result<Option<u64>, Refusal> {
    let (mut before, rest) = ring.split_at(slot as usize % ring.len());
    let (&replaced, mut behind) = rest.split_first().expect("the slot's own word");
    let mut room = Some(LARGEST);
    let mut counted = 0;
    let mut all_bits = replaced;
    let mut slots = 1;
    for row in rows {
        let mut further = row.interval as usize - slots;
        slots = row.interval as usize;
        for part in [&mut before, &mut behind] {
            let (uncounted, words) = part.split_at(part.len() - further.min(part.len()));
            let (sum, bits) = sum_and_bits::<HALF_ROW>(words);
            counted += sum;
            all_bits |= bits;
            further -= words.len();
            *part = uncounted;
        }
        room = room.min(u64::from(row.quota).checked_sub(counted));
    }
    if u64::from(all_bits) > LARGEST {
        return Err(Refusal::Unusable);
    }
    Ok(room)
}

impl Meter {
    pub fn new(declaration: Declaration) -> Meter {
        Meter {
            declaration,
            slot: 0,
            block: 0,
        }
    }

    /// Takes the next slot's input, if it keeps the declaration.
    pub fn take(&mut self, words: &mut [u32], input: u64) -> Result<(), Refusal> {
        if input > LARGEST {
            return Err(Refusal::Unusable);
        }
        let room = self.test(words)?;
        if room.is_none_or(|room| input > room) {
            return Err(Refusal::InputBreaksDeclaration);
        }
        self.note(words, input);
        Ok(())
    }

    /// Tests what is stored and lent. Answers the most that the next input may be, if any keeps the declaration.
    pub fn test(&self, words: &[u32]) -> Result<Option<u64>, Refusal> {
        let block_fits = match self.declaration {
            Declaration::Smooth(_) => self.block <= LARGEST,
            _ => self.block == 0,
        };
        if words.len() != METER_WORDS
            || self.slot > LAST_SLOT
            || !block_fits
            || !self.declaration.unused_clear()
        {
            return Err(Refusal::Unusable);
        }
        if let Err(why) = self.declaration.test(0) {
            return Err(self.before_words(words, why));
        }
        let last = self.declaration.last_row();
        let (used, unused) = words.split_at(last.interval as usize);
        match &self.declaration {
            Declaration::Smooth(_) => {
                if !all_zero(words) {
                    return Err(Refusal::Unusable);
                }
                Ok(u64::from(last.quota).checked_sub(self.block_before()))
            }
            Declaration::Uniform(_) => {
                if !all_zero(unused) {
                    return Err(Refusal::Unusable);
                }
                let replaced = used[(self.slot % last.interval) as usize];
                let counted = sum(used)? - u64::from(replaced);
                Ok(u64::from(last.quota).checked_sub(counted))
            }
            Declaration::Rows(_) => {
                if bits(unused) != 0 {
                    return Err(Refusal::Unusable);
                }
                room_in_rows(used, self.slot, self.declaration.rows())
            }
        }
    }

    /// The refusal of a declaration that is out of range or out of order: refusal 1 of the words comes before it.
    #[cold]
    fn before_words(&self, words: &[u32], why: Refusal) -> Refusal {
        let used = match self.declaration {
            Declaration::Smooth(_) => 0,
            Declaration::Uniform(row) => row.interval as usize,
            Declaration::Rows(Rows { count, rows }) => {
                let last = count.checked_sub(1).and_then(|last| rows.get(last));
                last.map_or(0, |row| row.interval as usize)
            }
        };
        let (used, unused) = words.split_at(used.min(words.len()));
        if u64::from(bits(used)) > LARGEST || bits(unused) != 0 {
            Refusal::Unusable
        } else {
            why
        }
    }

    /// The units of the block so far under a smooth declaration, none where one begins.
    fn block_before(&self) -> u64 {
        if self.slot % self.declaration.last_row().interval == 0 {
            0
        } else {
            self.block
        }
    }

    /// Writes an input that keeps the declaration.
    pub fn note(&mut self, words: &mut [u32], input: u64) {
        match self.declaration {
            Declaration::Smooth(_) => self.block = self.block_before() + input,
            Declaration::Uniform(_) | Declaration::Rows(_) => {
                let at = self.slot % self.declaration.last_row().interval;
                words[at as usize] = input as u32;
            }
        }
        self.slot += 1;
    }
}
