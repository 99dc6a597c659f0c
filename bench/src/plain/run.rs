//! A path run slot by slot (sections 3 and 6).

use super::figures::figures;
use super::meter::{METER_WORDS, Meter};
use super::sheet::{MOST_OPERATORS, Operator};
use super::words::bits;
use super::{LARGEST, Refusal};

/// The words that a run is lent: 1,024 of the meter, then 64 of each operator.
pub const WORDS: usize = 2_048;

const OPERATOR_WORDS: usize = 64;

/// An operator with section 3's b and a filter's h, and a delayer's totals of what entered and of what left, wrapping. A delayer's b is their difference.
#[derive(Clone, Copy, Debug, PartialEq, Eq)]
pub struct Stage {
    pub operator: Operator,
    pub held: u64,
    pub beside: u64,
    pub entered: u32,
    pub left: u32,
}

impl Stage {
    /// The stage behind the path's operators.
    const NONE: Stage = Stage {
        operator: Operator::Limiter(0),
        held: 0,
        beside: 0,
        entered: 0,
        left: 0,
    };

    /// Tests the stage and its words, and takes the slot by its operator: all in one pass, which asks once of which kind it is.
    /// Answers the output and whether what stays may be stored, or that the choice is above.
    #[inline(always)]
    fn advance(
        &mut self,
        words: &[u32],
        slot: u32,
        input: u64,
        choice: u64,
    ) -> Result<Advanced, Refusal> {
        if !self.operator.in_range() {
            return Err(Refusal::Unusable);
        }
        if let Operator::Delayer(delay) = self.operator {
            return self.advance_delayer(words, delay, slot, input, choice);
        }
        let most_beside = match self.operator {
            Operator::Filter(_) => LARGEST,
            _ => 0,
        };
        if self.held > LARGEST
            || self.beside > most_beside
            || (self.entered | self.left) != 0
            || bits(words) != 0
        {
            return Err(Refusal::Unusable);
        }
        let there = self.held + input;
        let mut beside = 0;
        let (least, greatest) = match self.operator {
            Operator::Limiter(rate) => {
                let sent = there.min(u64::from(rate));
                (sent, sent)
            }
            Operator::Compactor(interval) => {
                let sent = if slot % interval == 0 { self.held } else { 0 };
                (sent, sent)
            }
            Operator::Expander(interval) => {
                let last = (slot + 1) % interval == 0;
                (if last { there } else { 0 }, there)
            }
            Operator::Filter(rate) => {
                beside = (self.beside + input).saturating_sub(u64::from(rate));
                (there.saturating_sub(beside), there)
            }
            Operator::Delayer(_) => (0, there),
        };
        if choice > greatest - least {
            return Ok(Advanced::ChoiceAbove);
        }
        let sent = least + choice;
        self.held = there - sent;
        self.beside = beside;
        Ok(Advanced::Sends(
            sent,
            self.held <= LARGEST && beside <= LARGEST,
        ))
    }

    #[inline(always)]
    fn advance_delayer(
        &mut self,
        words: &[u32],
        delay: u32,
        slot: u32,
        input: u64,
        choice: u64,
    ) -> Result<Advanced, Refusal> {
        let held = u64::from(self.entered.wrapping_sub(self.left));
        if (self.held | self.beside) != 0 || held > LARGEST || bits(&words[delay as usize..]) != 0 {
            return Err(Refusal::Unusable);
        }
        let recent = self.entered.wrapping_sub(words[(slot % delay) as usize]);
        let least = held.saturating_sub(u64::from(recent));
        let there = held + input;
        if choice > there - least {
            return Ok(Advanced::ChoiceAbove);
        }
        let sent = least + choice;
        self.entered = self.entered.wrapping_add(input as u32);
        self.left = self.left.wrapping_add(sent as u32);
        Ok(Advanced::Sends(sent, there - sent <= LARGEST))
    }
}

/// What an operator that can be used does in a slot.
enum Advanced {
    Sends(u64, bool),
    ChoiceAbove,
}

#[derive(Clone, Copy, Debug, PartialEq, Eq)]
pub struct Run {
    pub meter: Meter,
    pub count: usize,
    pub stages: [Stage; MOST_OPERATORS],
}

impl Run {
    /// Opens the run of a sheet's path and clears its words.
    pub fn open(sheet: &[u8], words: &mut [u32]) -> Result<Run, Refusal> {
        if words.len() != WORDS {
            return Err(Refusal::Unusable);
        }
        let path = figures(sheet)?.path;
        words.fill(0);
        Ok(Run {
            meter: Meter::new(path.declaration),
            count: path.count,
            stages: path.places.map(|place| Stage {
                operator: place.operator,
                ..Stage::NONE
            }),
        })
    }

    /// Takes one slot, with a choice for each operator, and answers the last operator's output. The operators advance in place; a slot that is refused has its stages back.
    pub fn slot(&mut self, words: &mut [u32], input: u64, choices: &[u64]) -> Result<u64, Refusal> {
        if choices.len() != self.count
            || input > LARGEST
            || choices.iter().fold(0, |bits, &choice| bits | choice) > LARGEST
            || words.len() != WORDS
            || self.count == 0
            || self.count > MOST_OPERATORS
        {
            return Err(Refusal::Unusable);
        }
        let before = self.stages;
        let output = self.advance(words, input, choices);
        match output {
            Ok(_) => self.write(words, input),
            Err(_) => self.stages = before,
        }
        output
    }

    /// Tests all that is stored and lent, and decides on all operators from the left, in one pass. What cannot be used is refused first, then the input, then the first choice.
    fn advance(&mut self, words: &[u32], input: u64, choices: &[u64]) -> Result<u64, Refusal> {
        let (meter_words, operator_words) = words.split_at(METER_WORDS);
        let room = self
            .meter
            .test(meter_words)
            .map_err(|_| Refusal::Unusable)?;
        let (used, behind) = operator_words.split_at(OPERATOR_WORDS * self.count);
        let (stages, empty) = self.stages.split_at_mut(self.count);
        let mut arriving = input;
        let mut storable = true;
        let mut above = None;
        for (k, ((stage, words), &choice)) in stages
            .iter_mut()
            .zip(used.chunks_exact(OPERATOR_WORDS))
            .zip(choices)
            .enumerate()
        {
            match stage.advance(words, self.meter.slot, arriving, choice)? {
                Advanced::Sends(sent, fits) => {
                    storable &= fits;
                    arriving = sent;
                }
                Advanced::ChoiceAbove => above = above.or(Some(k)),
            }
        }
        let (behind, _) = behind.as_chunks::<OPERATOR_WORDS>();
        for (stage, words) in empty.iter().zip(behind) {
            if *stage != Stage::NONE || bits(words) != 0 {
                return Err(Refusal::Unusable);
            }
        }
        if room.is_none_or(|room| input > room) {
            return Err(Refusal::InputBreaksDeclaration);
        }
        if let Some(k) = above {
            return Err(Refusal::ChoiceAboveGreatest(k));
        }
        if !storable {
            return Err(Refusal::Unusable);
        }
        Ok(arriving)
    }

    fn write(&mut self, words: &mut [u32], input: u64) {
        let slot = self.meter.slot;
        self.meter.note(words, input);
        for (stage, words) in self.stages[..self.count]
            .iter()
            .zip(words[METER_WORDS..].chunks_exact_mut(OPERATOR_WORDS))
        {
            if let Operator::Delayer(delay) = stage.operator {
                words[(slot % delay) as usize] = stage.entered;
            }
        }
    }
}
