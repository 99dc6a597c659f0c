//! Pseudo-random inputs, the same in every run.

use crate::plain::Refusal;
use crate::plain::bound::CAMERA_ROWS;
use crate::plain::figures::figures;
use crate::plain::meter::METER_WORDS;
use crate::plain::run::{Run, WORDS};
use crate::plain::sheet::{
    Declaration, Form, House, MOST_ROWS, Operator, Path, Place, Row, Rows, SHEET_MEMORY, write,
};

/// Sheets of one length, one behind the other.
#[derive(Clone)]
pub struct Sheets {
    pub bytes: Vec<u8>,
    pub width: usize,
}

impl Sheets {
    pub fn one(sheet: &[u8]) -> Sheets {
        Sheets {
            bytes: sheet.to_vec(),
            width: sheet.len(),
        }
    }
}

/// Sixteen units a slot, on average over an interval.
pub fn sixteen_a_slot(interval: u32) -> Row {
    Row {
        interval,
        quota: 16 * interval,
    }
}

/// The same over 1,024 slots, with three rows that allow more over fewer.
pub fn sixteen_a_slot_in_rows() -> Declaration {
    let rows = [(1, 64), (32, 768), (512, 9_216), (1_024, 16_384)];
    Declaration::Rows(Rows {
        count: MOST_ROWS,
        rows: rows.map(|(interval, quota)| Row { interval, quota }),
    })
}

/// SplitMix64.
pub struct Random(u64);

impl Random {
    pub fn new(seed: u64) -> Random {
        Random(seed)
    }

    fn next(&mut self) -> u64 {
        self.0 = self.0.wrapping_add(0x9E37_79B9_7F4A_7C15);
        let mut x = self.0;
        x = (x ^ x >> 30).wrapping_mul(0xBF58_476D_1CE4_E5B9);
        x = (x ^ x >> 27).wrapping_mul(0x94D0_49BB_1331_11EB);
        x ^ x >> 31
    }

    /// A number below `end`.
    pub fn below(&mut self, end: u64) -> u64 {
        self.next() % end
    }

    /// A number from `least` to `largest`.
    pub fn within(&mut self, least: u32, largest: u32) -> u32 {
        least + self.below(u64::from(largest - least) + 1) as u32
    }

    pub fn one_in(&mut self, n: u64) -> bool {
        self.below(n) == 0
    }

    /// Different path numbers.
    pub fn path_numbers(&mut self, count: usize) -> Vec<u32> {
        let mut numbers = Vec::new();
        while numbers.len() < count {
            let number = self.within(0, 65_535);
            if !numbers.contains(&number) {
                numbers.push(number);
            }
        }
        numbers
    }

    /// A smooth or uniform declaration.
    fn pair(&mut self) -> Declaration {
        let interval = self.within(1, 1_024);
        let declare = if self.one_in(2) {
            Declaration::Smooth
        } else {
            Declaration::Uniform
        };
        declare(Row {
            interval,
            quota: self.within(1, (interval * 60).min(65_535)),
        })
    }

    /// Different intervals that rise, short ones as often as long ones.
    fn intervals(&mut self, count: usize) -> Vec<u32> {
        let mut intervals = Vec::new();
        while intervals.len() < count {
            let longest = 1 << self.below(11);
            let interval = self.within(1, longest);
            if !intervals.contains(&interval) {
                intervals.push(interval);
            }
        }
        intervals.sort_unstable();
        intervals
    }

    /// Rows of these intervals. For each slot that a row has more than the one before, it allows at most what that one does on average.
    fn rows(&mut self, intervals: &[u32]) -> Rows {
        let mut rows = [Row::default(); MOST_ROWS];
        let mut before = Row::default();
        let mut rate = self.within(1, 60);
        for (row, &interval) in rows.iter_mut().zip(intervals) {
            let further = self.within(0, (interval - before.interval) * rate);
            let quota = (before.quota + further).clamp(1, 65_535);
            *row = Row { interval, quota };
            rate = quota.div_ceil(interval);
            before = *row;
        }
        Rows {
            count: intervals.len(),
            rows,
        }
    }

    /// A declaration of two to four rows.
    fn several(&mut self) -> Declaration {
        let count = self.within(2, MOST_ROWS as u32) as usize;
        let intervals = self.intervals(count);
        Declaration::Rows(self.rows(&intervals))
    }

    /// A declaration of four rows.
    fn four(&mut self) -> Declaration {
        let intervals = self.intervals(MOST_ROWS);
        Declaration::Rows(self.rows(&intervals))
    }

    fn operator(&mut self, framed: bool) -> Operator {
        match (framed, self.below(3)) {
            (true, 0) => Operator::Limiter(self.within(1, 65_535)),
            (true, 1) => Operator::Compactor(self.within(1, 1_024)),
            (true, _) => Operator::Expander(self.within(1, 1_024)),
            (false, 0) => Operator::Filter(self.within(1, 65_535)),
            (false, _) => Operator::Delayer(self.within(1, 64)),
        }
    }

    /// A path of sixteen operators under a declaration of one row, which has figures.
    pub fn path(&mut self) -> Path {
        self.path_with(Random::pair)
    }

    /// The same under two to four rows.
    pub fn path_of_several(&mut self) -> Path {
        self.path_with(Random::several)
    }

    /// The same under four rows, whose sheets have one length.
    pub fn path_of_four(&mut self) -> Path {
        self.path_with(Random::four)
    }

    /// The same under the rows of the standard camera.
    pub fn path_of_camera(&mut self) -> Path {
        self.path_with(|_| {
            let [first, second, third] = CAMERA_ROWS;
            Declaration::Rows(Rows {
                count: CAMERA_ROWS.len(),
                rows: [first, second, third, Row::default()],
            })
        })
    }

    fn path_with(&mut self, declare: fn(&mut Random) -> Declaration) -> Path {
        loop {
            let framed = self.below(13) as usize;
            let declaration = declare(self);
            let operators = std::array::from_fn(|k| self.operator(k < framed));
            let path = self.path_of(declaration, operators);
            if figures(&sheet_of(&path)).is_ok() {
                return path;
            }
        }
    }

    /// A path under four rows, the last with m = 1,024: eight delayers, behind each a filter slower than those before it. The last filter needs the last row.
    pub fn slower_and_slower(&mut self) -> Path {
        loop {
            let mut intervals = self.intervals(MOST_ROWS);
            intervals[3] = 1_024;
            let several = self.rows(&intervals);
            let [first, .., last] = several.rows;
            let fastest = first.quota.div_ceil(first.interval);
            let slowest = last.quota.div_ceil(last.interval);
            let carried = |row: &Row| row.quota <= row.interval * slowest;
            if fastest < slowest + 8 || several.rows[..3].iter().any(carried) {
                continue;
            }
            let mut rates = vec![slowest];
            while rates.len() < 8 {
                let rate = self.within(slowest, fastest);
                if !rates.contains(&rate) {
                    rates.push(rate);
                }
            }
            rates.sort_unstable();
            let operators = std::array::from_fn(|k| match k % 2 {
                0 => Operator::Delayer(self.within(1, 64)),
                _ => Operator::Filter(rates[7 - k / 2]),
            });
            return self.path_of(Declaration::Rows(several), operators);
        }
    }

    fn path_of(&mut self, declaration: Declaration, operators: [Operator; 16]) -> Path {
        Path {
            form: Form::Fields,
            declaration,
            wanted: 65_535,
            count: 16,
            places: operators.map(|operator| Place {
                operator,
                link: self.within(0, 15),
            }),
        }
    }

    /// The sheets of so many paths of one length.
    pub fn sheets(&mut self, count: usize, path: fn(&mut Random) -> Path) -> Sheets {
        let bytes: Vec<u8> = (0..count).flat_map(|_| sheet_of(&path(self))).collect();
        let width = bytes.len() / count;
        Sheets { bytes, width }
    }

    /// The sheet of a house profile.
    pub fn house(&mut self) -> Vec<u8> {
        let profile = self.below(3) as u8;
        let rated = profile > 0;
        let packets = profile > 1;
        let mut number = |used: bool, largest: u32| if used { self.within(1, largest) } else { 0 };
        let house = House {
            profile,
            hops: number(true, 5) as u8,
            wanted: number(true, 65_535),
            interval: number(true, 1_024),
            quota: number(true, 65_535),
            rate: number(rated, 65_535),
            own_packet: number(packets, 64) as u16,
            longest_packet: number(packets, 64) as u16,
            link_rate: number(packets, 65_535) as u16,
        };
        house.field().to_vec()
    }

    /// A sheet with some of its bytes changed, cut off or doubled.
    pub fn damaged(&mut self, sheet: &[u8]) -> Vec<u8> {
        let mut sheet = sheet.to_vec();
        for _ in 0..self.below(3) {
            // the first fields as often as all others
            let most = if self.one_in(2) {
                sheet.len()
            } else {
                34.min(sheet.len())
            };
            let at = self.below(most as u64) as usize;
            sheet[at] = if self.one_in(2) {
                self.below(256) as u8
            } else {
                self.below(6) as u8
            };
        }
        if self.one_in(3) {
            sheet.truncate(self.below(sheet.len() as u64 + 1) as usize);
        } else if self.one_in(3) {
            let from = self.below(sheet.len() as u64) as usize;
            sheet.extend_from_within(from..);
        }
        sheet
    }
}

pub fn sheet_of(path: &Path) -> Vec<u8> {
    let mut sheet = [0; SHEET_MEMORY];
    let length = write(path, &mut sheet).expect("a path in its ranges");
    sheet[..length].to_vec()
}

impl Path {
    /// The path of its first operators.
    pub fn first(mut self, count: usize) -> Path {
        self.count = count;
        self
    }
}

/// The calls of a run: an input for each slot, and choices, of which each slot has `width`.
pub struct Slots {
    pub sheet: Vec<u8>,
    pub inputs: Vec<u64>,
    pub choices: Vec<u64>,
    pub width: usize,
}

impl Slots {
    /// Slots that are all taken: what is refused is tried again with less.
    pub fn taken(random: &mut Random, path: &Path, count: usize) -> Slots {
        let mut slots = Slots {
            sheet: sheet_of(path),
            inputs: Vec::new(),
            choices: Vec::new(),
            width: path.count,
        };
        let mut words = vec![0; WORDS];
        let mut run = Run::open(&slots.sheet, &mut words).expect("a path with figures");
        // twice the mean that the declaration allows
        let row = path.declaration.last_row();
        let most = u64::from(2 * row.quota / row.interval);
        for _ in 0..count {
            let (mut input, mut choices) = random.call(most, path.count);
            loop {
                match run.slot(&mut words, input, &choices) {
                    Ok(_) => break,
                    Err(Refusal::InputBreaksDeclaration) => input /= 2,
                    Err(Refusal::ChoiceAboveGreatest(k)) => choices[k] = 0,
                    Err(why) => panic!("a run that was opened is refused by {why:?}"),
                }
            }
            slots.inputs.push(input);
            slots.choices.extend(choices);
        }
        slots
    }

    /// Slots of a path of sixteen operators, of which many are refused.
    pub fn any(random: &mut Random, path: &Path, count: usize) -> Slots {
        let mut slots = Slots {
            sheet: sheet_of(path),
            inputs: Vec::new(),
            choices: Vec::new(),
            width: if random.one_in(8) { 15 } else { 16 },
        };
        let most = u64::from(path.declaration.last_row().quota) / (1 + random.below(64)) + 1;
        for _ in 0..count {
            let (mut input, mut choices) = random.call(most, slots.width);
            if random.one_in(50) {
                input = random.below(1 << 31);
            }
            if random.one_in(2) {
                choices.fill(0);
            }
            slots.inputs.push(input);
            slots.choices.extend(choices);
        }
        slots
    }
}

/// The calls of a meter alone: the numbers of its declaration, its next slot, what its words hold and an input for each slot.
pub struct Inputs {
    pub declared: [u32; 10],
    pub slot: u32,
    pub words: Vec<u32>,
    pub inputs: Vec<u64>,
}

impl Inputs {
    /// Inputs of which many are refused; of some meters the declaration, a word, the slot or the number of words is wrong.
    pub fn any(random: &mut Random, count: usize) -> Inputs {
        let declaration = if random.one_in(4) {
            random.pair()
        } else {
            random.several()
        };
        let mut declared = [0; 10];
        declared[0] = match declaration {
            Declaration::Smooth(_) => 0,
            Declaration::Uniform(_) => 1,
            Declaration::Rows(_) => 2,
        };
        declared[1] = declaration.rows().len() as u32;
        for (numbers, row) in declared[2..].chunks_mut(2).zip(declaration.rows()) {
            numbers.copy_from_slice(&[row.interval, row.quota]);
        }
        let mut slot = 0;
        let mut words = vec![0; METER_WORDS];
        match random.below(12) {
            0 => declared[1] = random.within(0, 6),
            1 | 2 => {
                let at = random.within(2, 9) as usize;
                declared[at] = [0, 1, 12, 1_024, 1_025, 65_535, 65_536][random.below(7) as usize];
            }
            3 | 4 => {
                let at = random.below(words.len() as u64) as usize;
                words[at] = [1, 1 << 22, 1 << 30, (1 << 30) - 1][random.below(4) as usize];
            }
            5 => slot = random.within(1_073_741_600, 1_073_741_830),
            6 => words.push(0),
            _ => {}
        }
        let most = u64::from(declaration.last_row().quota) / (1 + random.below(64)) + 1;
        let inputs = (0..count).map(|_| random.below(most + 1)).collect();
        Inputs {
            declared,
            slot,
            words,
            inputs,
        }
    }
}

impl Random {
    /// An input, and choices for so many operators, of which most are 0.
    fn call(&mut self, most: u64, operators: usize) -> (u64, Vec<u64>) {
        let input = self.below(most + 1);
        let choices = (0..operators)
            .map(|_| {
                if self.one_in(4) {
                    self.below(most + 1)
                } else {
                    0
                }
            })
            .collect();
        (input, choices)
    }

    /// A path of one filter.
    pub fn one_filter(&mut self, declaration: Declaration) -> Path {
        self.path_of(declaration, [Operator::Filter(16); 16])
            .first(1)
    }

    /// A path of sixteen operators of all five kinds.
    pub fn mixed(&mut self, declaration: Declaration) -> Path {
        use Operator::{Compactor, Delayer, Expander, Filter, Limiter};
        let operators = [
            Limiter(20),
            Compactor(10),
            Expander(10),
            Compactor(10),
            Expander(10),
            Limiter(24),
            Compactor(16),
            Expander(16),
            Filter(30),
            Delayer(5),
            Filter(32),
            Delayer(16),
            Filter(28),
            Delayer(64),
            Filter(40),
            Delayer(33),
        ];
        self.path_of(declaration, operators)
    }

    /// A path of sixteen delayers of 64 slots.
    pub fn delayers(&mut self, declaration: Declaration) -> Path {
        self.path_of(declaration, [Operator::Delayer(64); 16])
    }
}
