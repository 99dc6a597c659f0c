//! The rows of the comparison, and whether the two sides agree on many more calls.

use crate::inputs::{
    Inputs, Random, Sheets, Slots, sheet_of, sixteen_a_slot, sixteen_a_slot_in_rows,
};
use crate::plain::page::PAGE_MEMORY;
use crate::plain::run::WORDS;
use crate::plain::sheet::Declaration::{Smooth, Uniform};
use crate::plain::sheet::{Path, SHEET_MEMORY};
use crate::turns::mix;
use crate::{proved, turns};

/// One side: its workloads.
pub struct Planner {
    figures: fn(&[u8], usize, u64) -> u64,
    pages: fn(&[u8], usize, &mut [u8], u64) -> u64,
    reading: fn(&[u8], usize, u64) -> u64,
    writing: fn(&[u8], usize, &mut [u8], u64) -> u64,
    words: fn(&mut [u32], u64) -> u64,
    slots: fn(&[u8], &mut [u32], &[u64], &[u64], usize, u64) -> u64,
    metering: fn(&[u32], u32, &mut [u32], &[u64], u64) -> u64,
    holdings: fn(u32, &[u32], &[u32], &[u8], usize, u64) -> u64,
    confirmings: fn(u32, &[u32], &[u32], &[u8], usize, u64) -> u64,
    releases: fn(u32, &[u32], &[u32], &[u8], usize, u64) -> u64,
    spare_rates: fn(u32, &[u32], &[u32], &[u8], usize, u64) -> u64,
}

pub const PROVED: Planner = Planner {
    figures: proved::figures,
    pages: proved::pages,
    reading: proved::reading,
    writing: proved::writing,
    words: proved::words,
    slots: proved::slots,
    metering: proved::metering,
    holdings: proved::holdings::<false>,
    confirmings: proved::holdings::<true>,
    releases: proved::releases,
    spare_rates: proved::spare_rates,
};

pub const PLAIN: Planner = Planner {
    figures: turns::figures,
    pages: turns::pages,
    reading: turns::reading,
    writing: turns::writing,
    words: turns::words,
    slots: turns::slots,
    metering: turns::metering,
    holdings: turns::holdings::<false>,
    confirmings: turns::holdings::<true>,
    releases: turns::releases,
    spare_rates: turns::spare_rates,
};

/// The capacity of each link, and the paths that stand in the ledger.
const CAPACITY: u32 = 1_000_000;

const STANDING: usize = 63;

/// As many sheets are used in turn. It is odd, so that the turns go through every operator of each.
const SHEETS: usize = 63;

#[derive(Clone, Copy)]
pub enum Calls {
    Figures(fn(&mut Random) -> Path),
    Pages,
    Reading,
    Writing,
    Words,
    Slots(fn(&mut Random) -> Path),
    Holdings,
    Confirmings,
    Releases,
    SpareRates,
}

pub struct RowKind {
    pub name: &'static str,
    calls: Calls,
}

pub const ROWS: [RowKind; 27] = [
    RowKind {
        name: "figures of 1 operator",
        calls: Calls::Figures(|random| random.path().first(1)),
    },
    RowKind {
        name: "figures of 2 operators",
        calls: Calls::Figures(|random| random.path().first(2)),
    },
    RowKind {
        name: "figures of 4 operators",
        calls: Calls::Figures(|random| random.path().first(4)),
    },
    RowKind {
        name: "figures of 8 operators",
        calls: Calls::Figures(|random| random.path().first(8)),
    },
    RowKind {
        name: "figures of 16 operators",
        calls: Calls::Figures(Random::path),
    },
    RowKind {
        name: "figures of 16 operators, four rows, m = 1,024",
        calls: Calls::Figures(Random::slower_and_slower),
    },
    RowKind {
        name: "figures of 16 operators, the standard camera",
        calls: Calls::Figures(Random::path_of_camera),
    },
    RowKind {
        name: "page of 16 operators",
        calls: Calls::Pages,
    },
    RowKind {
        name: "reading 16 operators",
        calls: Calls::Reading,
    },
    RowKind {
        name: "writing 16 operators",
        calls: Calls::Writing,
    },
    RowKind {
        name: "a run's 2,048 words read once",
        calls: Calls::Words,
    },
    RowKind {
        name: "slot, 1 operator, smooth, m = 1,024",
        calls: Calls::Slots(|random| random.one_filter(Smooth(sixteen_a_slot(1_024)))),
    },
    RowKind {
        name: "slot, 1 operator, uniform, m = 1",
        calls: Calls::Slots(|random| random.one_filter(Uniform(sixteen_a_slot(1)))),
    },
    RowKind {
        name: "slot, 1 operator, uniform, m = 32",
        calls: Calls::Slots(|random| random.one_filter(Uniform(sixteen_a_slot(32)))),
    },
    RowKind {
        name: "slot, 1 operator, uniform, m = 1,024",
        calls: Calls::Slots(|random| random.one_filter(Uniform(sixteen_a_slot(1_024)))),
    },
    RowKind {
        name: "slot, 1 operator, four rows, m = 1,024",
        calls: Calls::Slots(|random| random.one_filter(sixteen_a_slot_in_rows())),
    },
    RowKind {
        name: "slot, 2 operators, smooth, m = 1,024",
        calls: Calls::Slots(|random| random.mixed(Smooth(sixteen_a_slot(1_024))).first(2)),
    },
    RowKind {
        name: "slot, 4 operators, smooth, m = 1,024",
        calls: Calls::Slots(|random| random.mixed(Smooth(sixteen_a_slot(1_024))).first(4)),
    },
    RowKind {
        name: "slot, 8 operators, smooth, m = 1,024",
        calls: Calls::Slots(|random| random.mixed(Smooth(sixteen_a_slot(1_024))).first(8)),
    },
    RowKind {
        name: "slot, 16 operators, smooth, m = 1,024",
        calls: Calls::Slots(|random| random.mixed(Smooth(sixteen_a_slot(1_024)))),
    },
    RowKind {
        name: "slot, 16 operators, uniform, m = 1,024",
        calls: Calls::Slots(|random| random.mixed(Uniform(sixteen_a_slot(1_024)))),
    },
    RowKind {
        name: "slot, 16 delayers of 64, smooth, m = 1,024",
        calls: Calls::Slots(|random| random.delayers(Smooth(sixteen_a_slot(1_024)))),
    },
    RowKind {
        name: "slot, 16 delayers of 64, uniform, m = 1,024",
        calls: Calls::Slots(|random| random.delayers(Uniform(sixteen_a_slot(1_024)))),
    },
    RowKind {
        name: "holding in a ledger of 63",
        calls: Calls::Holdings,
    },
    RowKind {
        name: "holding and confirming in a ledger of 63",
        calls: Calls::Confirmings,
    },
    RowKind {
        name: "release from a ledger of 63",
        calls: Calls::Releases,
    },
    RowKind {
        name: "spare rate in a ledger of 63",
        calls: Calls::SpareRates,
    },
];

/// A row with the inputs of its calls.
pub struct Row {
    pub name: &'static str,
    given: Given,
}

enum Given {
    Figures(Sheets),
    Pages(Sheets),
    Reading(Sheets),
    Writing(Sheets),
    Words,
    Slots(Slots),
    Metering(Inputs),
    Holdings(Paths),
    Confirmings(Paths),
    Releases(Paths),
    SpareRates(Paths),
}

struct Paths {
    capacity: u32,
    standing: Vec<u32>,
    numbers: Vec<u32>,
    sheets: Sheets,
}

impl RowKind {
    /// The row with inputs for so many calls; further calls begin again with the first.
    pub fn with_calls(&self, calls: usize) -> Row {
        let mut random = Random::new(1);
        let given = match self.calls {
            Calls::Figures(path) => Given::Figures(random.sheets(SHEETS, path)),
            Calls::Pages => Given::Pages(random.sheets(SHEETS, Random::path)),
            Calls::Reading => Given::Reading(random.sheets(SHEETS, Random::path)),
            Calls::Writing => Given::Writing(random.sheets(SHEETS, Random::path)),
            Calls::Words => Given::Words,
            Calls::Slots(path) => {
                let path = path(&mut random);
                Given::Slots(Slots::taken(&mut random, &path, calls))
            }
            Calls::Holdings => Given::Holdings(Paths::further(&mut random)),
            Calls::Confirmings => Given::Confirmings(Paths::further(&mut random)),
            Calls::Releases => {
                let standing = random.path_numbers(STANDING);
                Given::Releases(Paths {
                    capacity: CAPACITY,
                    numbers: standing.clone(),
                    standing,
                    sheets: random.sheets(SHEETS, Random::path),
                })
            }
            Calls::SpareRates => Given::SpareRates(Paths {
                capacity: CAPACITY,
                standing: random.path_numbers(STANDING),
                numbers: (0..16).collect(),
                sheets: random.sheets(SHEETS, Random::path),
            }),
        };
        Row {
            name: self.name,
            given,
        }
    }
}

impl Row {
    /// So many calls by one side, and the checksum of their answers.
    pub fn play(&self, planner: &Planner, calls: u64) -> u64 {
        self.given.play(planner, calls)
    }
}

impl Given {
    fn play(&self, planner: &Planner, calls: u64) -> u64 {
        match self {
            Given::Figures(Sheets { bytes, width }) => (planner.figures)(bytes, *width, calls),
            Given::Pages(Sheets { bytes, width }) => {
                let mut lent = [0xFF; PAGE_MEMORY];
                let sum = (planner.pages)(bytes, *width, &mut lent, calls);
                mix_bytes(sum, &lent)
            }
            Given::Reading(Sheets { bytes, width }) => (planner.reading)(bytes, *width, calls),
            Given::Writing(Sheets { bytes, width }) => {
                let mut written = [0; SHEET_MEMORY];
                let sum = (planner.writing)(bytes, *width, &mut written, calls);
                mix_bytes(sum, &written)
            }
            Given::Words => (planner.words)(&mut [0; WORDS], calls),
            Given::Slots(slots) => slots.play(planner, calls),
            Given::Metering(inputs) => inputs.play(planner, calls),
            Given::Holdings(paths) => paths.play(planner.holdings, calls),
            Given::Confirmings(paths) => paths.play(planner.confirmings, calls),
            Given::Releases(paths) => paths.play(planner.releases, calls),
            Given::SpareRates(paths) => paths.play(planner.spare_rates, calls),
        }
    }
}

fn mix_bytes(sum: u64, bytes: &[u8]) -> u64 {
    bytes
        .iter()
        .fold(sum, |sum, &byte| mix(sum, u64::from(byte)))
}

fn mix_words(sum: u64, words: &[u32]) -> u64 {
    words
        .iter()
        .fold(sum, |sum, &word| mix(sum, u64::from(word)))
}

impl Slots {
    /// So many slots; where they are more than there are inputs for, the run is opened again.
    fn play(&self, planner: &Planner, calls: u64) -> u64 {
        let mut words = [0xFFFF_FFFF; WORDS];
        let mut sum = 0;
        let mut left = calls;
        while left > 0 {
            let turns = left.min(self.inputs.len() as u64);
            let played = (planner.slots)(
                &self.sheet,
                &mut words,
                &self.inputs,
                &self.choices,
                self.width,
                turns,
            );
            sum = mix(sum, played);
            left -= turns;
        }
        mix_words(sum, &words)
    }
}

impl Inputs {
    fn play(&self, planner: &Planner, calls: u64) -> u64 {
        let mut words = self.words.clone();
        let sum = (planner.metering)(&self.declared, self.slot, &mut words, &self.inputs, calls);
        mix_words(sum, &words)
    }
}

impl Paths {
    /// Paths that stand, and the numbers of as many further ones.
    fn further(random: &mut Random) -> Paths {
        let numbers = random.path_numbers(2 * STANDING);
        Paths {
            capacity: CAPACITY,
            standing: numbers[..STANDING].to_vec(),
            numbers: numbers[STANDING..].to_vec(),
            sheets: random.sheets(SHEETS, Random::path),
        }
    }

    fn play(&self, workload: fn(u32, &[u32], &[u32], &[u8], usize, u64) -> u64, calls: u64) -> u64 {
        workload(
            self.capacity,
            &self.standing,
            &self.numbers,
            &self.sheets.bytes,
            self.sheets.width,
            calls,
        )
    }
}

/// Whether both sides give the same answers to calls of which many are refused. How many calls there were, or what differs.
pub fn answers_agree() -> Result<u64, String> {
    let mut random = Random::new(2);
    let mut calls = 0;
    let mut agree = |given: &Given, turns: u64| {
        calls += turns;
        given.play(&PROVED, turns) == given.play(&PLAIN, turns)
    };
    for turn in 0..400 {
        let sheet = match turn / 100 {
            0 => sheet_of(&random.path()),
            1 => random.house(),
            2 => sheet_of(&random.path_of_camera()),
            _ => sheet_of(&random.path_of_several()),
        };
        if !agree(&Given::Writing(Sheets::one(&sheet)), 64) {
            return Err(format!("writing {sheet:02X?}"));
        }
        for _ in 0..200 {
            let damaged = random.damaged(&sheet);
            for (what, calls_on, turns) in [
                ("figures", Given::Figures as fn(Sheets) -> Given, 16),
                ("reading", Given::Reading, 1),
                ("the page", Given::Pages, 1),
            ] {
                if !agree(&calls_on(Sheets::one(&damaged)), turns) {
                    return Err(format!("{what} of {damaged:02X?}"));
                }
            }
        }
    }
    for turn in 0..200 {
        let path = if turn < 100 {
            random.path()
        } else {
            random.path_of_several()
        };
        if !agree(&Given::Slots(Slots::any(&mut random, &path, 500)), 500) {
            return Err(format!("slots of {:02X?}", sheet_of(&path)));
        }
    }
    for _ in 0..400 {
        let inputs = Inputs::any(&mut random, 300);
        let declared = inputs.declared;
        if !agree(&Given::Metering(inputs), 300) {
            return Err(format!("a meter of {declared:?}"));
        }
    }
    for turn in 0..200 {
        let count = 55 + turn % 10;
        let mut numbers = random.path_numbers(80);
        numbers.extend_from_within(..20);
        let path = if turn < 100 {
            Random::path
        } else {
            Random::path_of_four
        };
        let sheets = random.sheets(40, path);
        for (what, calls_on, asked) in [
            ("holdings", Given::Holdings as fn(Paths) -> Given, None),
            ("confirmings", Given::Confirmings, None),
            ("releases", Given::Releases, None),
            ("spare rates", Given::SpareRates, Some((0..18).collect())),
        ] {
            let paths = Paths {
                capacity: 1 << 10 + turn % 100 / 10,
                standing: numbers[..count].to_vec(),
                numbers: asked.unwrap_or_else(|| numbers[50..].to_vec()),
                sheets: sheets.clone(),
            };
            if !agree(&calls_on(paths), 200) {
                return Err(what.to_string());
            }
        }
    }
    Ok(calls)
}
