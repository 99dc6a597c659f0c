//! The workloads over the plain implementation, step by step as `crates/workload` has them.

use crate::plain::Refusal;
use crate::plain::figures::figures as figures_of;
use crate::plain::ledger::{LINKS, Ledger, RECORDS, Record};
use crate::plain::meter::Meter;
use crate::plain::page::page;
use crate::plain::run::Run;
use crate::plain::sheet::{Declaration, Path, Row, Rows, read, write};
use crate::plain::words::all_zero;

/// A checksum with one more number.
pub fn mix(sum: u64, number: u64) -> u64 {
    sum.rotate_left(5).wrapping_add(number)
}

fn mix_refusal(sum: u64, why: Refusal) -> u64 {
    mix(mix(sum, u64::from(why.number())), why.place() as u64)
}

/// Where the next part of a list begins, all being of one width; behind the last the first again.
fn after(at: usize, width: usize, length: usize) -> usize {
    let end = at + width;
    if width <= length - end { end } else { 0 }
}

pub fn figures(sheets: &[u8], width: usize, turns: u64) -> u64 {
    let (mut sum, mut at, mut k) = (0, 0, 0);
    for _ in 0..turns {
        sum = match figures_of(&sheets[at..at + width]) {
            Err(why) => mix_refusal(sum, why),
            Ok(answer) => {
                let figure = answer.figures[k];
                mix(mix(mix(sum, answer.delay), figure.capacity), figure.delay)
            }
        };
        at = after(at, width, sheets.len());
        k = after(k, 1, 16);
    }
    sum
}

pub fn pages(sheets: &[u8], width: usize, lent: &mut [u8], turns: u64) -> u64 {
    let (mut sum, mut at) = (0, 0);
    for left in (1..=turns).rev() {
        sum = match page(&sheets[at..at + width], lent) {
            Err(why) => mix_refusal(sum, why),
            Ok(length) => mix(sum, length as u64),
        };
        sum = mix(sum, u64::from(lent[(left % 1037) as usize]));
        at = after(at, width, sheets.len());
    }
    sum
}

pub fn reading(sheets: &[u8], width: usize, turns: u64) -> u64 {
    let (mut sum, mut at) = (0, 0);
    for _ in 0..turns {
        sum = match read(&sheets[at..at + width]) {
            Err(why) => mix_refusal(sum, why),
            Ok(path) => mix_path(sum, &path),
        };
        at = after(at, width, sheets.len());
    }
    sum
}

fn mix_path(sum: u64, path: &Path) -> u64 {
    let place = path.places[15];
    let sum = mix(sum, path.count as u64);
    let sum = mix(sum, u64::from(path.wanted));
    let sum = mix_declaration(sum, &path.declaration);
    let sum = mix(sum, u64::from(place.link));
    let sum = mix(sum, u64::from(place.operator.kind()));
    mix(sum, u64::from(place.operator.number()))
}

fn mix_declaration(sum: u64, declaration: &Declaration) -> u64 {
    match declaration {
        Declaration::Smooth(row) => mix_row(mix(sum, 0), row),
        Declaration::Uniform(row) => mix_row(mix(sum, 1), row),
        Declaration::Rows(several) => {
            let sum = mix(mix(sum, 2), several.count as u64);
            several.rows.iter().fold(sum, mix_row)
        }
    }
}

fn mix_row(sum: u64, row: &Row) -> u64 {
    mix(mix(sum, u64::from(row.interval)), u64::from(row.quota))
}

pub fn writing(sheets: &[u8], width: usize, written: &mut [u8], turns: u64) -> u64 {
    let (mut sum, mut at) = (0, 0);
    let paths: [Path; 64] = std::array::from_fn(|_| {
        let path =
            read(&sheets[at..at + width]).expect("the sheets to be written back are accepted");
        at = after(at, width, sheets.len());
        path
    });
    let mut j = 0;
    for left in (1..=turns).rev() {
        sum = match write(&paths[j], written) {
            Err(why) => mix_refusal(sum, why),
            Ok(length) => mix(sum, length as u64),
        };
        sum = mix(sum, u64::from(written[(left % 256) as usize]));
        j = after(j, 1, 64);
    }
    sum
}

/// Reads all words once in each turn, and stores one of them anew.
pub fn words(words: &mut [u32], turns: u64) -> u64 {
    let (mut sum, mut at) = (0, 0);
    for _ in 0..turns {
        sum = mix(sum, u64::from(all_zero(words)));
        words[at] = 0;
        at = after(at, 1, words.len());
    }
    sum
}

pub fn slots(
    sheet: &[u8],
    words: &mut [u32],
    inputs: &[u64],
    choices: &[u64],
    width: usize,
    turns: u64,
) -> u64 {
    let mut run = match Run::open(sheet, words) {
        Err(why) => return mix_refusal(0, why),
        Ok(run) => run,
    };
    let (mut sum, mut t, mut at) = (0, 0, 0);
    for _ in 0..turns {
        sum = match run.slot(words, inputs[t], &choices[at..at + width]) {
            Err(why) => mix_refusal(sum, why),
            Ok(output) => mix(sum, output),
        };
        t = after(t, 1, inputs.len());
        at = after(at, width, choices.len());
    }
    sum = mix(mix(sum, u64::from(run.meter.slot)), run.meter.block);
    for stage in &run.stages[..run.count] {
        sum = mix(mix(sum, stage.held), stage.beside);
        sum = mix(mix(sum, u64::from(stage.entered)), u64::from(stage.left));
    }
    sum
}

/// The numbers of a declaration: its kind (0 smooth, 1 uniform, else rows), how many rows it has, and four rows, of which smooth and uniform have the first.
fn declaration_of(&[kind, count, ref rows @ ..]: &[u32; 10]) -> Declaration {
    let rows: [Row; 4] = std::array::from_fn(|k| Row {
        interval: rows[2 * k],
        quota: rows[2 * k + 1],
    });
    match kind {
        0 => Declaration::Smooth(rows[0]),
        1 => Declaration::Uniform(rows[0]),
        _ => Declaration::Rows(Rows {
            count: count as usize,
            rows,
        }),
    }
}

pub fn metering(declared: &[u32], slot: u32, words: &mut [u32], inputs: &[u64], turns: u64) -> u64 {
    let declared = declared.try_into().expect("ten numbers");
    let mut meter = Meter {
        slot,
        ..Meter::new(declaration_of(declared))
    };
    let (mut sum, mut t) = (0, 0);
    for _ in 0..turns {
        sum = match meter.take(words, inputs[t]) {
            Err(why) => mix_refusal(sum, why),
            Ok(()) => mix(sum, 0),
        };
        t = after(t, 1, inputs.len());
    }
    mix(mix(sum, u64::from(meter.slot)), meter.block)
}

fn filled(
    capacity: u32,
    numbers: &[u32],
    sheets: &[u8],
    width: usize,
) -> (Ledger, [Record; RECORDS]) {
    let mut records = [Record::default(); RECORDS];
    let mut ledger =
        Ledger::open([capacity; LINKS], &mut records).expect("the capacity is in its range");
    let mut at = 0;
    for &number in numbers.iter().rev() {
        // a refused path does not stand
        if ledger
            .hold(&mut records, number, &sheets[at..at + width])
            .is_ok()
        {
            let _ = ledger.confirm(&mut records, number);
        }
        at = after(at, width, sheets.len());
    }
    (ledger, records)
}

pub fn holdings<const CONFIRMED: bool>(
    capacity: u32,
    standing: &[u32],
    further: &[u32],
    sheets: &[u8],
    width: usize,
    turns: u64,
) -> u64 {
    let (ledger, records) = filled(capacity, standing, sheets, width);
    let (mut sum, mut at, mut j) = (0, 0, 0);
    for _ in 0..turns {
        let (mut ledger, mut records) = (ledger, records);
        let answer = ledger.hold(&mut records, further[j], &sheets[at..at + width]);
        sum = mix(sum, ledger.count as u64);
        match answer {
            Err(why) => sum = mix_refusal(sum, why),
            Ok(held) => {
                sum = mix_record(mix(sum, held.delay), records[63]);
                if CONFIRMED {
                    sum = match ledger.confirm(&mut records, further[j]) {
                        Err(why) => mix_refusal(sum, why),
                        Ok(()) => mix_record(sum, records[63]),
                    };
                }
            }
        }
        at = after(at, width, sheets.len());
        j = after(j, 1, further.len());
    }
    sum
}

pub fn releases(
    capacity: u32,
    standing: &[u32],
    released: &[u32],
    sheets: &[u8],
    width: usize,
    turns: u64,
) -> u64 {
    let (ledger, records) = filled(capacity, standing, sheets, width);
    let (mut sum, mut j) = (0, 0);
    for left in (1..=turns).rev() {
        let (mut ledger, mut records) = (ledger, records);
        let answer = ledger.release(&mut records, released[j]);
        sum = mix_record(mix(sum, ledger.count as u64), records[(left % 64) as usize]);
        if let Err(why) = answer {
            sum = mix_refusal(sum, why);
        }
        j = after(j, 1, released.len());
    }
    sum
}

pub fn spare_rates(
    capacity: u32,
    standing: &[u32],
    asked: &[u32],
    sheets: &[u8],
    width: usize,
    turns: u64,
) -> u64 {
    let (mut ledger, _) = filled(capacity, standing, sheets, width);
    let (mut sum, mut j) = (0, 0);
    for _ in 0..turns {
        let link = asked[j];
        ledger.capacities[link as usize % LINKS] = capacity;
        sum = match ledger.spare_rate(link) {
            Err(why) => mix_refusal(sum, why),
            Ok(rate) => mix(sum, u64::from(rate)),
        };
        j = after(j, 1, asked.len());
    }
    sum
}

fn mix_record(sum: u64, record: Record) -> u64 {
    let sum = mix(sum, u64::from(record.number));
    let sum = mix(mix(sum, u64::from(record.rate)), u64::from(record.links));
    mix(sum, u64::from(record.mark))
}
