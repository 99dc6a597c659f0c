//! The most that several rows allow in a window (document 02, item 6).

use super::sheet::Row;

/// The entries of a table: windows of 0 to 1,920 slots, which is as late as an operator is behind fourteen delayers and a filter, and one slot.
const LENGTH: usize = 1_921;

/// Entry n is the most in n slots. Entries are signed, since plain x86-64 has no vector comparison of unsigned words.
pub type Table = [i32; LENGTH];

/// A table of which no entry is filled.
pub const UNFILLED: Table = [0; LENGTH];

/// The most that the rows allow in n slots, by a table.
pub struct Bound<'a> {
    rows: &'a [Row],
    most: &'a Table,
}

impl<'a> Bound<'a> {
    /// The bound of these rows. The table is the standard camera's, or it is filled for up to so many slots.
    pub fn new(rows: &'a [Row], table: &'a mut Table, slots: usize) -> Bound<'a> {
        if rows == CAMERA_ROWS {
            return Bound {
                rows,
                most: &CAMERA,
            };
        }
        fill(&mut table[1..=slots], rows);
        Bound { rows, most: table }
    }

    /// The most in n slots.
    pub fn most_in(&self, n: u64) -> u64 {
        self.most[n as usize] as u64
    }

    /// Whether a row has Q ≤ m·R.
    pub fn is_carried_by(&self, rate: u64) -> bool {
        reach(self.rows, rate).is_some()
    }

    /// The greatest that the bound has beyond a rate, in up to as many slots as the first row that the rate carries has.
    pub fn burst_at(&self, rate: u64) -> u64 {
        let Some(slots) = reach(self.rows, rate) else {
            return 0;
        };
        let rate = rate as i32;
        let mut sent = 0;
        let mut greatest = 0;
        for most in &self.most[1..=slots] {
            sent += rate;
            greatest = greatest.max(most - sent);
        }
        greatest as u64
    }
}

/// The rows of the standard camera (document 02, item 7).
pub const CAMERA_ROWS: [Row; 3] = [
    Row {
        interval: 1,
        quota: 9,
    },
    Row {
        interval: 3,
        quota: 15,
    },
    Row {
        interval: 12,
        quota: 48,
    },
];

static CAMERA: Table = camera();

/// Worked upward: the least, over the rows, of Q and the most in the slots that m leaves.
const fn camera() -> Table {
    let mut table = UNFILLED;
    let mut n = 1;
    while n < LENGTH {
        let mut least = i32::MAX;
        let mut i = 0;
        while i < CAMERA_ROWS.len() {
            let Row { interval, quota } = CAMERA_ROWS[i];
            let most = quota as i32 + table[n.saturating_sub(interval as usize)];
            if most < least {
                least = most;
            }
            i += 1;
        }
        table[n] = least;
        n += 1;
    }
    table
}

/// Fills a table that begins with the most in one slot.
fn fill(table: &mut [i32], rows: &[Row]) {
    if let [first, further @ ..] = rows {
        first_row(table, first);
        for row in further {
            next_row(table, row);
        }
    }
}

/// The interval of the first row that the rate carries. It does not fall as the rate falls.
pub fn reach(rows: &[Row], rate: u64) -> Option<usize> {
    rows.iter()
        .find(|row| u64::from(row.quota) <= u64::from(row.interval) * rate)
        .map(|row| row.interval as usize)
}

/// The first row alone: its quota for each interval begun. The table begins with the most in one slot.
fn first_row(table: &mut [i32], row: &Row) {
    let quota = row.quota as i32;
    match row.interval as usize {
        interval @ (1 | 2 | 4) => first_row_by::<8>(table, interval, quota),
        interval @ (3 | 6) => first_row_by::<12>(table, interval, quota),
        interval @ 5 => first_row_by::<10>(table, interval, quota),
        interval @ 7 => first_row_by::<14>(table, interval, quota),
        interval => {
            quota_for_each(table, interval, quota);
        }
    }
}

/// Fills a table with the quota for each interval begun, and answers its last entry.
fn quota_for_each(table: &mut [i32], interval: usize, quota: i32) -> i32 {
    let mut used = 0;
    for entries in table.chunks_mut(interval) {
        used += quota;
        entries.fill(used);
    }
    used
}

/// The first row where its interval is short and divides `SLOTS`: so many entries are stored at once.
fn first_row_by<const SLOTS: usize>(table: &mut [i32], interval: usize, quota: i32) {
    let mut block = [0; SLOTS];
    let step = quota_for_each(&mut block, interval, quota);
    let mut before = 0;
    let (blocks, rest) = table.as_chunks_mut();
    for entries in blocks {
        *entries = block.map(|used| before + used);
        before += step;
    }
    for (most, used) in rest.iter_mut().zip(block) {
        *most = before + used;
    }
}

/// One row more: it is not used in n slots, or once more than in those that its interval leaves.
fn next_row(table: &mut [i32], row: &Row) {
    let quota = row.quota as i32;
    match row.interval as usize {
        2 => next_row_by::<2>(table, quota),
        3 => next_row_by::<3>(table, quota),
        4 => next_row_by::<4>(table, quota),
        5 => next_row_by::<5>(table, quota),
        6 => next_row_by::<6>(table, quota),
        7 => next_row_by::<7>(table, quota),
        8 => next_row_by::<8>(table, quota),
        9 => next_row_by::<9>(table, quota),
        10 => next_row_by::<10>(table, quota),
        11 => next_row_by::<11>(table, quota),
        12 => next_row_by::<12>(table, quota),
        13 => next_row_by::<13>(table, quota),
        14 => next_row_by::<14>(table, quota),
        15 => next_row_by::<15>(table, quota),
        interval => {
            let once = interval.min(table.len());
            for most in &mut table[..once] {
                *most = (*most).min(quota);
            }
            // an interval's entries at once: they go by those of the interval before alone
            let mut at = interval;
            while at < table.len() {
                let (before, from) = table.split_at_mut(at);
                for (most, left) in from.iter_mut().zip(&before[at - interval..]) {
                    *most = (*most).min(quota + left);
                }
                at += interval;
            }
        }
    }
}

/// One row more where its interval is short: its last entries stay in registers.
fn next_row_by<const INTERVAL: usize>(table: &mut [i32], quota: i32) {
    let mut left = [0; INTERVAL];
    let (intervals, rest) = table.as_chunks_mut::<INTERVAL>();
    for entries in intervals {
        for (most, left) in entries.iter_mut().zip(&mut left) {
            *most = (*most).min(quota + *left);
            *left = *most;
        }
    }
    for (most, left) in rest.iter_mut().zip(left) {
        *most = (*most).min(quota + left);
    }
}
