//! The page of a sheet (document 02, item 4).

use super::Refusal;
use super::figures::figures;
use super::sheet::Operator;

/// Seventeen lines of sixty characters and a line feed.
pub const PAGE_MEMORY: usize = 17 * LINE;

const LINE: usize = 61;

fn name(operator: Operator) -> &'static [u8] {
    match operator {
        Operator::Limiter(_) => b"limiter",
        Operator::Compactor(_) => b"compactor",
        Operator::Expander(_) => b"expander",
        Operator::Filter(_) => b"filter",
        Operator::Delayer(_) => b"delayer",
    }
}

fn put_left(column: &mut [u8], text: &[u8]) {
    column[..text.len()].copy_from_slice(text);
}

fn put_right(column: &mut [u8], mut number: u64) {
    for character in column.iter_mut().rev() {
        *character = b'0' + (number % 10) as u8;
        number /= 10;
        if number == 0 {
            return;
        }
    }
}

fn put_line(
    line: &mut [u8],
    index: Option<usize>,
    kind: &[u8],
    link: Option<u32>,
    capacity: u64,
    delay: u64,
) {
    line[..LINE - 1].fill(b' ');
    if let Some(index) = index {
        put_right(&mut line[..4], index as u64);
    }
    put_left(&mut line[4..16], kind);
    if let Some(link) = link {
        put_right(&mut line[16..20], u64::from(link));
    }
    put_right(&mut line[20..40], capacity);
    put_right(&mut line[40..60], delay);
    line[LINE - 1] = b'\n';
}

/// The page's length.
pub fn page(sheet: &[u8], lent: &mut [u8]) -> Result<usize, Refusal> {
    if lent.len() != PAGE_MEMORY {
        return Err(Refusal::Unusable);
    }
    let answer = figures(sheet)?;
    let count = answer.path.count;
    let mut sum = 0;
    for (k, line) in lent.chunks_exact_mut(LINE).take(count).enumerate() {
        let (place, figure) = (answer.path.places[k], answer.figures[k]);
        sum += figure.capacity;
        put_line(
            line,
            Some(k),
            name(place.operator),
            Some(place.link),
            figure.capacity,
            figure.delay,
        );
    }
    put_line(
        &mut lent[count * LINE..],
        None,
        b"path",
        None,
        sum,
        answer.delay,
    );
    Ok((count + 1) * LINE)
}
