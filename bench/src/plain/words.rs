//! The tests of lent words (sections 6 and 7). Words are joined and tested once, since a test that stops early is not vectorised.

use super::{LARGEST, Refusal};

/// All bits of the words. No word is above 1,073,741,823, which is 2^30 − 1, if they are not.
pub fn bits(words: &[u32]) -> u32 {
    words.iter().fold(0, |bits, &word| bits | word)
}

/// The words of a row, which the compiler joins without a loop.
const ROW: usize = 256;

/// The same where short parts of a ring are added, which is quicker so.
pub const HALF_ROW: usize = 128;

/// Whether all of many words are 0: row by row from the end, so that the rows of words behind others begin where those of the whole memory do,
/// and what is left in front with as many behind it as make a row.
pub fn all_zero(words: &[u32]) -> bool {
    let (rest, rows) = words.as_rchunks::<ROW>();
    let front = match words.first_chunk::<ROW>() {
        Some(row) if !rest.is_empty() => bits(row),
        _ => bits(rest),
    };
    rows.iter().fold(front, |joined, row| joined | bits(row)) == 0
}

/// The low 32 bits of the words' sum, and all their bits.
fn gathered(words: &[u32]) -> (u32, u32) {
    words.iter().fold((0, 0), |(sum, bits), &word| {
        (sum.wrapping_add(word), bits | word)
    })
}

/// The sum of at most 1,024 words, and all their bits, in rows of so many words. Words below 2^22 are added in 32 bits.
pub fn sum_and_bits<const WIDTH: usize>(words: &[u32]) -> (u64, u32) {
    let (rows, rest) = words.as_chunks::<WIDTH>();
    let (sum, bits) = rows.iter().fold(gathered(rest), |(sum, bits), row| {
        let (of_row, in_row) = gathered(row);
        (sum.wrapping_add(of_row), bits | in_row)
    });
    if bits < 1 << 22 {
        (u64::from(sum), bits)
    } else {
        (words.iter().map(|&word| u64::from(word)).sum(), bits)
    }
}

/// The sum of at most 1,024 words, each of which is an amount stored.
pub fn sum(words: &[u32]) -> Result<u64, Refusal> {
    let (sum, bits) = sum_and_bits::<ROW>(words);
    if u64::from(bits) > LARGEST {
        return Err(Refusal::Unusable);
    }
    Ok(sum)
}
