//! The workloads over the proved library: the functions that `crates/workload` exports. A slice goes as a pointer and a length.

mod exported {
    unsafe extern "C" {
        pub fn workload_figures(sheets: *const u8, size: usize, width: usize, turns: u64) -> u64;

        pub fn workload_pages(
            sheets: *const u8,
            size: usize,
            width: usize,
            lent: *mut u8,
            lent_size: usize,
            turns: u64,
        ) -> u64;

        pub fn workload_reading(sheets: *const u8, size: usize, width: usize, turns: u64) -> u64;

        pub fn workload_writing(
            sheets: *const u8,
            size: usize,
            width: usize,
            written: *mut u8,
            written_size: usize,
            turns: u64,
        ) -> u64;

        pub fn workload_words(words: *mut u32, word_count: usize, turns: u64) -> u64;

        pub fn workload_slots(
            sheet: *const u8,
            size: usize,
            words: *mut u32,
            word_count: usize,
            inputs: *const u64,
            input_count: usize,
            choices: *const u64,
            choice_count: usize,
            width: usize,
            turns: u64,
        ) -> u64;

        pub fn workload_metering(
            declared: *const u32,
            declared_count: usize,
            slot: u32,
            words: *mut u32,
            word_count: usize,
            inputs: *const u64,
            input_count: usize,
            turns: u64,
        ) -> u64;

        pub fn workload_holdings(
            capacity: u32,
            standing: *const u32,
            standing_count: usize,
            further: *const u32,
            further_count: usize,
            sheets: *const u8,
            size: usize,
            width: usize,
            confirmed: bool,
            turns: u64,
        ) -> u64;

        pub fn workload_releases(
            capacity: u32,
            standing: *const u32,
            standing_count: usize,
            released: *const u32,
            released_count: usize,
            sheets: *const u8,
            size: usize,
            width: usize,
            turns: u64,
        ) -> u64;

        pub fn workload_spare_rates(
            capacity: u32,
            standing: *const u32,
            standing_count: usize,
            asked: *const u32,
            asked_count: usize,
            sheets: *const u8,
            size: usize,
            width: usize,
            turns: u64,
        ) -> u64;
    }
}

// No function below has anything to ask of its caller: each takes any arguments, and lent memory is a slice's.

pub fn figures(sheets: &[u8], width: usize, turns: u64) -> u64 {
    unsafe { exported::workload_figures(sheets.as_ptr(), sheets.len(), width, turns) }
}

pub fn pages(sheets: &[u8], width: usize, lent: &mut [u8], turns: u64) -> u64 {
    unsafe {
        exported::workload_pages(
            sheets.as_ptr(),
            sheets.len(),
            width,
            lent.as_mut_ptr(),
            lent.len(),
            turns,
        )
    }
}

pub fn reading(sheets: &[u8], width: usize, turns: u64) -> u64 {
    unsafe { exported::workload_reading(sheets.as_ptr(), sheets.len(), width, turns) }
}

pub fn writing(sheets: &[u8], width: usize, written: &mut [u8], turns: u64) -> u64 {
    unsafe {
        exported::workload_writing(
            sheets.as_ptr(),
            sheets.len(),
            width,
            written.as_mut_ptr(),
            written.len(),
            turns,
        )
    }
}

pub fn words(words: &mut [u32], turns: u64) -> u64 {
    unsafe { exported::workload_words(words.as_mut_ptr(), words.len(), turns) }
}

pub fn slots(
    sheet: &[u8],
    words: &mut [u32],
    inputs: &[u64],
    choices: &[u64],
    width: usize,
    turns: u64,
) -> u64 {
    unsafe {
        exported::workload_slots(
            sheet.as_ptr(),
            sheet.len(),
            words.as_mut_ptr(),
            words.len(),
            inputs.as_ptr(),
            inputs.len(),
            choices.as_ptr(),
            choices.len(),
            width,
            turns,
        )
    }
}

pub fn metering(declared: &[u32], slot: u32, words: &mut [u32], inputs: &[u64], turns: u64) -> u64 {
    unsafe {
        exported::workload_metering(
            declared.as_ptr(),
            declared.len(),
            slot,
            words.as_mut_ptr(),
            words.len(),
            inputs.as_ptr(),
            inputs.len(),
            turns,
        )
    }
}

pub fn holdings<const CONFIRMED: bool>(
    capacity: u32,
    standing: &[u32],
    further: &[u32],
    sheets: &[u8],
    width: usize,
    turns: u64,
) -> u64 {
    unsafe {
        exported::workload_holdings(
            capacity,
            standing.as_ptr(),
            standing.len(),
            further.as_ptr(),
            further.len(),
            sheets.as_ptr(),
            sheets.len(),
            width,
            CONFIRMED,
            turns,
        )
    }
}

pub fn releases(
    capacity: u32,
    standing: &[u32],
    released: &[u32],
    sheets: &[u8],
    width: usize,
    turns: u64,
) -> u64 {
    unsafe {
        exported::workload_releases(
            capacity,
            standing.as_ptr(),
            standing.len(),
            released.as_ptr(),
            released.len(),
            sheets.as_ptr(),
            sheets.len(),
            width,
            turns,
        )
    }
}

pub fn spare_rates(
    capacity: u32,
    standing: &[u32],
    asked: &[u32],
    sheets: &[u8],
    width: usize,
    turns: u64,
) -> u64 {
    unsafe {
        exported::workload_spare_rates(
            capacity,
            standing.as_ptr(),
            standing.len(),
            asked.as_ptr(),
            asked.len(),
            sheets.as_ptr(),
            sheets.len(),
            width,
            turns,
        )
    }
}
