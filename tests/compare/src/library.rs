//! The library for C: its functions, each behind a safe one. Nothing checks these declarations against the library.

#[link(name = "panel", kind = "static")]
unsafe extern "C" {
    fn panel_text_to_record(text: *const u8, text_len: usize, record: *mut u8, record_len: usize) -> u64;
    fn panel_record_slot(record: *const u8, record_len: usize, slot: u64) -> u64;
    fn panel_record_against_text(record: *const u8, record_len: usize, text: *const u8, text_len: usize) -> u64;
    fn panel_least_band_of_text(text: *const u8, text_len: usize, budget: u64) -> u64;
    fn panel_better_offer(
        text: *const u8,
        text_len: usize,
        first: *const u8,
        first_len: usize,
        second: *const u8,
        second_len: usize,
    ) -> u64;
    fn panel_flow_of_step(step: u64) -> u64;
    fn panel_step_for_flow(flow: u64) -> u64;
}

pub fn text_to_record(text: &[u8], record: &mut [u8]) -> u64 {
    unsafe { panel_text_to_record(text.as_ptr(), text.len(), record.as_mut_ptr(), record.len()) }
}

pub fn record_slot(record: &[u8], slot: u64) -> u64 {
    unsafe { panel_record_slot(record.as_ptr(), record.len(), slot) }
}

pub fn record_against_text(record: &[u8], text: &[u8]) -> u64 {
    unsafe { panel_record_against_text(record.as_ptr(), record.len(), text.as_ptr(), text.len()) }
}

pub fn least_band_of_text(text: &[u8], budget: u64) -> u64 {
    unsafe { panel_least_band_of_text(text.as_ptr(), text.len(), budget) }
}

pub fn better_offer(text: &[u8], first: &[u8], second: &[u8]) -> u64 {
    unsafe { panel_better_offer(text.as_ptr(), text.len(), first.as_ptr(), first.len(), second.as_ptr(), second.len()) }
}

pub fn flow_of_step(step: u64) -> u64 {
    unsafe { panel_flow_of_step(step) }
}

pub fn step_for_flow(flow: u64) -> u64 {
    unsafe { panel_step_for_flow(flow) }
}
