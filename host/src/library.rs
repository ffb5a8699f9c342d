//! The functions of include/sotrugla.h, where their promises stand.

#[repr(C)]
#[derive(Clone, Copy)]
pub struct Outcome {
    pub refusal: u64,
    pub place: u64,
    pub work: u64,
}

#[repr(C)]
pub struct Pgm {
    pub refusal: u64,
    pub place: u64,
    pub width: u64,
    pub height: u64,
    pub maximum: u64,
    pub start: u64,
}

#[repr(C)]
pub struct Written {
    pub refusal: u64,
    pub place: u64,
    pub work: u64,
    pub length: u64,
}

#[repr(C)]
pub struct Reason {
    pub refusal: u64,
    pub place: u64,
    pub kind: u64,
    pub r#box: u64,
    pub phase: u64,
    pub through_column: u64,
    pub through_row: u64,
    pub from_column: u64,
    pub from_row: u64,
}

/// Two of the kinds of reasons; the third is 4, of two passes.
pub const HIDDEN_BOX: u64 = 1;
pub const ONE_PASS: u64 = 3;

/// The longest header that `sotrugla_run_pgm` writes.
pub const PGM_HEADER: usize = 17;

/// How many numbers `sotrugla_read_ticket` writes: eight, and four for each of 64 box places.
pub const NUMBERS: usize = 8 + 4 * 64;

/// The most jobs of a list, each of which has an answer; an answer has three numbers.
pub const LIST_JOBS: usize = 256;
pub const ANSWER_NUMBERS: usize = 3;

extern "C" {
    pub fn sotrugla_version() -> u64;

    pub fn sotrugla_run(
        ticket: *const u8,
        ticket_length: usize,
        width: usize,
        height: usize,
        source_offset: usize,
        source_stride: usize,
        output_offset: usize,
        output_stride: usize,
        source: *const u8,
        source_length: usize,
        output: *mut u8,
        output_length: usize,
        scratch: *mut u8,
        scratch_length: usize,
    ) -> Outcome;

    pub fn sotrugla_run_tray(
        count: usize,
        jobs: *const u64,
        jobs_length: usize,
        tickets: *const u8,
        tickets_length: usize,
        source: *const u8,
        source_length: usize,
        output: *mut u8,
        output_length: usize,
        scratch: *mut u8,
        scratch_length: usize,
        answers: *mut u64,
        answers_length: usize,
    ) -> Outcome;

    pub fn sotrugla_scratch_needed(width: usize, height: usize) -> usize;

    pub fn sotrugla_read_ticket(
        ticket: *const u8,
        ticket_length: usize,
        numbers: *mut i64,
        numbers_length: usize,
    ) -> Outcome;

    pub fn sotrugla_is_hidden(
        ticket: *const u8,
        ticket_length: usize,
        column: usize,
        row: usize,
    ) -> u64;

    pub fn sotrugla_read_pgm(file: *const u8, file_length: usize) -> Pgm;

    pub fn sotrugla_run_pgm(
        ticket: *const u8,
        ticket_length: usize,
        file: *const u8,
        file_length: usize,
        output: *mut u8,
        output_length: usize,
        scratch: *mut u8,
        scratch_length: usize,
    ) -> Written;

    pub fn sotrugla_why(
        ticket: *const u8,
        ticket_length: usize,
        width: usize,
        height: usize,
        source_offset: usize,
        source_stride: usize,
        output_offset: usize,
        output_stride: usize,
        source: *const u8,
        source_length: usize,
        output_length: usize,
        scratch_length: usize,
        column: usize,
        row: usize,
    ) -> Reason;
}
