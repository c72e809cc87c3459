//! The C functions of the proved library, as `include/hornbillrug.h` declares them.
//!
//! A pointer and the length behind it are those of one slice, and what is lent for writing overlaps
//! nothing else. The safe calls of this crate see to that.

use crate::Format;

/// Number 0 and the length written, or a refusal's number and place and value 0.
#[repr(C)]
#[derive(Debug, Clone, Copy, PartialEq, Eq)]
pub struct Answer {
    /// The refusal's number, or 0.
    pub number: u32,
    /// The refusal's place, or 0.
    pub place: usize,
    /// The length written, or 0.
    pub value: usize,
}

/// Number 0 and the float read, or a refusal's number and place and value 0.
#[repr(C)]
#[derive(Debug, Clone, Copy, PartialEq)]
pub struct AnswerF64 {
    /// The refusal's number, or 0.
    pub number: u32,
    /// The refusal's place, or 0.
    pub place: usize,
    /// The float read, or 0.
    pub value: f64,
}

/// The same at 32 bits.
#[repr(C)]
#[derive(Debug, Clone, Copy, PartialEq)]
pub struct AnswerF32 {
    /// The refusal's number, or 0.
    pub number: u32,
    /// The refusal's place, or 0.
    pub place: usize,
    /// The float read, or 0.
    pub value: f32,
}

/// Number 0 and the length of the last text, or a refusal with its station.
#[repr(C)]
#[derive(Debug, Clone, Copy, PartialEq, Eq)]
pub struct StationAnswer {
    /// The refusal's number, or 0.
    pub number: u32,
    /// Whether the station's writing refused, and not its reading.
    pub writing: bool,
    /// The station that refused, counted from 0, or 0.
    pub station: usize,
    /// The refusal's place, or 0.
    pub place: usize,
    /// The length of the last text, or 0.
    pub value: usize,
}

#[allow(missing_docs)]
extern "C" {
    pub fn lexical_write_integer(
        value: u64,
        radix: u32,
        width: u32,
        buffer: *mut u8,
        length: usize,
    ) -> Answer;
    pub fn lexical_write_f64(x: f64, format: Format, buffer: *mut u8, length: usize) -> Answer;
    pub fn lexical_write_f32(x: f32, format: Format, buffer: *mut u8, length: usize) -> Answer;
    pub fn lexical_read_f64(text: *const u8, text_length: usize, format: Format) -> AnswerF64;
    pub fn lexical_read_f32(text: *const u8, text_length: usize, format: Format) -> AnswerF32;
    pub fn lexical_rewrite_f64(
        text: *const u8,
        text_length: usize,
        from: Format,
        to: Format,
        buffer: *mut u8,
        length: usize,
    ) -> StationAnswer;
    pub fn lexical_rewrite_f32(
        text: *const u8,
        text_length: usize,
        from: Format,
        to: Format,
        buffer: *mut u8,
        length: usize,
    ) -> StationAnswer;
    pub fn lexical_chain_f64(
        text: *const u8,
        text_length: usize,
        from: Format,
        first: Format,
        further: *const u8,
        further_length: usize,
        buffer: *mut u8,
        length: usize,
    ) -> StationAnswer;
    pub fn lexical_chain_f32(
        text: *const u8,
        text_length: usize,
        from: Format,
        first: Format,
        further: *const u8,
        further_length: usize,
        buffer: *mut u8,
        length: usize,
    ) -> StationAnswer;
    pub fn outage_table_to_sheet(
        table: *const u8,
        table_length: usize,
        format: Format,
        sheet: *mut u8,
        length: usize,
    ) -> Answer;
    pub fn outage_sheet_to_table(
        sheet: *const u8,
        sheet_length: usize,
        format: Format,
        table: *mut u8,
        length: usize,
    ) -> Answer;
    pub fn outage_pack(
        table: *const u8,
        table_length: usize,
        packed: *mut u8,
        length: usize,
    ) -> Answer;
    pub fn outage_unpack(
        packed: *const u8,
        packed_length: usize,
        table: *mut u8,
        length: usize,
    ) -> Answer;
}
