//! The functions and structs of the C library libdvdecc, as its header dvdecc.h declares them.
//!
//! The header has the promise of each function, and what it asks of a caller: each pointer leads to as many bytes as its
//! type says, no two buffers of a call overlap where one is written, and no byte changes during a call other than by it.
//! The crate `dvdecc` has safe functions over these.

#![no_std]

/// All was done.
pub const DVDECC_OK: u32 = 0;
/// No codeword is near the word.
pub const DVDECC_UNCORRECTABLE: u32 = 1;
/// There is no memory for the call.
pub const DVDECC_NO_MEMORY: u32 = 2;
/// The call has no scrambling rule of this number.
pub const DVDECC_BAD_RULE: u32 = 3;
/// No CD-ROM sector has this address: it is 450,000 or more.
pub const DVDECC_BAD_ADDRESS: u32 = 4;
/// The lengths of the lists don't fit each other.
pub const DVDECC_BAD_LENGTH: u32 = 5;
/// More than 16 rows of a block have no codeword near.
pub const DVDECC_ROWS: u32 = 6;
/// A column of the rows' answers has no codeword near.
pub const DVDECC_COLUMN: u32 = 7;
/// A row of the columns' answers isn't a codeword.
pub const DVDECC_ROW: u32 = 8;
/// A data frame has a wrong IED.
pub const DVDECC_IED: u32 = 9;
/// A data frame names another place.
pub const DVDECC_ID: u32 = 10;
/// A data frame has a wrong EDC.
pub const DVDECC_EDC: u32 = 11;
/// A word of a CD-ROM sector isn't a codeword.
pub const DVDECC_CD_PARITY: u32 = 12;
/// A CD-ROM sector has another mode than 1.
pub const DVDECC_CD_MODE: u32 = 13;
/// A CD-ROM sector has another address.
pub const DVDECC_CD_ADDRESS: u32 = 14;
/// A CD-ROM sector has a wrong EDC.
pub const DVDECC_CD_EDC: u32 = 15;
/// No block of a disk begins with this ID word: the sector number of its last frame would have more than 24 bits.
pub const DVDECC_BAD_ID: u32 = 16;

/// All Main Data bytes are scrambled.
pub const DVDECC_WHOLE: u32 = 0;
/// None is.
pub const DVDECC_OFF: u32 = 1;
/// The first 160 are.
pub const DVDECC_FIRST_160: u32 = 2;

/// What the decoding of a word corrected.
#[repr(C)]
#[derive(Clone, Copy, Debug, Default, PartialEq, Eq)]
pub struct Correction {
    /// Bytes that were corrected and weren't lost.
    pub errors: u32,
    /// Bytes that were lost.
    pub erasures: u32,
}

/// What the decoding of one of many words came to.
#[repr(C)]
#[derive(Clone, Copy, Debug, Default, PartialEq, Eq)]
pub struct Answer {
    /// That of the call for one word.
    pub status: u32,
    /// Zeros where no codeword is near.
    pub correction: Correction,
}

/// What two passes over a captured block came to.
#[repr(C)]
#[derive(Clone, Copy, Debug, Default, PartialEq, Eq)]
pub struct Report {
    /// Places where the block differs from what was received.
    pub corrected: u32,
    /// Rows with no codeword near, at most 16.
    pub failed_rows: u32,
    /// After a cause how many rows failed, or which column, row or frame; else 0.
    pub number: u32,
}

extern "C" {
    /// Writes the EDC of a list of bytes.
    pub fn dvdecc_edc(bytes: *const u8, bytes_count: usize, edc: *mut [u8; 4]);
    /// Writes the IED of an ID word.
    pub fn dvdecc_ied(id: u32, ied: *mut [u8; 2]);
    /// Writes the EDC of a list of bytes for a CD-ROM sector.
    pub fn dvdecc_cd_edc(bytes: *const u8, bytes_count: usize, edc: *mut [u8; 4]);
    /// Sets the parity of a row.
    pub fn dvdecc_row_parity(row: *mut [u8; 182]);
    /// Whether a row is a codeword.
    pub fn dvdecc_row_is_codeword(row: *const [u8; 182]) -> bool;
    /// Sets a row to the codeword near it.
    pub fn dvdecc_row_decode(row: *mut [u8; 182], lost: *const [u8; 182], correction: *mut Correction) -> u32;
    /// Sets the parity of a column.
    pub fn dvdecc_column_parity(column: *mut [u8; 208]);
    /// Whether a column is a codeword.
    pub fn dvdecc_column_is_codeword(column: *const [u8; 208]) -> bool;
    /// Sets a column to the codeword near it.
    pub fn dvdecc_column_decode(column: *mut [u8; 208], lost: *const [u8; 208], correction: *mut Correction) -> u32;
    /// Sets the parity of each row.
    pub fn dvdecc_rows_parity(rows: *mut [u8; 182], rows_count: usize);
    /// Sets each row to the codeword near it, and answers for each.
    pub fn dvdecc_rows_decode(
        rows: *mut [u8; 182],
        rows_count: usize,
        lost: *const [u8; 182],
        lost_count: usize,
        answers: *mut Answer,
        answers_count: usize,
    ) -> u32;
    /// Sets the parity of a word.
    pub fn dvdecc_rs_parity(word: *mut u8, word_count: usize, parity: u32) -> u32;
    /// Sets a word to the codeword near it.
    pub fn dvdecc_rs_decode(
        word: *mut u8,
        word_count: usize,
        lost: *const u8,
        lost_count: usize,
        parity: u32,
        correction: *mut Correction,
    ) -> u32;
    /// Sets the parity of a block.
    pub fn dvdecc_block_parity(rows: *mut [[u8; 182]; 208]);
    /// Whether a block is a codeword of the product code.
    pub fn dvdecc_block_is_codeword(rows: *const [[u8; 182]; 208]) -> bool;
    /// Decodes a captured block by two passes.
    pub fn dvdecc_two_pass(capture: *const [u8; 42640], rows: *mut [[u8; 182]; 208], report: *mut Report) -> u32;
    /// Writes the sectors of a captured block.
    pub fn dvdecc_read_block(
        capture: *const [u8; 42640],
        id: u32,
        rule: u32,
        sectors: *mut [[u8; 2048]; 16],
        report: *mut Report,
    ) -> u32;
    /// Writes the sectors of a captured block that pass their checks.
    pub fn dvdecc_salvage_block(
        capture: *const [u8; 42640],
        id: u32,
        rule: u32,
        sectors: *mut [[u8; 2048]; 16],
        saved: *mut [u8; 16],
    ) -> u32;
    /// Combines Main Data with scrambling bytes.
    pub fn dvdecc_scramble(id: u32, rule: u32, main_data: *mut [u8; 2048]) -> u32;
    /// Writes a data frame.
    pub fn dvdecc_make_frame(
        id: u32,
        cpr: *const [u8; 6],
        rule: u32,
        main_data: *const [u8; 2048],
        frame: *mut [u8; 2064],
    ) -> u32;
    /// Checks a data frame, and writes its Main Data.
    pub fn dvdecc_read_frame(
        frame: *const [u8; 2064],
        id: u32,
        rule: u32,
        main_data: *mut [u8; 2048],
        found: *mut u32,
    ) -> u32;
    /// Writes a CD-ROM sector.
    pub fn dvdecc_cd_make(address: u32, user: *const [u8; 2048], sector: *mut [u8; 2352]) -> u32;
    /// Tests a CD-ROM sector.
    pub fn dvdecc_cd_check(sector: *const [u8; 2352], address: u32, number: *mut u32) -> u32;
    /// Repairs a CD-ROM sector.
    pub fn dvdecc_cd_repair(sector: *mut [u8; 2352], address: u32, number: *mut u32) -> u32;
}
