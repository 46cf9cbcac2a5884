//! The codes, frames and blocks of DVDs (ECMA-267) and the sectors of CD-ROMs (ECMA-130), by the C library libdvdecc.
//!
//! Each function of the library is proved to do what its header dvdecc.h promises. The functions here pass it references
//! of the right lengths, which cannot overlap or change during a call, so what the header asks of a caller is kept by their
//! types. They are tested and not proved. The crate `dvdecc-sys` says how the library is found.
//!
//! ```
//! let mut row = [7; 182];
//! dvdecc::row_parity(&mut row);
//! let sent = row;
//! row[3] ^= 1;
//! let fix = dvdecc::row_decode(&mut row, &[0; 182])?;
//! assert_eq!((fix.errors, fix.erasures, row), (1, 0, sent));
//! # Ok::<(), dvdecc::Error>(())
//! ```

pub use dvdecc_sys as ffi;
pub use dvdecc_sys::{Answer, Correction, Report};

/// Why a call did nothing.
#[derive(Clone, Copy, Debug, PartialEq, Eq, Hash)]
#[non_exhaustive]
pub enum Status {
    /// No codeword is near the word.
    Uncorrectable,
    /// There is no memory for the call.
    NoMemory,
    /// The call has no scrambling rule of this number.
    BadRule,
    /// No CD-ROM sector has this address: it is 450,000 or more.
    BadAddress,
    /// The lengths of the lists don't fit each other.
    BadLength,
    /// More than 16 rows of a block have no codeword near.
    Rows,
    /// A column of the rows' answers has no codeword near.
    Column,
    /// A row of the columns' answers isn't a codeword.
    Row,
    /// A data frame has a wrong IED.
    Ied,
    /// A data frame names another place.
    Id,
    /// A data frame has a wrong EDC.
    Edc,
    /// A word of a CD-ROM sector isn't a codeword.
    CdParity,
    /// A CD-ROM sector has another mode than 1.
    CdMode,
    /// A CD-ROM sector has another address.
    CdAddress,
    /// A CD-ROM sector has a wrong EDC.
    CdEdc,
    /// No block of a disk begins with this ID word: the sector number of its last frame would have more than 24 bits.
    BadId,
    /// A status of a library that is later than this crate.
    Other(u32),
}

impl Status {
    fn of(number: u32) -> Status {
        match number {
            ffi::DVDECC_UNCORRECTABLE => Status::Uncorrectable,
            ffi::DVDECC_NO_MEMORY => Status::NoMemory,
            ffi::DVDECC_BAD_RULE => Status::BadRule,
            ffi::DVDECC_BAD_ADDRESS => Status::BadAddress,
            ffi::DVDECC_BAD_LENGTH => Status::BadLength,
            ffi::DVDECC_ROWS => Status::Rows,
            ffi::DVDECC_COLUMN => Status::Column,
            ffi::DVDECC_ROW => Status::Row,
            ffi::DVDECC_IED => Status::Ied,
            ffi::DVDECC_ID => Status::Id,
            ffi::DVDECC_EDC => Status::Edc,
            ffi::DVDECC_CD_PARITY => Status::CdParity,
            ffi::DVDECC_CD_MODE => Status::CdMode,
            ffi::DVDECC_CD_ADDRESS => Status::CdAddress,
            ffi::DVDECC_CD_EDC => Status::CdEdc,
            ffi::DVDECC_BAD_ID => Status::BadId,
            other => Status::Other(other),
        }
    }
}

impl std::fmt::Display for Status {
    fn fmt(&self, out: &mut std::fmt::Formatter<'_>) -> std::fmt::Result {
        let text = match self {
            Status::Uncorrectable => "no codeword is near the word",
            Status::NoMemory => "there was no memory",
            Status::BadRule => "the call has no scrambling rule of this number",
            Status::BadAddress => "the address of a CD-ROM sector is 450,000 or more",
            Status::BadLength => "the lengths don't fit",
            Status::Rows => "more than 16 rows of the block have no codeword near",
            Status::Column => "a column has no codeword near",
            Status::Row => "a row is no codeword after the columns were corrected",
            Status::Ied => "a data frame has a wrong IED",
            Status::Id => "a data frame names another place",
            Status::Edc => "a data frame has a wrong EDC",
            Status::CdParity => "a P word or a Q word is no codeword",
            Status::CdMode => "the sector has another mode than 1",
            Status::CdAddress => "the sector has another address",
            Status::CdEdc => "the sector has a wrong EDC",
            Status::BadId => "no block of a disk begins with this ID word",
            Status::Other(number) => return write!(out, "status {number}, which this crate doesn't know"),
        };
        out.write_str(text)
    }
}

/// A status, and the number that comes with it, or 0.
#[derive(Clone, Copy, Debug, PartialEq, Eq)]
pub struct Error {
    /// Why.
    pub status: Status,
    /// The number that comes with this status, or 0: how many rows failed, or which column, row, frame, word or place.
    pub number: u32,
}

impl std::fmt::Display for Error {
    fn fmt(&self, out: &mut std::fmt::Formatter<'_>) -> std::fmt::Result {
        match self.number {
            0 => write!(out, "{}", self.status),
            number => write!(out, "{} (number {number})", self.status),
        }
    }
}

impl std::error::Error for Error {}

/// Which Main Data bytes are scrambled.
#[derive(Clone, Copy, Debug, PartialEq, Eq)]
pub enum Rule {
    /// All 2,048, as in the Data Zone.
    Whole = 0,
    /// None.
    Off = 1,
    /// The first 160, as in the first frame of a block of the Reference Code Zone.
    First160 = 2,
}

fn accept<T>(status: u32, number: u32, value: T) -> Result<T, Error> {
    if status == ffi::DVDECC_OK {
        Ok(value)
    } else {
        Err(Error { status: Status::of(status), number })
    }
}

/// The EDC of a list of bytes: of the first 2,060 of a data frame, before scrambling.
pub fn edc(bytes: &[u8]) -> [u8; 4] {
    let mut edc = [0; 4];
    // SAFETY: these are references of the lengths that the header declares, and those that are written overlap nothing.
    unsafe { ffi::dvdecc_edc(bytes.as_ptr(), bytes.len(), &mut edc) };
    edc
}

/// The IED of an ID word.
pub fn ied(id: u32) -> [u8; 2] {
    let mut ied = [0; 2];
    // SAFETY: these are references of the lengths that the header declares, and those that are written overlap nothing.
    unsafe { ffi::dvdecc_ied(id, &mut ied) };
    ied
}

/// The EDC of a list of bytes for a CD-ROM sector: of its first 2,064.
pub fn cd_edc(bytes: &[u8]) -> [u8; 4] {
    let mut edc = [0; 4];
    // SAFETY: these are references of the lengths that the header declares, and those that are written overlap nothing.
    unsafe { ffi::dvdecc_cd_edc(bytes.as_ptr(), bytes.len(), &mut edc) };
    edc
}

/// Sets the last 10 bytes of a row so that it is a codeword.
pub fn row_parity(row: &mut [u8; 182]) {
    // SAFETY: these are references of the lengths that the header declares, and those that are written overlap nothing.
    unsafe { ffi::dvdecc_row_parity(row) }
}

/// Whether a row is a codeword.
pub fn row_is_codeword(row: &[u8; 182]) -> bool {
    // SAFETY: these are references of the lengths that the header declares, and those that are written overlap nothing.
    unsafe { ffi::dvdecc_row_is_codeword(row) }
}

/// Sets a row to the codeword near it. A byte of `lost` that isn't 0 marks a lost one.
///
/// # Errors
///
/// `Uncorrectable` exactly where no codeword is near; the row is then as it was.
pub fn row_decode(row: &mut [u8; 182], lost: &[u8; 182]) -> Result<Correction, Error> {
    let mut correction = Correction::default();
    // SAFETY: these are references of the lengths that the header declares, and those that are written overlap nothing.
    let status = unsafe { ffi::dvdecc_row_decode(row, lost, &mut correction) };
    accept(status, 0, correction)
}

/// Sets the last 16 bytes of a column so that it is a codeword.
pub fn column_parity(column: &mut [u8; 208]) {
    // SAFETY: these are references of the lengths that the header declares, and those that are written overlap nothing.
    unsafe { ffi::dvdecc_column_parity(column) }
}

/// Whether a column is a codeword.
pub fn column_is_codeword(column: &[u8; 208]) -> bool {
    // SAFETY: these are references of the lengths that the header declares, and those that are written overlap nothing.
    unsafe { ffi::dvdecc_column_is_codeword(column) }
}

/// Sets a column to the codeword near it.
///
/// # Errors
///
/// `Uncorrectable` exactly where no codeword is near; the column is then as it was.
pub fn column_decode(column: &mut [u8; 208], lost: &[u8; 208]) -> Result<Correction, Error> {
    let mut correction = Correction::default();
    // SAFETY: these are references of the lengths that the header declares, and those that are written overlap nothing.
    let status = unsafe { ffi::dvdecc_column_decode(column, lost, &mut correction) };
    accept(status, 0, correction)
}

/// Sets the parity of each row.
pub fn rows_parity(rows: &mut [[u8; 182]]) {
    // SAFETY: these are references of the lengths that the header declares, and those that are written overlap nothing.
    unsafe { ffi::dvdecc_rows_parity(rows.as_mut_ptr(), rows.len()) }
}

/// Sets each row to the codeword near it, if there is one, and answers for each.
///
/// # Errors
///
/// `BadLength` where the three lists aren't equally long; all rows are then as they were. A row with no codeword near is no
/// error: its answer says so, and `outcome` reads it.
pub fn rows_decode(rows: &mut [[u8; 182]], lost: &[[u8; 182]], answers: &mut [Answer]) -> Result<(), Error> {
    // SAFETY: these are references of the lengths that the header declares, and those that are written overlap nothing.
    let status = unsafe {
        ffi::dvdecc_rows_decode(
            rows.as_mut_ptr(),
            rows.len(),
            lost.as_ptr(),
            lost.len(),
            answers.as_mut_ptr(),
            answers.len(),
        )
    };
    accept(status, 0, ())
}

/// What the decoding of one of many rows came to.
///
/// ```
/// let (mut rows, mut answers) = ([[9; 182]; 3], [dvdecc::Answer::default(); 3]);
/// dvdecc::rows_parity(&mut rows);
/// rows[1][0] ^= 1;
/// dvdecc::rows_decode(&mut rows, &[[0; 182]; 3], &mut answers)?;
/// assert_eq!(dvdecc::outcome(&answers[1])?.errors, 1);
/// # Ok::<(), dvdecc::Error>(())
/// ```
///
/// # Errors
///
/// `Uncorrectable` where no codeword is near the row.
pub fn outcome(answer: &Answer) -> Result<Correction, Error> {
    accept(answer.status, 0, answer.correction)
}

/// Sets the last bytes of a word, as many as `parity`, so that it is a codeword.
///
/// # Errors
///
/// `BadLength` where `parity` isn't 1 to 32, or the word hasn't more bytes than that, or has more than 255.
pub fn rs_parity(word: &mut [u8], parity: u32) -> Result<(), Error> {
    // SAFETY: these are references of the lengths that the header declares, and those that are written overlap nothing.
    let status = unsafe { ffi::dvdecc_rs_parity(word.as_mut_ptr(), word.len(), parity) };
    accept(status, 0, ())
}

/// Sets a word with as many parity bytes to the codeword near it.
///
/// # Errors
///
/// `Uncorrectable` as for `row_decode`. `BadLength` as for `rs_parity`, or where `lost` isn't as long as the word.
pub fn rs_decode(word: &mut [u8], lost: &[u8], parity: u32) -> Result<Correction, Error> {
    let mut correction = Correction::default();
    // SAFETY: these are references of the lengths that the header declares, and those that are written overlap nothing.
    let status =
        unsafe { ffi::dvdecc_rs_decode(word.as_mut_ptr(), word.len(), lost.as_ptr(), lost.len(), parity, &mut correction) };
    accept(status, 0, correction)
}

/// Sets the parity of a block: the last 10 bytes of each row, and rows 192 to 207.
pub fn block_parity(rows: &mut [[u8; 182]; 208]) {
    // SAFETY: these are references of the lengths that the header declares, and those that are written overlap nothing.
    unsafe { ffi::dvdecc_block_parity(rows) }
}

/// Whether each row and each column of a block is a codeword.
pub fn block_is_codeword(rows: &[[u8; 182]; 208]) -> bool {
    // SAFETY: these are references of the lengths that the header declares, and those that are written overlap nothing.
    unsafe { ffi::dvdecc_block_is_codeword(rows) }
}

/// Decodes a captured block of the marked form, and writes its rows in the order of the block.
///
/// # Errors
///
/// `Rows`, `Column` or `Row` where two passes determine no block, `NoMemory`; the rows are then as they were.
pub fn two_pass(capture: &[u8; 42640], rows: &mut [[u8; 182]; 208]) -> Result<Report, Error> {
    let mut report = Report::default();
    // SAFETY: these are references of the lengths that the header declares, and those that are written overlap nothing.
    let status = unsafe { ffi::dvdecc_two_pass(capture, rows, &mut report) };
    accept(status, report.number, report)
}

/// Writes the sixteen sectors of a captured block that begins with an ID word. Where a frame is wrong, the number is
/// that frame. The rule is that of the first: `Whole` for all sixteen, or `First160`, and then `Off` for the others.
///
/// ```
/// use dvdecc::{read_block, Error, Rule, Status};
/// let mut sectors = [[0; 2048]; 16];
/// let refused = read_block(&[0; 42640], 0x0003_0000, Rule::Whole, &mut sectors);
/// assert_eq!(refused, Err(Error { status: Status::Id, number: 0 }));
/// ```
///
/// # Errors
///
/// As for `two_pass`; `Ied`, `Id` or `Edc` of the first wrong frame, `BadRule`, `BadId`. The sectors are then as they were.
pub fn read_block(capture: &[u8; 42640], id: u32, rule: Rule, sectors: &mut [[u8; 2048]; 16]) -> Result<Report, Error> {
    let mut report = Report::default();
    // SAFETY: these are references of the lengths that the header declares, and those that are written overlap nothing.
    let status = unsafe { ffi::dvdecc_read_block(capture, id, rule as u32, sectors, &mut report) };
    accept(status, report.number, report)
}

/// Writes the sectors of a captured block that pass their checks, also of one that `read_block` refuses, and zeros for
/// the others. Answers which these are.
///
/// # Errors
///
/// `BadRule`, `BadId`, `NoMemory`. None where no sector is salvaged.
pub fn salvage_block(
    capture: &[u8; 42640],
    id: u32,
    rule: Rule,
    sectors: &mut [[u8; 2048]; 16],
) -> Result<[bool; 16], Error> {
    let mut saved = [0; 16];
    // SAFETY: these are references of the lengths that the header declares, and those that are written overlap nothing.
    let status = unsafe { ffi::dvdecc_salvage_block(capture, id, rule as u32, sectors, &mut saved) };
    accept(status, 0, saved.map(|byte| byte == 1))
}

/// Combines Main Data with the scrambling bytes of an ID word.
///
/// # Errors
///
/// None comes for a `Rule`.
pub fn scramble(id: u32, rule: Rule, main_data: &mut [u8; 2048]) -> Result<(), Error> {
    // SAFETY: these are references of the lengths that the header declares, and those that are written overlap nothing.
    let status = unsafe { ffi::dvdecc_scramble(id, rule as u32, main_data) };
    accept(status, 0, ())
}

/// Writes the data frame of an ID word.
///
/// # Errors
///
/// None comes for a `Rule`.
pub fn make_frame(id: u32, cpr: &[u8; 6], rule: Rule, main_data: &[u8; 2048], frame: &mut [u8; 2064]) -> Result<(), Error> {
    // SAFETY: these are references of the lengths that the header declares, and those that are written overlap nothing.
    let status = unsafe { ffi::dvdecc_make_frame(id, cpr, rule as u32, main_data, frame) };
    accept(status, 0, ())
}

/// Checks a data frame and writes its Main Data. Where it names another place, the number is the ID word that was found.
///
/// # Errors
///
/// `Ied`, `Id` or `Edc`, the first that the frame lacks.
pub fn read_frame(frame: &[u8; 2064], id: u32, rule: Rule, main_data: &mut [u8; 2048]) -> Result<(), Error> {
    let mut found = 0;
    // SAFETY: these are references of the lengths that the header declares, and those that are written overlap nothing.
    let status = unsafe { ffi::dvdecc_read_frame(frame, id, rule as u32, main_data, &mut found) };
    accept(status, found, ())
}

/// Writes the CD-ROM sector of an address below 450,000.
///
/// # Errors
///
/// `BadAddress` where the address is 450,000 or more.
pub fn cd_make(address: u32, user: &[u8; 2048], sector: &mut [u8; 2352]) -> Result<(), Error> {
    // SAFETY: these are references of the lengths that the header declares, and those that are written overlap nothing.
    let status = unsafe { ffi::dvdecc_cd_make(address, user, sector) };
    accept(status, 0, ())
}

/// Tests a CD-ROM sector; the number is the word, the mode or the address that is wrong.
///
/// # Errors
///
/// `CdParity`, `CdMode`, `CdAddress` or `CdEdc`, the first that the sector lacks; `BadAddress`.
pub fn cd_check(sector: &[u8; 2352], address: u32) -> Result<(), Error> {
    let mut number = 0;
    // SAFETY: these are references of the lengths that the header declares, and those that are written overlap nothing.
    let status = unsafe { ffi::dvdecc_cd_check(sector, address, &mut number) };
    accept(status, number, ())
}

/// Repairs a CD-ROM sector, and answers how many bytes after the sync changed.
///
/// # Errors
///
/// As for `cd_check`, of the sector as it would be repaired; it is then as it was.
pub fn cd_repair(sector: &mut [u8; 2352], address: u32) -> Result<u32, Error> {
    let mut number = 0;
    // SAFETY: these are references of the lengths that the header declares, and those that are written overlap nothing.
    let status = unsafe { ffi::dvdecc_cd_repair(sector, address, &mut number) };
    accept(status, number, number)
}
