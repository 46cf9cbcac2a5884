//! Each call once, with damage that it bears, with more, and with arguments out of range.
use dvdecc::*;

fn counted<const N: usize>(step: usize) -> [u8; N] {
    std::array::from_fn(|k| (step * k + k / 256) as u8)
}

#[test]
fn checks() {
    assert_eq!(edc(&[2]), [0x80, 0, 0, 0x33]);
    assert_eq!(cd_edc(&[0x80]), [1, 0x80, 1, 0xD8]);
    assert_eq!(edc(&[]), [0; 4]);
    assert_eq!(ied(0x30010), [0x21, 0x32]);
}

#[test]
fn words() {
    let (mut row, mut column, mut lost) = (counted::<182>(3), counted::<208>(5), [0; 208]);
    row_parity(&mut row);
    column_parity(&mut column);
    assert!(row_is_codeword(&row) && column_is_codeword(&column));
    let (sent, whole) = (row, column);
    row[0] ^= 1;
    lost[207] = 1;
    column[207] = 0;
    assert_eq!(row_decode(&mut row, &[0; 182]), Ok(Correction { errors: 1, erasures: 0 }));
    assert_eq!(column_decode(&mut column, &lost), Ok(Correction { errors: 0, erasures: 1 }));
    assert!(row == sent && column == whole);
    assert_eq!(row_decode(&mut row, &[1; 182]), Err(Error { status: Status::Uncorrectable, number: 0 }));
    assert_eq!(row, sent);

    let mut word = counted::<50>(7);
    rs_parity(&mut word, 8).unwrap();
    let sent = word;
    word[49] ^= 4;
    assert_eq!(rs_decode(&mut word, &[0; 50], 8), Ok(Correction { errors: 1, erasures: 0 }));
    assert_eq!(word, sent);
    assert_eq!(rs_decode(&mut word, &[0; 49], 8).unwrap_err().status, Status::BadLength);
    assert_eq!(rs_parity(&mut word, 33).unwrap_err().status, Status::BadLength);
}

#[test]
fn many_rows() {
    let (mut rows, mut answers) = ([counted::<182>(3); 3], [Answer::default(); 3]);
    rows_parity(&mut rows);
    let sent = rows;
    rows[2][9] ^= 1;
    rows_decode(&mut rows, &[[0; 182]; 3], &mut answers).unwrap();
    assert_eq!(rows, sent);
    assert_eq!(outcome(&answers[2]), Ok(Correction { errors: 1, erasures: 0 }));
    rows[1][..80].fill(0x5A);
    rows_decode(&mut rows, &[[0; 182]; 3], &mut answers).unwrap();
    assert_eq!(outcome(&answers[1]), Err(Error { status: Status::Uncorrectable, number: 0 }));
    assert_eq!(rows_decode(&mut rows, &[[0; 182]; 2], &mut answers).unwrap_err().status, Status::BadLength);
}

// The capture of a block with no marks.
fn recorded(rows: &[[u8; 182]; 208]) -> [u8; 42640] {
    let mut capture = [0; 42640];
    for m in 0..208 {
        let i = if (m + 1) % 13 == 0 { 191 + (m + 1) / 13 } else { m - m / 13 };
        capture[205 * m..205 * m + 182].copy_from_slice(&rows[i]);
    }
    capture
}

#[test]
fn blocks() {
    let (mut rows, mut found) = ([counted::<182>(3); 208], [[0; 182]; 208]);
    block_parity(&mut rows);
    assert!(block_is_codeword(&rows));
    rows[207][181] ^= 1;
    assert!(!block_is_codeword(&rows));
    rows[207][181] ^= 1;
    let mut capture = recorded(&rows);
    capture[7] ^= 1;
    assert_eq!(two_pass(&capture, &mut found).unwrap().corrected, 1);
    assert_eq!(found, rows);
    for m in 0..17 {
        capture[205 * m + 182..205 * m + 205].fill(0xFF);
    }
    assert_eq!(two_pass(&capture, &mut found), Err(Error { status: Status::Rows, number: 17 }));
}

#[test]
fn sectors_of_a_block() {
    let sent: [[u8; 2048]; 16] = std::array::from_fn(|f| counted(2 * f + 1));
    let (mut rows, mut frame, mut sectors) = ([[0; 182]; 208], [0; 2064], [[7; 2048]; 16]);
    for f in 0..16 {
        make_frame(0x30000 + f as u32, &[0; 6], Rule::Whole, &sent[f], &mut frame).unwrap();
        for q in 0..12 {
            rows[12 * f + q][..172].copy_from_slice(&frame[172 * q..172 * q + 172]);
        }
    }
    block_parity(&mut rows);
    let mut capture = recorded(&rows);
    let other = read_block(&capture, 0x30010, Rule::Whole, &mut sectors);
    assert_eq!(other, Err(Error { status: Status::Id, number: 0 }));
    assert_eq!(sectors, [[7; 2048]; 16]);
    capture[7] ^= 1;
    assert_eq!(read_block(&capture, 0x30000, Rule::Whole, &mut sectors).unwrap().corrected, 1);
    assert_eq!(sectors, sent);
    for m in (0..12).chain(13..18) {
        capture[205 * m + 182..205 * m + 205].fill(0xFF);
    }
    let lost = read_block(&capture, 0x30000, Rule::Whole, &mut sectors);
    assert_eq!(lost, Err(Error { status: Status::Rows, number: 17 }));
    assert_eq!(salvage_block(&capture, 0x30000, Rule::Whole, &mut sectors), Ok(std::array::from_fn(|f| f >= 2)));
    assert!(sectors[..2] == [[0; 2048]; 2] && sectors[2..] == sent[2..]);
    assert_eq!(read_block(&capture, 0x30000, Rule::Off, &mut sectors).unwrap_err().status, Status::BadRule);
    assert_eq!(salvage_block(&capture, 0xFFFFF1, Rule::Whole, &mut sectors).unwrap_err().status, Status::BadId);
}

#[test]
fn frames_and_sectors() {
    let (mut frame, mut main_data, mut sector) = ([0; 2064], counted::<2048>(13), [0; 2352]);
    make_frame(0x30010, &[0; 6], Rule::Whole, &main_data, &mut frame).unwrap();
    scramble(0x30010, Rule::Whole, &mut main_data).unwrap();
    assert_eq!(main_data, frame[12..2060]);
    read_frame(&frame, 0x30010, Rule::Whole, &mut main_data).unwrap();
    assert_eq!(main_data, counted::<2048>(13));
    assert_eq!(read_frame(&frame, 0, Rule::Whole, &mut main_data), Err(Error { status: Status::Id, number: 0x30010 }));
    cd_make(150, &main_data, &mut sector).unwrap();
    cd_check(&sector, 150).unwrap();
    sector[99] ^= 1;
    assert_eq!(cd_check(&sector, 150).unwrap_err().status, Status::CdParity);
    assert_eq!(cd_repair(&mut sector, 150), Ok(1));
    assert_eq!(cd_make(450_000, &main_data, &mut sector).unwrap_err().status, Status::BadAddress);
}

#[test]
fn empty_lists() {
    assert_eq!(rs_parity(&mut [], 1).unwrap_err().status, Status::BadLength);
    assert_eq!(rs_decode(&mut [], &[], 0).unwrap_err().status, Status::BadLength);
    rows_parity(&mut []);
    rows_decode(&mut [], &[], &mut []).unwrap();
}

#[test]
fn errors_say_what_they_mean() {
    let error = two_pass(&[0xFF; 42640], &mut [[0; 182]; 208]).unwrap_err();
    assert_eq!(error.to_string(), "more than 16 rows of the block have no codeword near (number 208)");
    assert_eq!(Status::Other(99).to_string(), "status 99, which this crate doesn't know");
}
