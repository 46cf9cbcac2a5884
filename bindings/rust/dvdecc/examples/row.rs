//! Decodes a damaged row: three wrong bytes and one lost byte.

fn main() {
    let text = b"a row of 172 bytes, and ten bytes of inner parity after them";
    let (mut row, mut lost) = ([0; 182], [0; 182]);
    row[..text.len()].copy_from_slice(text);
    dvdecc::row_parity(&mut row);
    let sent = row;

    row[2] ^= 0x55;
    row[100] = b'x';
    row[181] ^= 1;
    row[40] = 0;
    lost[40] = 1;

    match dvdecc::row_decode(&mut row, &lost) {
        Ok(fix) => {
            println!("{}", String::from_utf8_lossy(&row[..text.len()]));
            let how = if row == sent { "as it was sent" } else { "another row" };
            println!("{} errors, {} erasures, {how}", fix.errors, fix.erasures);
        }
        Err(error) => println!("{error}"),
    }
}
