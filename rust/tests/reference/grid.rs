//! A grid of symbols sent column by column (document 02, No. 8): a plain transposition.

/// What the call answers: the bytes in send order, or the number of the first check that fails, for output of `room` bytes.
pub fn interleave(taken: &[u8], symbol_size: u32, rows: u32, columns: u32, room: usize) -> Result<Vec<u8>, u32> {
    rearrange(taken, symbol_size, rows, columns, room, |symbols| {
        let rows: Vec<&[&[u8]]> = symbols.chunks(columns as usize).collect();
        (0..columns as usize).flat_map(|c| rows.iter().map(move |row| row[c])).collect()
    })
}

/// The same of the inverse: the bytes in the order in which they were taken.
pub fn deinterleave(sent: &[u8], symbol_size: u32, rows: u32, columns: u32, room: usize) -> Result<Vec<u8>, u32> {
    rearrange(sent, symbol_size, rows, columns, room, |symbols| {
        let columns: Vec<&[&[u8]]> = symbols.chunks(rows as usize).collect();
        (0..rows as usize).flat_map(|r| columns.iter().map(move |column| column[r])).collect()
    })
}

fn rearrange<'a, F>(bytes: &'a [u8], symbol_size: u32, rows: u32, columns: u32, room: usize, order: F) -> Result<Vec<u8>, u32>
where
    F: for<'b> Fn(&'b [&'a [u8]]) -> Vec<&'a [u8]>,
{
    if !(4..=1500).contains(&symbol_size) {
        return Err(1);
    }
    let whole = u128::from(rows) * u128::from(columns) * u128::from(symbol_size);
    if !(1..=255).contains(&rows) || !(1..=255).contains(&columns) || bytes.len() as u128 != whole {
        return Err(17);
    }
    if room < bytes.len() {
        return Err(2);
    }
    let symbols: Vec<&[u8]> = bytes.chunks(symbol_size as usize).collect();
    Ok(order(&symbols).concat())
}
