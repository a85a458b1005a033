//! Rows of a table of least sums, as they are lowered. A row holds the sums of walks
//! from a point.

/// Stands for no walk: far more than any sum.
pub const FAR: i64 = 1 << 40;

/// Lowers a row by walks that begin with one of this sum and go on by another row,
/// and says whether anything changed. The sign of a change masks it, which takes
/// less than a comparison and a choice.
pub fn lower(row: &mut [i64], sum: i64, by: &[i64]) -> bool {
    let mut signs = 0;
    for (entry, &walk) in row.iter_mut().zip(by) {
        let change = sum + walk - *entry;
        *entry += change & (change >> 63);
        signs |= change;
    }
    signs < 0
}

/// Two different rows of a table, the first to be lowered.
pub fn two_rows(table: &mut [i64], width: usize, row: usize, by: usize) -> (&mut [i64], &[i64]) {
    if row < by {
        let (before, from) = table.split_at_mut(by * width);
        (&mut before[row * width..][..width], &from[..width])
    } else {
        let (before, from) = table.split_at_mut(row * width);
        (&mut from[..width], &before[by * width..][..width])
    }
}
