//! Packs numbers into bytes, the lowest byte first, and shows them again.

use crate::lines::Line;

/// The bytes of a list.
pub fn list(lines: &[Line]) -> Vec<u8> {
    numbers(&lines.concat())
}

/// The bytes of signed 32-bit numbers, for lists that are not whole lines.
pub fn numbers(numbers: &[i32]) -> Vec<u8> {
    numbers
        .iter()
        .flat_map(|number| number.to_le_bytes())
        .collect()
}

/// The bytes of a model.
pub fn model(values: &[i64]) -> Vec<u8> {
    values
        .iter()
        .flat_map(|value| value.to_le_bytes())
        .collect()
}

/// The bytes of a refutation.
pub fn refutation(numbers: &[u32]) -> Vec<u8> {
    numbers
        .iter()
        .flat_map(|number| number.to_le_bytes())
        .collect()
}

/// The bytes as signed numbers of `width` bytes each, for a message; what is
/// left over at the end, and all beyond the first thousand numbers, in short.
pub fn show(bytes: &[u8], width: usize) -> String {
    let mut words = vec![format!("{} bytes:", bytes.len())];
    for chunk in bytes.chunks(width).take(1000) {
        words.push(if chunk.len() < width {
            format!("and {chunk:?}")
        } else {
            let high = if chunk[width - 1] < 128 { 0 } else { 255 };
            let mut eight = [high; 8];
            eight[..width].copy_from_slice(chunk);
            i64::from_le_bytes(eight).to_string()
        });
    }
    if bytes.len() > 1000 * width {
        words.push("and so on".to_string());
    }
    words.join(" ")
}
