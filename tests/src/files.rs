//! Reads and writes files by the library, in buffers between guards, and holds
//! each result to the second reader and writer.

use crate::buffers::Guarded;
use crate::chance::Chance;
use crate::library;
use crate::limits::LINE_NUMBERS;
use crate::records::{self, List, Refusal};

/// The list in a file or the refusal, read into a buffer of so many numbers,
/// after making sure that the library and the second reader agree on it, that
/// all but the list's numbers is as it was, and that a list that was read is
/// written again as the same bytes.
pub fn read(chance: &mut Chance, file: &[u8], room: usize) -> Result<List, Refusal> {
    let due = records::read(file, room);
    let mut buffer = Guarded::new(room, || chance.next() as i32);
    let mut after = buffer.clone();
    let result = library::read_list(file, buffer.lent_mut());
    let answer = match result.refusal {
        0 => Ok((result.n, result.lines)),
        number => Err((number, result.place)),
    };
    let expected = match &due {
        Ok(list) => Ok((list.n, (list.numbers.len() / LINE_NUMBERS) as u64)),
        Err(refused) => Err(*refused),
    };
    assert_eq!(answer, expected, "room for {room} numbers, file {file:?}");
    if let Ok(list) = &due {
        after.lent_mut()[..list.numbers.len()].copy_from_slice(&list.numbers);
    }
    assert!(
        buffer == after,
        "numbers after reading {answer:?} from {file:?}: {:?}",
        buffer.lent()
    );
    if let Ok(list) = &due {
        let again = write(chance, list.n, &list.numbers, file.len());
        assert_eq!(again.as_deref(), Ok(file), "written again");
    }
    due
}

/// The file of a list or the refusal, written to a buffer of so many bytes,
/// after making sure that the library and the second writer agree on it, and
/// that all but the file is as it was.
pub fn write(chance: &mut Chance, n: u64, list: &[i32], room: usize) -> Result<Vec<u8>, Refusal> {
    let due = records::write(n, list, room);
    let mut buffer = Guarded::new(room, || chance.next() as u8);
    let mut after = buffer.clone();
    let result = library::write_list(n, list, buffer.lent_mut());
    let answer = match result.refusal {
        0 => Ok(result.bytes),
        number => Err((number, result.place)),
    };
    let expected = match &due {
        Ok(file) => Ok(file.len() as u64),
        Err(refused) => Err(*refused),
    };
    assert_eq!(answer, expected, "room for {room} bytes, {n} {list:?}");
    if let Ok(file) = &due {
        after.lent_mut()[..file.len()].copy_from_slice(file);
    }
    assert!(
        buffer == after,
        "bytes after writing {answer:?} of {n} {list:?}: {:?}",
        buffer.lent()
    );
    due
}
