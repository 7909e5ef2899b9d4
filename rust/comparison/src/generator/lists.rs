//! Lent lists and files, with the memory beside them watched.

use resync::raw::Edge;

/// How many elements are watched on either side of a lent list.
pub const BESIDE: usize = 16;

/// Lends a call so many elements in the midst of others, and returns its answer and all of them.
pub fn lend<T, Answer>(
    room: usize,
    pattern: impl Fn(usize) -> T,
    call: impl FnOnce(&mut [T]) -> Answer,
) -> (Answer, Vec<T>) {
    let mut memory: Vec<T> = (0..BESIDE + room + BESIDE).map(pattern).collect();
    let answer = call(&mut memory[BESIDE..BESIDE + room]);
    (answer, memory)
}

/// What [`lend`] must return if just this was written to the front of the list.
pub fn lent<T: Copy>(room: usize, pattern: impl Fn(usize) -> T, written: &[T]) -> Vec<T> {
    let mut memory: Vec<T> = (0..BESIDE + room + BESIDE).map(pattern).collect();
    memory[BESIDE..BESIDE + written.len()].copy_from_slice(written);
    memory
}

/// What a list for least delays holds before: no least delay looks like this.
pub fn no_delay(index: usize) -> u16 {
    0xA500 + (index % 251) as u16
}

/// What a list for starts holds before: no start looks like this.
pub fn no_start(index: usize) -> u32 {
    0xA5A5_0000 + index as u32
}

/// What a list for a plan holds before: no edge looks like this.
pub fn no_edge(index: usize) -> Edge {
    Edge {
        source: 0xA5,
        sink: 64 + (index % 191) as u8,
        delay: (index % 251) as u8,
    }
}

/// A file lent in the midst of other bytes.
pub struct Placed {
    memory: Vec<u8>,
    at: usize,
    length: usize,
    beside: u8,
}

impl Placed {
    /// At an address that leaves this remainder, 0 to 7, when divided by 8. All bytes beside it are the same.
    pub fn new(file: &[u8], remainder: usize, beside: u8) -> Placed {
        let mut memory = vec![beside; BESIDE + 8 + file.len() + BESIDE];
        let address = memory.as_ptr() as usize + BESIDE;
        let at = BESIDE + (8 + remainder - address % 8) % 8;
        memory[at..at + file.len()].copy_from_slice(file);
        Placed {
            memory,
            at,
            length: file.len(),
            beside,
        }
    }

    pub fn file(&self) -> &[u8] {
        &self.memory[self.at..self.at + self.length]
    }

    /// Whether it is still this file, and the bytes beside it hold what they held.
    pub fn holds(&self, file: &[u8]) -> bool {
        let (before, after) = (
            &self.memory[..self.at],
            &self.memory[self.at + self.length..],
        );
        let kept = |byte: &u8| *byte == self.beside;
        self.file() == file && before.iter().all(kept) && after.iter().all(kept)
    }
}

#[cfg(test)]
mod tests {
    use super::*;

    #[test]
    fn a_file_stands_where_it_is_placed() {
        for remainder in 0..8 {
            for file in [&[][..], &[1, 2, 3]] {
                let placed = Placed::new(file, remainder, 0xA5);
                assert_eq!(placed.file().as_ptr() as usize % 8, remainder);
                assert_eq!(placed.file(), file);
            }
        }
    }

    #[test]
    fn every_change_is_seen() {
        let file = [1, 2, 3];
        let mut placed = Placed::new(&file, 3, 0xA5);
        for at in 0..placed.memory.len() {
            assert!(placed.holds(&file));
            placed.memory[at] ^= 1;
            assert!(!placed.holds(&file));
            placed.memory[at] ^= 1;
        }
    }
}
