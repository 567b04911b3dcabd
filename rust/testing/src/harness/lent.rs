//! A buffer to lend, with bytes around it that no call may touch.

/// How many bytes stand before and after the buffer.
const AROUND: usize = 64;

#[derive(Clone, Debug, PartialEq, Eq)]
pub struct Lent {
    bytes: Vec<u8>,
}

impl Lent {
    /// A buffer of a length. Its bytes, and those around it, follow a pattern in
    /// which neighbours differ; another start gives every byte another value.
    pub fn new(length: usize, start: u8) -> Self {
        let steps = (0..2 * AROUND + length).map(|at| (at % 251) as u8);
        Lent {
            bytes: steps.map(|step| start.wrapping_add(step)).collect(),
        }
    }

    /// The part to lend.
    pub fn buffer(&mut self) -> &mut [u8] {
        let end = self.bytes.len() - AROUND;
        &mut self.bytes[AROUND..end]
    }

    /// Where the two first differ, counted from the start of the buffer.
    pub fn first_difference(&self, other: &Lent) -> Option<isize> {
        let mut pairs = self.bytes.iter().zip(&other.bytes);
        let at = pairs.position(|(own, others)| own != others)?;
        Some(at as isize - AROUND as isize)
    }
}
