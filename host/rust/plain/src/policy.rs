//! The policy: one row of 64 cells for each of 8 domains.

use crate::reply::Reply;

const DOMAINS: usize = 8;
const PERMISSIONS: usize = 64;

/// The cell that allows without asking.
pub(crate) const FREE: u8 = 4;

/// The permissions of one domain by what their cells say, as sets.
#[derive(Clone, Copy, Default)]
pub(crate) struct Row {
    /// Cells 1 to 4.
    pub offered: u64,
    /// Cells 1 to 3.
    pub asked: u64,
    /// Cells 2 and 3.
    pub session: u64,
    /// Cell 3.
    pub blanket: u64,
}

/// A checked policy.
pub(crate) struct Policy<'p> {
    cells: &'p [[u8; PERMISSIONS]; DOMAINS],
    rows: [Row; DOMAINS],
}

impl<'p> Policy<'p> {
    pub fn read(bytes: &'p [u8]) -> Result<Self, Reply> {
        let (cells, []) = bytes.as_chunks() else {
            return Err(Reply::BAD_POLICY);
        };
        let cells: &[_; DOMAINS] = cells.try_into().map_err(|_| Reply::BAD_POLICY)?;
        // The greatest cell, rather than the first bad one: this loop has no early exit.
        if bytes.iter().fold(0, |most, &cell| cell.max(most)) > FREE {
            return Err(Reply::BAD_POLICY);
        }
        let rows = cells.each_ref().map(Row::read);
        Ok(Policy { cells, rows })
    }

    pub fn cell(&self, domain: u8, permission: u8) -> u8 {
        self.cells[usize::from(domain)][usize::from(permission)]
    }

    /// None for a number that is no domain.
    pub fn row(&self, domain: u8) -> Option<&Row> {
        self.rows.get(usize::from(domain))
    }
}

impl Row {
    /// Sorts 64 cells of at most 4 by their three bits, eight at a time.
    fn read(cells: &[u8; PERMISSIONS]) -> Row {
        let (words, _) = cells.as_chunks();
        let (mut ones, mut twos, mut fours) = (0, 0, 0);
        for word in words.iter().rev() {
            let word = u64::from_le_bytes(*word);
            ones = ones << 8 | lowest_bits(word);
            twos = twos << 8 | lowest_bits(word >> 1);
            fours = fours << 8 | lowest_bits(word >> 2);
        }
        Row {
            offered: ones | twos | fours,
            asked: ones | twos,
            session: twos,
            blanket: ones & twos,
        }
    }
}

/// The lowest bits of eight bytes, the first byte's lowest.
fn lowest_bits(word: u64) -> u64 {
    // The product moves bit 8i to bit 56 + i; no two of its terms meet, so none carries.
    (word & 0x0101_0101_0101_0101).wrapping_mul(0x0102_0408_1020_4080) >> 56
}
