//! Little-endian numbers in records.

pub(crate) fn u16_at(record: &[u8], place: usize) -> u16 {
    u16::from_le_bytes([record[place], record[place + 1]])
}

pub(crate) fn u64_at<const SIZE: usize>(record: &[u8; SIZE], place: usize) -> u64 {
    let mut number = [0; 8];
    number.copy_from_slice(&record[place..place + 8]);
    u64::from_le_bytes(number)
}

pub(crate) fn put(record: &mut [u8], place: usize, number: &[u8]) {
    record[place..place + number.len()].copy_from_slice(number);
}
