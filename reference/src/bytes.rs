//! Little-endian numbers in a file.

pub fn u16_at(file: &[u8], at: usize) -> u16 {
    u16::from_le_bytes([file[at], file[at + 1]])
}

pub fn u32_at(file: &[u8], at: usize) -> u32 {
    u32::from_le_bytes([file[at], file[at + 1], file[at + 2], file[at + 3]])
}

pub fn i32_at(file: &[u8], at: usize) -> i32 {
    u32_at(file, at) as i32
}

/// A number of the model as a field of a file; a number that does not fit is a mistake here.
pub fn put_u16<N: TryInto<u16>>(file: &mut Vec<u8>, number: N) {
    file.extend(fitting(number.try_into()).to_le_bytes());
}

pub fn put_u32<N: TryInto<u32>>(file: &mut Vec<u8>, number: N) {
    file.extend(fitting(number.try_into()).to_le_bytes());
}

pub fn put_i32<N: TryInto<i32>>(file: &mut Vec<u8>, number: N) {
    file.extend(fitting(number.try_into()).to_le_bytes());
}

fn fitting<N, E>(number: Result<N, E>) -> N {
    number.unwrap_or_else(|_| panic!("a number does not fit its field"))
}
