//! Numbers below 2^32 in groups of seven bits, low group first (docs/FORMAT.md, "Numbers").

/// The bytes of the longest number.
const LONGEST: usize = 5;

/// The bit that is set on every byte of a number but the last.
const MORE: u8 = 0x80;

/// The greatest fifth byte: 32 bits are four groups of seven and one of four.
const GREATEST_FIFTH: u8 = 0x0F;

/// A number that was read, and the position right after it.
#[derive(Clone, Copy, Debug, PartialEq, Eq)]
pub struct Number {
    pub value: u32,
    pub next: usize,
}

/// Why there is no number at a position.
#[derive(Clone, Copy, Debug, PartialEq, Eq)]
pub enum NumberFault {
    EndsEarly,
    NotShortest,
    TooWide,
}

/// Reads the number at `position`.
#[inline]
pub fn read(bytes: &[u8], position: usize) -> Result<Number, NumberFault> {
    match bytes.get(position) {
        Some(&byte) if byte < MORE => Ok(Number {
            value: u32::from(byte),
            next: position + 1,
        }),
        Some(_) => read_long(bytes, position),
        None => Err(NumberFault::EndsEarly),
    }
}

/// Reads a number of any length, one group after the other.
#[inline]
fn read_long(bytes: &[u8], position: usize) -> Result<Number, NumberFault> {
    let rest = bytes.get(position..).unwrap_or_default();
    let mut value = 0;
    for (index, &byte) in rest.iter().take(LONGEST).enumerate() {
        if index == LONGEST - 1 && byte > GREATEST_FIFTH {
            return Err(NumberFault::TooWide);
        }
        if index > 0 && byte == 0 {
            return Err(NumberFault::NotShortest);
        }
        value |= u32::from(byte & !MORE) << (7 * index);
        if byte < MORE {
            let next = position + index + 1;
            return Ok(Number { value, next });
        }
    }
    Err(NumberFault::EndsEarly)
}

/// Appends `value` to `out` in its shortest form.
pub fn write(value: u32, out: &mut Vec<u8>) {
    let mut rest = value;
    while rest >= u32::from(MORE) {
        out.push(MORE | (rest % 128) as u8);
        rest /= 128;
    }
    out.push(rest as u8);
}

/// The bytes that `value` takes.
pub fn length(value: u32) -> usize {
    match value {
        0..=127 => 1,
        128..=16_383 => 2,
        16_384..=2_097_151 => 3,
        2_097_152..=268_435_455 => 4,
        268_435_456.. => 5,
    }
}

#[cfg(test)]
mod tests {
    use super::NumberFault::{EndsEarly, NotShortest, TooWide};
    use super::*;

    fn written(value: u32) -> Vec<u8> {
        let mut out = Vec::new();
        write(value, &mut out);
        out
    }

    #[test]
    fn values_of_the_table() {
        let table: [(&[u8], u32); 5] = [
            (&[0x00], 0),
            (&[0x7F], 127),
            (&[0x80, 0x01], 128),
            (&[0xAC, 0x02], 300),
            (&[0xFF, 0xFF, 0xFF, 0xFF, 0x0F], u32::MAX),
        ];
        for (bytes, value) in table {
            let next = bytes.len();
            assert_eq!(read(bytes, 0), Ok(Number { value, next }));
            assert_eq!(written(value), bytes);
        }
    }

    #[test]
    fn faults_of_the_table() {
        let table: [(&[u8], NumberFault); 7] = [
            (&[], EndsEarly),
            (&[0x80], EndsEarly),
            (&[0xFF, 0xFF, 0xFF, 0xFF], EndsEarly),
            (&[0x80, 0x00], NotShortest),
            (&[0xFF, 0xFF, 0xFF, 0xFF, 0x00], NotShortest),
            (&[0xFF, 0xFF, 0xFF, 0xFF, 0x10], TooWide),
            (&[0x80, 0x80, 0x80, 0x80, 0x80, 0x00], TooWide),
        ];
        for (bytes, fault) in table {
            assert_eq!(read(bytes, 0), Err(fault));
        }
    }

    #[test]
    fn positions_past_the_end() {
        assert_eq!(read(&[1], 1), Err(EndsEarly));
        assert_eq!(read(&[1], usize::MAX), Err(EndsEarly));
    }

    #[test]
    fn lengths_change_where_the_table_says() {
        for (edge, bytes) in [(128, 1), (16_384, 2), (2_097_152, 3), (268_435_456, 4)] {
            assert_eq!(written(edge - 1).len(), bytes);
            assert_eq!(written(edge).len(), bytes + 1);
            assert_eq!(length(edge - 1), bytes);
            assert_eq!(length(edge), bytes + 1);
        }
        assert_eq!(length(u32::MAX), 5);
    }

    #[test]
    fn what_is_written_is_read_back_whatever_follows() {
        for shift in 0..32 {
            let value = 0xB7E1_5163 >> shift;
            let mut bytes = vec![0xFF];
            write(value, &mut bytes);
            let next = bytes.len();
            bytes.extend([0x80, 0x00]);
            assert_eq!(read(&bytes, 1), Ok(Number { value, next }));
        }
    }
}
