//! The schedule: the number of harts, and the slices.

use crate::bytes::Read;

pub const MOST_HARTS: u32 = 64;

/// A number in decimal without a sign and without leading zeros, within bounds.
pub fn number(digits: &[u8], least: u32, most: u32) -> Option<u32> {
    let is_plain =
        !digits.is_empty() && digits.iter().all(u8::is_ascii_digit) && (digits[0] != b'0' || digits.len() == 1);
    let digits = std::str::from_utf8(digits).ok().filter(|_| is_plain)?;
    digits.parse().ok().filter(|number| (least..=most).contains(number))
}

fn slice(line: &[u8], harts: u32) -> Option<(usize, u64)> {
    let space = line.iter().position(|byte| *byte == b' ')?;
    let hart = number(&line[..space], 0, harts - 1)?;
    Some((hart as usize, u64::from(number(&line[space + 1..], 1, u32::MAX)?)))
}

/// The number of harts and the slices, or the first line that is at fault, from 1.
pub fn read(bytes: &[u8]) -> Read<(u32, Vec<(usize, u64)>)> {
    let (mut harts, mut slices, mut sum) = (None, Vec::new(), 0);
    let whole = bytes.strip_suffix(b"\n").unwrap_or(bytes);
    let lines: Vec<&[u8]> = if bytes.is_empty() { Vec::new() } else { whole.split(|byte| *byte == b'\n').collect() };
    for (place, line) in lines.iter().enumerate() {
        let fault = || format!("schedule line {}", place + 1);
        match harts {
            _ if line.is_empty() || line[0] == b'#' => {}
            None => {
                let digits = line.strip_prefix(b"harts ").ok_or_else(fault)?;
                harts = Some(number(digits, 1, MOST_HARTS).ok_or_else(fault)?);
            }
            Some(harts) => {
                let found =
                    slice(line, harts).filter(|found| sum + found.1 <= u64::from(u32::MAX)).ok_or_else(fault)?;
                sum += found.1;
                slices.push(found);
            }
        }
    }
    let harts = harts.ok_or_else(|| format!("schedule line {}", lines.len() + 1))?;
    Ok((harts, slices))
}
