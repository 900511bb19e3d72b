//! A plain reader of the entries of `.debug_info`, as small as it can be: it keeps no entry, and counts them.
//! `reader FOLDER` reads the files `info` and `abbrev` of a folder. With a file `rnglists` there it also reads the range
//! list of each entry, and counts its ranges. It takes well-formed files of the forms that
//! `files.py` writes.

struct Declaration {
    code: u64,
    /// The bytes of an entry's values, where that is the same for each.
    fixed: Option<usize>,
    /// Where among these bytes the offset of its range list stands.
    ranges: Option<usize>,
    forms: Vec<u64>,
}

fn uleb(bytes: &[u8], at: &mut usize) -> u64 {
    let (mut number, mut shift) = (0, 0);
    loop {
        let byte = bytes[*at];
        *at += 1;
        number |= u64::from(byte & 127) << shift;
        if byte < 128 {
            return number;
        }
        shift += 7;
    }
}

fn table(bytes: &[u8], mut at: usize) -> Vec<Declaration> {
    let mut rows = Vec::new();
    loop {
        let code = uleb(bytes, &mut at);
        if code == 0 {
            rows.sort_by_key(|row: &Declaration| row.code);
            rows.dedup_by_key(|row| row.code);
            return rows;
        }
        uleb(bytes, &mut at);
        at += 1;
        let (mut forms, mut fixed, mut ranges) = (Vec::new(), Some(0), None);
        loop {
            let (attribute, form) = (uleb(bytes, &mut at), uleb(bytes, &mut at));
            if (attribute, form) == (0, 0) {
                break;
            }
            match form {
                0x21 => drop(uleb(bytes, &mut at)),
                0x19 => {}
                0x17 => {
                    ranges = if attribute == 0x55 { fixed } else { ranges };
                    fixed = fixed.map(|size| size + 4);
                }
                _ => fixed = None,
            }
            forms.push(form);
        }
        rows.push(Declaration { code, fixed, ranges, forms });
    }
}

fn find(rows: &[Declaration], code: u64) -> &Declaration {
    match rows.get(code.wrapping_sub(1) as usize) {
        Some(row) if row.code == code => row,
        _ => &rows[rows.binary_search_by_key(&code, |row| row.code).expect("a code")],
    }
}

fn entry(info: &[u8], at: &mut usize, row: &Declaration) {
    if let Some(size) = row.fixed {
        *at += size;
        return;
    }
    for form in &row.forms {
        if *form == 0x08 {
            while info[*at] != 0 {
                *at += 1;
            }
            *at += 1;
        }
    }
}

/// A number of at most ten bytes.
fn short_uleb(bytes: &[u8], at: &mut usize) -> Option<u64> {
    let mut number = 0u64;
    for place in 0..10 {
        let byte = *bytes.get(*at)?;
        *at += 1;
        number |= u64::from(byte & 127).checked_shl(7 * place)?;
        if byte < 128 {
            return Some(number);
        }
    }
    None
}

/// How many ranges a list of pairs of offsets has; none, where it does not end.
fn ranges(lists: &[u8], mut at: usize) -> Option<u64> {
    let mut count = 0;
    loop {
        let kind = *lists.get(at)?;
        at += 1;
        match kind {
            0 => return Some(count),
            4 => {
                short_uleb(lists, &mut at)?;
                short_uleb(lists, &mut at)?;
                count += 1;
            }
            _ => return None,
        }
    }
}

fn word(info: &[u8], at: usize) -> usize {
    u32::from_le_bytes(info[at..at + 4].try_into().expect("four bytes")) as usize
}

fn main() {
    let folder = std::env::args().nth(1).expect("a folder");
    let info = std::fs::read(format!("{folder}/info")).expect("info");
    let abbrev = std::fs::read(format!("{folder}/abbrev")).expect("abbrev");
    let lists = std::fs::read(format!("{folder}/rnglists")).ok();
    let (mut at, mut count, mut listed) = (0, 0u64, 0);
    let mut known = (usize::MAX, Vec::new());
    while at < info.len() {
        let end = at + 4 + word(&info, at);
        let offset = word(&info, at + 8);
        if known.0 != offset {
            known = (offset, table(&abbrev, offset));
        }
        let rows = &known.1;
        at += 12;
        while at < end {
            let code = uleb(&info, &mut at);
            if code != 0 {
                let row = find(rows, code);
                if let (Some(lists), Some(offset)) = (&lists, row.ranges) {
                    listed += ranges(lists, word(&info, at + offset)).unwrap_or(0);
                }
                entry(&info, &mut at, row);
                count += 1;
            }
        }
    }
    println!("{count} entries, {listed} ranges");
}
