//! The bytes of measurements, as `run` stores them: docs/FORMATS.md has both versions.

use crate::bytes::put_words;
use crate::events::is_retired_alone;
use crate::measurements::Head;
use crate::unwind::{Path, Paths};

/// The first four or more words behind the first eight bytes.
fn put_head(bytes: &mut Vec<u8>, head: &Head) {
    put_words(bytes, &head.program);
    if is_retired_alone(&head.events) {
        put_words(bytes, &[head.events[0].period]);
    } else {
        put_words(bytes, &[head.events.len() as u32]);
        head.events.iter().for_each(|it| put_words(bytes, &[it.event as u32, it.period]));
    }
    put_words(bytes, &[head.harts]);
}

/// The bytes of a measurement.
pub fn bytes(head: &Head, paths: &Paths) -> Vec<u8> {
    let mut bytes = if is_retired_alone(&head.events) { b"HPCRUNM1".to_vec() } else { b"HPCRUNM2".to_vec() };
    put_head(&mut bytes, head);
    for column in 0..head.harts as usize * head.events.len() {
        let own: Vec<&Path> = paths.list.iter().filter(|path| path.column as usize == column).collect();
        put_words(&mut bytes, &[own.len() as u32]);
        for path in own {
            put_words(&mut bytes, &[path.count, path.end as u32, u32::from(path.frames)]);
            put_words(&mut bytes, &paths.words[path.first as usize..][..path.frames as usize]);
        }
    }
    bytes
}
