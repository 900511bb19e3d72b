//! The measurements of several runs, as one.

use crate::bytes::Read;
use crate::elf::Program;
use crate::events::{Limit, MOST_FRAMES, MOST_SAMPLES};
use crate::measurements::{self, Head, head_of};
use crate::unwind::Paths;

pub struct Runs {
    pub heads: Vec<Head>,
    pub paths: Paths,
}

impl Runs {
    /// Reads all measurements, or gives the first fault of the first that has one.
    pub fn read(files: &[Vec<u8>]) -> Read<Runs> {
        let mut runs = Runs { heads: Vec::new(), paths: Paths::new() };
        let mut column = 0;
        for (place, bytes) in files.iter().enumerate() {
            let head = measurements::read(bytes, &mut runs.paths, column);
            let head = head.map_err(|at| format!("measurement {place} at {at}"))?;
            column += head.harts as usize * head.events.len();
            runs.heads.push(head);
        }
        Ok(runs)
    }

    /// Whether they are of one program and of the same events, and few enough.
    pub fn judge(heads: &[Head], paths: &Paths, program: &Program) -> Read<()> {
        let own = head_of(program);
        if let Some(place) = heads.iter().position(|head| head.program != own) {
            return Err(format!("measurement {place} of another program"));
        }
        if let Some(place) = heads.iter().position(|head| head.events != heads[0].events) {
            return Err(format!("measurement {place} of other periods"));
        }
        if paths.list.iter().map(|path| u64::from(path.count)).sum::<u64>() > MOST_SAMPLES {
            return Err(Limit::Samples.into());
        }
        if paths.words.len() > MOST_FRAMES {
            return Err(Limit::Frames.into());
        }
        Ok(())
    }
}
