//! The events of a run that are sampled: retired instructions, loads, stores and taken branches, each with its period.

use crate::bytes::Read;
use crate::decode::Op;
use crate::machine::{Machine, taken};
use crate::schedule::number;
use crate::unwind::{Paths, Trail, Unwinder};

pub const MOST_SAMPLES: u64 = 1 << 20;
pub const MOST_FRAMES: usize = 1 << 22;

#[derive(Clone, Copy, PartialEq, Eq, PartialOrd, Ord)]
pub enum Event {
    Retired,
    Loads,
    Stores,
    Taken,
}

pub const NAMED: [(&str, Event); 4] =
    [("retired", Event::Retired), ("loads", Event::Loads), ("stores", Event::Stores), ("taken", Event::Taken)];

impl Event {
    pub fn name(self) -> &'static str {
        NAMED[self as usize].0
    }

    /// The event that an instruction has beside retired, if it retires and a branch goes so.
    pub fn of(op: Op, is_taken: bool) -> Option<Event> {
        match op {
            Op::Lb | Op::Lh | Op::Lw | Op::Lbu | Op::Lhu => Some(Event::Loads),
            Op::Sb | Op::Sh | Op::Sw => Some(Event::Stores),
            Op::Beq | Op::Bne | Op::Blt | Op::Bge | Op::Bltu | Op::Bgeu if is_taken => Some(Event::Taken),
            _ => None,
        }
    }
}

#[derive(Clone, Copy, PartialEq, Eq)]
pub struct EventPeriod {
    pub event: Event,
    pub period: u32,
}

pub fn retired(period: u32) -> EventPeriod {
    EventPeriod { event: Event::Retired, period }
}

/// The events of a word: a number, which is the period of retired, or `EVENT:P` joined by commas, events ascending.
pub fn events_of(word: &[u8]) -> Option<Vec<EventPeriod>> {
    let period = |digits: &[u8]| number(digits, 1, u32::MAX);
    if let Some(period) = period(word) {
        return Some(vec![retired(period)]);
    }
    let one = |part: &[u8]| {
        let colon = part.iter().position(|byte| *byte == b':')?;
        let event = NAMED.iter().find(|named| named.0.as_bytes() == &part[..colon])?.1;
        Some(EventPeriod { event, period: period(&part[colon + 1..])? })
    };
    let events = word.split(|byte| *byte == b',').map(one).collect::<Option<Vec<EventPeriod>>>()?;
    events.is_sorted_by(|one, other| one.event < other.event).then_some(events)
}

pub fn is_retired_alone(events: &[EventPeriod]) -> bool {
    matches!(events, [EventPeriod { event: Event::Retired, .. }])
}

/// By the number of an event the ordinal of a hart's next sample of it; one that isn't sampled has none.
#[derive(Clone)]
struct Dues([u64; 4]);

impl Dues {
    fn of(events: &[EventPeriod]) -> Dues {
        let mut next = [u64::MAX; 4];
        events.iter().for_each(|it| next[it.event as usize] = u64::from(it.period));
        Dues(next)
    }

    /// How many instructions a hart that has retired so many of each event may carry out without a sample.
    #[inline(always)]
    fn free(&self, done: &[u64; 4]) -> u64 {
        let left = |event: usize| self.0[event] - done[event] - 1;
        left(0).min(left(1)).min(left(2)).min(left(3))
    }

    /// Whether an instruction of an event is sampled if it retires next.
    #[inline(always)]
    fn has(&self, done: &[u64; 4], event: Event) -> bool {
        self.0[event as usize] == done[event as usize] + 1
    }
}

/// The event that the hart's next instruction has beside retired, if it retires.
#[inline(always)]
fn extra(machine: &Machine, number: usize) -> Option<Event> {
    let (op, rs1, rs2) = machine.next(number)?;
    let regs = &machine.harts[number].regs;
    Event::of(op, taken(op, regs[rs1 as usize], regs[rs2 as usize]))
}

/// A limit of a run.
pub enum Limit {
    Samples,
    Frames,
}

impl From<Limit> for String {
    #[cold]
    fn from(limit: Limit) -> String {
        match limit {
            Limit::Samples => format!("more than {MOST_SAMPLES} samples"),
            Limit::Frames => format!("more than {MOST_FRAMES} frames"),
        }
    }
}

/// What is told each sample's column and call path, until one is past a limit. It is put into the loops that run: an
/// answer is a byte in a register, and its line is made behind the loop.
pub trait Sampled {
    fn sampled(&mut self, column: usize, trail: &Trail) -> Result<(), Limit>;
}

/// Runs the slices.
pub fn run(
    machine: &mut Machine,
    unwinder: &mut Unwinder,
    slices: &[(usize, u64)],
    events: &[EventPeriod],
    samples: &mut impl Sampled,
) -> Read<()> {
    let ran = if is_retired_alone(events) {
        run_retired(machine, unwinder, slices, u64::from(events[0].period), samples)
    } else {
        run_events(machine, unwinder, slices, events, samples)
    };
    ran.map_err(String::from)
}

/// The samples' paths, and how many there were.
struct Counted {
    paths: Paths,
    samples: u64,
}

impl Sampled for Counted {
    #[inline(always)]
    fn sampled(&mut self, column: usize, trail: &Trail) -> Result<(), Limit> {
        let is_new = self.paths.add(column, trail, 1);
        self.samples += 1;
        if self.samples > MOST_SAMPLES {
            return Err(Limit::Samples);
        }
        if is_new && self.paths.words.len() > MOST_FRAMES {
            return Err(Limit::Frames);
        }
        Ok(())
    }
}

/// Runs the slices, and counts the samples' paths.
pub fn counted(
    machine: &mut Machine,
    unwinder: &mut Unwinder,
    slices: &[(usize, u64)],
    events: &[EventPeriod],
) -> Read<Paths> {
    let mut counted = Counted { paths: Paths::new(), samples: 0 };
    run(machine, unwinder, slices, events, &mut counted)?;
    Ok(counted.paths)
}

/// Where retired is the only event: a sample is taken of the state before each instruction whose number in its hart is
/// a multiple of the period, and counts if that instruction retires.
fn run_retired(
    machine: &mut Machine,
    unwinder: &mut Unwinder,
    slices: &[(usize, u64)],
    period: u64,
    samples: &mut impl Sampled,
) -> Result<(), Limit> {
    let (mut next, mut trail) = (vec![period; machine.harts.len()], Trail::new());
    for (number, count) in slices {
        let mut left = *count;
        while left > 0 && machine.harts[*number].end.is_none() {
            let hart = &machine.harts[*number];
            let before = next[*number] - hart.done[0] - 1;
            if before > 0 {
                left -= machine.pass::<false>(*number, before.min(left));
                continue;
            }
            unwinder.walk(hart.pc, &hart.regs, &mut machine.memory, &mut trail);
            let retired = machine.pass::<false>(*number, 1);
            left -= retired;
            if retired == 1 {
                next[*number] += period;
                samples.sampled(*number, &trail)?;
            }
        }
    }
    Ok(())
}

/// A sample of an event is taken of the state before each instruction of the event whose number among its hart's is a
/// multiple of the period, and counts if that instruction retires. A pass of as many instructions as the event lacks
/// that lacks least goes past no sample.
fn run_events(
    machine: &mut Machine,
    unwinder: &mut Unwinder,
    slices: &[(usize, u64)],
    events: &[EventPeriod],
    samples: &mut impl Sampled,
) -> Result<(), Limit> {
    let mut all_dues = vec![Dues::of(events); machine.harts.len()];
    let place = |event| events.iter().position(|it| it.event == event).unwrap_or(0);
    let places = [Event::Retired, Event::Loads, Event::Stores, Event::Taken].map(place);
    let mut trail = Trail::new();
    for (number, count) in slices {
        let (mut left, dues) = (*count, &mut all_dues[*number]);
        while left > 0 && machine.harts[*number].end.is_none() {
            let done = &machine.harts[*number].done;
            let free = dues.free(done);
            if free > 0 {
                left -= machine.pass::<true>(*number, free.min(left));
                continue;
            }
            let is_retired = dues.has(done, Event::Retired);
            let extra = extra(machine, *number).filter(|event| dues.has(done, *event));
            let hart = &machine.harts[*number];
            if is_retired || extra.is_some() {
                unwinder.walk(hart.pc, &hart.regs, &mut machine.memory, &mut trail);
            }
            let retired = machine.pass::<true>(*number, 1);
            left -= retired;
            for event in is_retired.then_some(Event::Retired).into_iter().chain(extra).filter(|_| retired == 1) {
                let place = places[event as usize];
                dues.0[event as usize] += u64::from(events[place].period);
                samples.sampled(*number * events.len() + place, &trail)?;
            }
        }
    }
    Ok(())
}
