// SPDX-License-Identifier: MIT OR Apache-2.0
//! One call on two sets of buffers: number, place (or length) and every word of every buffer.

use crate::divided::divide_call_within;
use crate::proved;
use common::buffers::{BIDEGREES, LEAST_WORK, OUT, PAGE, ROW, STATE, TREE_WORK, WORK};
use common::report::{shown, NUMBERS};
use reference::buffers::{
    fetch_call, lift_call_within, read_call_within, BIDEGREES_CALL, HILBERT_CALL, MINIMAL_CALL,
};
use reference::lifting::Way;
use reference::random::Random;
use reference::Limits;

/// The longest cache.
pub const CACHE: usize = ROW * 2_000;
/// Words that a longer buffer may have.
pub const MORE: usize = 40;

/// The buffers that a caller lends.
#[derive(Clone)]
pub struct Buffers {
    pub state: Vec<u16>,
    pub work: Vec<u16>,
    pub cache: Vec<u16>,
    pub out: Vec<u16>,
    /// what a division leaves
    pub quotients: Vec<u16>,
    pub remainder: Vec<u16>,
    /// out of a call that prints lines
    pub printed: Vec<u8>,
    /// out of a call that prints a page, which is long: no other call is lent it
    pub page: Vec<u8>,
}

impl Buffers {
    fn new() -> Buffers {
        Buffers {
            state: vec![0; STATE + MORE],
            work: vec![0; TREE_WORK + MORE],
            cache: vec![0; CACHE + MORE],
            out: vec![0; OUT + MORE],
            quotients: vec![0; OUT + MORE],
            remainder: vec![0; OUT + MORE],
            printed: vec![0; BIDEGREES + MORE],
            page: vec![0; PAGE + MORE],
        }
    }
}

/// How much of each buffer is lent.
#[derive(Clone, Copy, Debug)]
pub struct Lent {
    pub state: usize,
    pub work: usize,
    pub cache: usize,
    pub out: usize,
    pub printed: usize,
    pub page: usize,
}

/// As much as any call needs.
pub const WHOLE: Lent = Lent {
    state: STATE,
    work: TREE_WORK,
    cache: CACHE,
    out: OUT,
    printed: BIDEGREES,
    page: PAGE,
};

/// A call with its arguments.
#[derive(Clone, Copy, Debug)]
pub enum Call<'a> {
    Read(&'a [u8]),
    Lift { level: usize, way: u16, pick: u16 },
    Fetch { level: usize, vector: usize },
    Bidegrees(&'a [u8]),
    Hilbert(&'a [u8]),
    Minimal(&'a [u8]),
}

impl<'a> Call<'a> {
    fn file(&self) -> &'a [u8] {
        match *self {
            Call::Read(file)
            | Call::Bidegrees(file)
            | Call::Hilbert(file)
            | Call::Minimal(file) => file,
            Call::Lift { .. } | Call::Fetch { .. } => &[],
        }
    }

    /// The same call with another file.
    fn of<'b>(&self, file: &'b [u8]) -> Call<'b> {
        match *self {
            Call::Read(_) => Call::Read(file),
            Call::Lift { level, way, pick } => Call::Lift { level, way, pick },
            Call::Fetch { level, vector } => Call::Fetch { level, vector },
            Call::Bidegrees(_) => Call::Bidegrees(file),
            Call::Hilbert(_) => Call::Hilbert(file),
            Call::Minimal(_) => Call::Minimal(file),
        }
    }

    fn by_hybrid(&self) -> bool {
        matches!(self, Call::Lift { way: 1, .. })
    }
}

/// What a list of calls did, so that it can be done again.
pub enum Step {
    /// these words were written into the state
    Words(Vec<(usize, u16)>),
    Made(Made),
}

pub struct Made {
    call: Call<'static>,
    file: Vec<u8>,
    pub lent: Lent,
    pub budget: u64,
    pub number: u64,
    /// the state after a lifting by hybrid that finished with less room than there can be
    pub narrow: Option<Vec<u16>>,
}

impl Made {
    pub fn call(&self) -> Call<'_> {
        self.call.of(&self.file)
    }
}

/// Liftings by hybrid whose work buffer was not that for 512 terms (request A11).
#[derive(Default)]
pub struct Rooms {
    /// 16: it was too short
    pub short: u64,
    /// 14 where it is not 14 with room for 512
    pub by_room: u64,
    /// 14 with room for 512 too, or not known: there it takes more products than the budget
    pub anyway: u64,
    /// finished, or 13 or 15, with room for fewer than 512
    pub finished: u64,
    pub stopped: u64,
    /// finished, or 14, in a buffer for more than 512
    pub longer: u64,
    pub full: u64,
}

/// What `spoil` changes in one answer of the proved calls, so that the comparison itself is tried.
#[derive(Clone, Copy, PartialEq, Eq)]
pub enum Spoiled {
    Number,
    Place,
    State,
    Work,
    Cache,
    Out,
    Quotients,
    Remainder,
    Printed,
    Page,
}

pub const SPOILS: [(&str, Spoiled); 10] = [
    ("number", Spoiled::Number),
    ("place", Spoiled::Place),
    ("state", Spoiled::State),
    ("work", Spoiled::Work),
    ("cache", Spoiled::Cache),
    ("out", Spoiled::Out),
    ("quotients", Spoiled::Quotients),
    ("remainder", Spoiled::Remainder),
    ("printed", Spoiled::Printed),
    ("page", Spoiled::Page),
];

pub const KINDS: [&str; 10] = [
    "read",
    "lift by division",
    "lift by hybrid",
    "lift by the tree",
    "lift by no way",
    "fetch",
    "bidegrees",
    "Hilbert function",
    "minimal numbers",
    "divide",
];

pub struct Compare {
    limits: Limits,
    random: Random,
    /// the proved calls' buffers
    pub ours: Buffers,
    /// the unrelated implementation's
    pub theirs: Buffers,
    pub calls: u64,
    pub left_out: u64,
    /// by kind and number
    pub met: [[u64; NUMBERS]; KINDS.len()],
    /// divisions that finished: without a remainder, with one
    pub divided: [u64; 2],
    /// calls that printed lines, no refusal: of bidegrees, of the Hilbert function, of minimal numbers
    pub lines: [u64; 3],
    pub spoil: Option<(u64, Spoiled)>,
    pub rooms: Rooms,
    /// where a list is recorded, what it did so far
    pub record: Option<Vec<Step>>,
}

impl Compare {
    pub fn new(seed: u64) -> Compare {
        Compare {
            limits: Limits::document_01(),
            random: Random::new(seed),
            ours: Buffers::new(),
            theirs: Buffers::new(),
            calls: 0,
            left_out: 0,
            met: [[0; NUMBERS]; KINDS.len()],
            divided: [0; 2],
            lines: [0; 3],
            spoil: None,
            rooms: Rooms::default(),
            record: None,
        }
    }

    /// The same change in both sets of buffers.
    pub fn both(&mut self, change: impl Fn(&mut Buffers)) {
        change(&mut self.ours);
        change(&mut self.theirs);
    }

    /// Makes the call both ways. Where the unrelated implementation would take more products than the budget neither makes it, and there is no number.
    pub fn call(&mut self, call: &Call, lent: &Lent, budget: u64) -> Option<u64> {
        self.dirt();
        let narrow = call.by_hybrid() && lent.work < WORK;
        let before = narrow.then(|| self.theirs.state[..lent.state].to_vec());
        let theirs = &mut self.theirs;
        let (state, work, cache, out, printed, page) = (
            &mut theirs.state[..lent.state],
            &mut theirs.work[..lent.work],
            &mut theirs.cache[..lent.cache],
            &mut theirs.out[..lent.out],
            &mut theirs.printed[..lent.printed],
            &mut theirs.page[..lent.page],
        );
        let limits = &self.limits;
        let expected = match *call {
            Call::Read(file) => read_call_within(limits, file, state, work, Some(budget)),
            Call::Lift { level, way, pick } => {
                let way = match way {
                    0 => Way::Division,
                    1 => Way::Hybrid(u64::from(pick)),
                    2 => Way::Tree,
                    // there is no such way: 12, as for a wrong pick code
                    _ => Way::Hybrid(0),
                };
                lift_call_within(limits, state, level as u64, way, work, cache, Some(budget))
            }
            Call::Fetch { level, vector } => {
                Some(fetch_call(limits, state, level as u64, vector as u64, out))
            }
            Call::Bidegrees(file) => {
                BIDEGREES_CALL.make_within(limits, file, state, work, printed, Some(budget))
            }
            Call::Hilbert(file) => {
                HILBERT_CALL.make_within(limits, file, state, work, printed, Some(budget))
            }
            Call::Minimal(file) => {
                MINIMAL_CALL.make_within(limits, file, state, work, page, Some(budget))
            }
        };
        let Some(expected) = expected else {
            self.left_out += 1;
            return None;
        };
        let ours = &mut self.ours;
        let (state, work, cache, out, printed, page) = (
            &mut ours.state[..lent.state],
            &mut ours.work[..lent.work],
            &mut ours.cache[..lent.cache],
            &mut ours.out[..lent.out],
            &mut ours.printed[..lent.printed],
            &mut ours.page[..lent.page],
        );
        let mut answer = match *call {
            Call::Read(file) => proved::read(file, state, work),
            Call::Lift { level, way, pick } => proved::lift(state, work, cache, level, way, pick),
            Call::Fetch { level, vector } => proved::fetch(state, out, level, vector),
            Call::Bidegrees(file) => proved::bidegrees(file, state, work, printed),
            Call::Hilbert(file) => proved::hilbert(file, state, work, printed),
            Call::Minimal(file) => proved::minimal(file, state, work, page),
        };
        let prints_page = matches!(call, Call::Minimal(_));
        if let Some((at, what)) = self.spoil {
            // no page is compared before one is printed
            let due = match what {
                Spoiled::Page => prints_page && self.calls >= at,
                _ => self.calls == at,
            };
            if due {
                match what {
                    Spoiled::Number => answer.0 ^= 1,
                    Spoiled::Place => answer.1 += 1,
                    Spoiled::State => self.ours.state[STATE - 1] ^= 1,
                    Spoiled::Work => self.ours.work[WORK - 1] ^= 1,
                    Spoiled::Cache => self.ours.cache[0] ^= 1,
                    Spoiled::Out => self.ours.out[OUT] ^= 1,
                    // `divide` spoils them
                    Spoiled::Quotients | Spoiled::Remainder => {}
                    Spoiled::Printed => self.ours.printed[BIDEGREES] ^= 1,
                    Spoiled::Page => self.ours.page[PAGE] ^= 1,
                }
            }
        }
        self.calls += 1;
        if answer != expected {
            self.differ(call, lent, expected, &format!("answered {answer:?}"));
        }
        // what was not lent must not change either
        let (ours, theirs) = (&self.ours, &self.theirs);
        for (name, ours, theirs) in [
            ("state", &ours.state, &theirs.state),
            ("work", &ours.work, &theirs.work),
            ("cache", &ours.cache, &theirs.cache),
            ("out", &ours.out, &theirs.out),
        ] {
            if ours != theirs {
                let at = ours.iter().zip(theirs).position(|(a, b)| a != b);
                self.differ(call, lent, expected, &format!("{name} differs at {at:?}"));
            }
        }
        let pages = prints_page.then_some((&ours.page, &theirs.page));
        for (ours, theirs) in [(&ours.printed, &theirs.printed)].into_iter().chain(pages) {
            if ours != theirs {
                let at = ours.iter().zip(theirs).position(|(a, b)| a != b);
                let what = format!("what is printed differs at {at:?}");
                self.differ(call, lent, expected, &what);
            }
        }
        let kind = match call {
            Call::Read(_) => 0,
            Call::Lift { way, .. } => 1 + usize::from((*way).min(3)),
            Call::Fetch { .. } => 5,
            Call::Bidegrees(_) => 6,
            Call::Hilbert(_) => 7,
            Call::Minimal(_) => 8,
        };
        let first = if prints_page {
            theirs.page[0]
        } else {
            theirs.printed[0]
        };
        if kind >= 6 && expected.0 == 0 && first != b'X' {
            self.lines[kind - 6] += 1;
        }
        self.met[kind][expected.0 as usize] += 1;
        if call.by_hybrid() {
            self.count_room(call, lent, expected.0, before, budget);
        }
        if let Some(steps) = &mut self.record {
            let finished = narrow && expected.0 == 0;
            steps.push(Step::Made(Made {
                call: call.of(&[]),
                file: call.file().to_vec(),
                lent: *lent,
                budget,
                number: expected.0,
                narrow: finished.then(|| self.theirs.state.clone()),
            }));
        }
        Some(expected.0)
    }

    /// Divides a vector over the state both ways, so many words of state, quotients and remainder being lent. It changes nothing of the state, and no list is
    /// recorded with it.
    pub fn divide(&mut self, vector: &[u16], lent: [usize; 3], budget: u64) -> Option<u64> {
        let word = self.random.bits() as u16;
        let at: [usize; 2] = std::array::from_fn(|_| self.random.below(OUT as u64) as usize);
        self.both(|buffers| {
            buffers.quotients[at[0]] = word;
            buffers.remainder[at[1]] = word;
        });
        let theirs = &mut self.theirs;
        let expected = divide_call_within(
            &self.limits,
            &theirs.state[..lent[0]],
            vector,
            &mut theirs.quotients[..lent[1]],
            &mut theirs.remainder[..lent[2]],
            budget,
        );
        let Some(expected) = expected else {
            self.left_out += 1;
            return None;
        };
        let ours = &mut self.ours;
        let answer = proved::divide(
            &ours.state[..lent[0]],
            vector,
            &mut ours.quotients[..lent[1]],
            &mut ours.remainder[..lent[2]],
        );
        match self.spoil.filter(|(at, _)| self.calls >= *at) {
            Some((_, Spoiled::Quotients)) => ours.quotients[OUT] ^= 1,
            Some((_, Spoiled::Remainder)) => ours.remainder[0] ^= 1,
            _ => {}
        }
        self.calls += 1;
        let (ours, theirs) = (&self.ours, &self.theirs);
        let same = ours.quotients == theirs.quotients && ours.remainder == theirs.remainder;
        if answer != expected || !same || ours.state != theirs.state {
            println!(
                "call {}: a division, lent {lent:?} words: answered {answer:?}, expected {expected:?}",
                self.calls
            );
            println!("vector {:?}", &vector[..vector.len().min(60)]);
            println!("state from {:?}", &theirs.state[..6]);
            std::process::exit(1);
        }
        if expected.0 == 0 {
            self.divided[usize::from(theirs.remainder[0] != 0)] += 1;
        }
        self.met[KINDS.len() - 1][expected.0 as usize] += 1;
        Some(expected.0)
    }

    /// Counts what a lifting by hybrid answered. With a narrow buffer the state before it is given.
    fn count_room(
        &mut self,
        call: &Call,
        lent: &Lent,
        number: u64,
        before: Option<Vec<u16>>,
        budget: u64,
    ) {
        let rooms = &mut self.rooms;
        match (number, before) {
            (16, Some(_)) => rooms.short += u64::from(lent.work < LEAST_WORK),
            (14, Some(mut state)) => {
                let Call::Lift { level, pick, .. } = *call else {
                    unreachable!("it is a lifting");
                };
                let (way, mut work) = (Way::Hybrid(u64::from(pick)), vec![0; WORK]);
                let limits = &self.limits;
                let level = level as u64;
                let with_512 = lift_call_within(
                    limits,
                    &mut state,
                    level,
                    way,
                    &mut work,
                    &mut [],
                    Some(budget),
                );
                match with_512 {
                    Some((0 | 13 | 15, _)) => rooms.by_room += 1,
                    _ => rooms.anyway += 1,
                }
            }
            (0, Some(_)) => rooms.finished += 1,
            (13 | 15, Some(_)) => rooms.stopped += 1,
            (0, None) => rooms.longer += u64::from(lent.work >= WORK + ROW),
            (14, None) => rooms.full += u64::from(lent.work >= WORK + ROW),
            _ => {}
        }
    }

    /// What stands in work, cache, out and what was printed before a call must not matter.
    fn dirt(&mut self) {
        let word = self.random.bits() as u16;
        let at: [usize; 4] = std::array::from_fn(|_| self.random.bits() as usize);
        self.both(|buffers| {
            let Buffers {
                work,
                cache,
                out,
                printed,
                page,
                ..
            } = buffers;
            for (buffer, at) in [(&mut *work, at[0]), (cache, at[1]), (out, at[2])] {
                let length = buffer.len();
                buffer[at % length] = word;
                buffer[at % 64] = word;
            }
            work[at[3] % WORK] = word;
            for printed in [printed, page] {
                let length = printed.len();
                printed[at[3] % length] = word as u8;
                printed[at[0] % 64] = word as u8;
            }
        });
    }

    fn differ(&self, call: &Call, lent: &Lent, expected: (u64, u64), what: &str) -> ! {
        println!(
            "call {}: {lent:?}, expected {expected:?}: {what}",
            self.calls
        );
        match call {
            Call::Read(file)
            | Call::Bidegrees(file)
            | Call::Hilbert(file)
            | Call::Minimal(file) => println!("read or printed: {}", shown(file, 2_000)),
            _ => println!("{call:?}"),
        }
        println!("state from {:?}", &self.theirs.state[..6]);
        std::process::exit(1);
    }
}
