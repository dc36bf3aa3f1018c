//! What the proved program `replay` is run on, and what it must write: the files `stdin` and `stdout` of crates/replay.
//!
//! Method: runs of calls on pictures of each CTB size and format are drawn with fixed seeds ([`drawn`]), document 01's
//! case 10 first. A [`Machine`] keeps what the proved program keeps, makes each call by [`apply`] and says what comes of
//! it in a line.
//! The byte format, the samples made from a few numbers and the sums are those that the program describes; nothing else
//! is shared with it.

pub mod drawn;

use crate::picture::{Picture, State};
use crate::sets::CtuSet;
use crate::table;
use crate::world::{Answer, Call, Value, World, apply};

/// The proved program's room for a plane of any format, of marks and of table: a row, or a CTU, more than any picture has.
pub const PLANE: usize = 128 * 129;
const CTUS: usize = 65;
const MARKS: usize = 3 * CTUS;
const TABLE: usize = 32 * CTUS;

/// The lengths of the eight whole buffers: three deblocked planes, three filtered ones, the marks, the table.
pub const WHOLE: [usize; 8] = [PLANE, PLANE, PLANE, PLANE, PLANE, PLANE, MARKS, TABLE];

/// The most samples delivered: a CTB of 64x64, and a row more.
pub const DELIVERY: usize = 64 * 65;

/// How many places after the lent part of a buffer are summed with it.
const GUARD: usize = 64;

/// The bytes of the room that is lent to write, and the most bytes of bins given to read.
pub const ROOM: usize = 64;

/// The bytes of a stored file; nothing for any other names.
pub fn bytes(program: &str, file: &str) -> Option<Vec<u8>> {
    match (program, file) {
        ("replay", "stdin") => Some(drawn::commands().iter().flat_map(Command::bytes).collect()),
        ("replay", "stdout") => {
            let mut machine = Machine::new();
            let commands = drawn::commands();
            let mut line = |command| machine.made(command).map(|made| machine.line(command, &made.answer));
            Some(commands.iter().filter_map(&mut line).flat_map(String::into_bytes).collect())
        }
        _ => None,
    }
}

/// The next number of Marsaglia's xorshift of 32 bits, by 13, 17 and 5.
fn xorshift(mut x: u32) -> u32 {
    x ^= x << 13;
    x ^= x >> 17;
    x ^ (x << 5)
}

fn sum<'a, T: Copy + Into<u32> + 'a>(numbers: impl IntoIterator<Item = &'a T>) -> u32 {
    numbers.into_iter().fold(1, |sum, &number| xorshift(sum ^ number.into()))
}

// The commands.

/// Samples to be delivered, made from a few numbers; after that some are put in by place.
#[derive(Clone, Debug, PartialEq, Eq)]
pub struct Samples {
    pub number: usize,
    pub base: u16,
    pub spread: u16,
    pub seed: u32,
    pub put_in: Vec<(u16, u16)>,
}

impl Samples {
    pub fn made(&self) -> Vec<u16> {
        let mut x = self.seed;
        let sample = |_| {
            x = xorshift(x);
            self.base ^ (x as u16 & self.spread)
        };
        let mut samples: Vec<u16> = (0..self.number).map(sample).collect();
        for &(place, sample) in &self.put_in {
            samples[usize::from(place)] = sample;
        }
        samples
    }

    /// Those that become the given samples.
    pub fn that_make(&self, samples: &[u16]) -> Samples {
        let plain = Samples { number: samples.len(), put_in: vec![], ..*self };
        let made = plain.made();
        let differing = (0..samples.len()).filter(|&place| made[place] != samples[place]);
        Samples { put_in: differing.map(|place| (place as u16, samples[place])).collect(), ..plain }
    }
}

/// A command to the proved program: something to be kept from now on, or a call.
#[derive(Clone, Debug, PartialEq, Eq)]
pub enum Command {
    State(State),
    /// How much of each buffer is lent.
    Lengths([usize; 8]),
    /// All buffers filled from a number.
    Fill(u32),
    Poke {
        buffer: usize,
        place: usize,
        value: u16,
    },
    Open,
    Read {
        bins: Vec<u8>,
        count: usize,
    },
    /// The room's bytes are all alike before the call.
    Write {
        set: CtuSet,
        room: usize,
        byte: u8,
    },
    Deliver {
        component: u8,
        ctb: u32,
        samples: Samples,
    },
    Filter {
        component: u8,
        ctb: u32,
    },
    FinishedRows {
        component: u8,
    },
}

impl Command {
    /// Its bytes, as crates/replay describes them.
    pub fn bytes(&self) -> Vec<u8> {
        match self {
            Command::State(state) => joined(head(0, [0; 3], 0), state_bytes(state)),
            Command::Lengths(lengths) => {
                joined(head(1, [0; 3], 0), lengths.iter().flat_map(|&length| two(length)).collect())
            }
            Command::Fill(seed) => head(2, [0; 3], *seed),
            Command::Poke { buffer, place, value } => {
                let [low, high] = two(*place);
                head(3, [*buffer as u8, low, high], u32::from(*value))
            }
            Command::Open => head(4, [0; 3], 0),
            Command::Read { bins, count } => {
                let (from_above, n) = match u32::try_from(*count) {
                    Ok(n) => (0, n),
                    Err(_) => (1, (usize::MAX - count) as u32),
                };
                joined(head(5, [bins.len() as u8, from_above, 0], n), bins.clone())
            }
            Command::Write { set, room, byte } => {
                joined(head(6, [*room as u8, *byte, 0], 0), table::encode(set).to_vec())
            }
            Command::Deliver { component, ctb, samples } => {
                let Samples { number, base, spread, seed, put_in } = samples;
                let made = [two(*number), base.to_le_bytes(), spread.to_le_bytes()].concat();
                let put_in: Vec<u8> = put_in
                    .iter()
                    .flat_map(|(place, sample)| [place.to_le_bytes(), sample.to_le_bytes()])
                    .flatten()
                    .collect();
                let times = (put_in.len() / 4) as u8;
                [head(7, [*component, times, 0], *ctb), made, seed.to_le_bytes().to_vec(), put_in].concat()
            }
            Command::Filter { component, ctb } => head(8, [*component, 0, 0], *ctb),
            Command::FinishedRows { component } => head(9, [*component, 0, 0], 0),
        }
    }

    /// The call that it is; nothing if it is none.
    pub fn call(&self) -> Option<Call> {
        Some(match self.clone() {
            Command::State(_) | Command::Lengths(_) | Command::Fill(_) | Command::Poke { .. } => return None,
            Command::Open => Call::Open,
            Command::Read { bins, count } => Call::Read { bins, count },
            Command::Write { set, room, byte } => Call::Write { set, out: vec![byte; room] },
            Command::Deliver { component, ctb, samples } => Call::Deliver { component, ctb, samples: samples.made() },
            Command::Filter { component, ctb } => Call::Filter { component, ctb },
            Command::FinishedRows { component } => Call::FinishedRows { component },
        })
    }
}

fn head(number: u8, [a, b, c]: [u8; 3], n: u32) -> Vec<u8> {
    joined(vec![number, a, b, c], n.to_le_bytes().to_vec())
}

fn joined(mut first: Vec<u8>, second: Vec<u8>) -> Vec<u8> {
    first.extend(second);
    first
}

fn two(number: usize) -> [u8; 2] {
    (number as u16).to_le_bytes()
}

fn state_bytes(state: &State) -> Vec<u8> {
    let Picture { width, height, ctb, format, luma_depth, chroma_depth, luma, chroma } = state.picture;
    let sizes = [width, height, ctb].map(u32::to_le_bytes).concat();
    let single = vec![format, luma_depth, chroma_depth, luma.into(), chroma.into()];
    [sizes, single, state.next.to_le_bytes().to_vec()].concat()
}

// What is kept, and what comes of a command.

/// The state, the whole buffers, and how much of each is lent.
#[derive(Clone, Debug, PartialEq, Eq)]
pub struct Machine {
    pub state: State,
    pub lengths: [usize; 8],
    pub whole: World,
}

/// A call made: what it was given and lent, and what came back.
#[derive(Clone, Debug)]
pub struct Made {
    pub state: State,
    pub lent: World,
    pub call: Call,
    pub answer: Answer,
}

impl Machine {
    /// As the proved program begins.
    pub fn new() -> Machine {
        let none = Picture { width: 0, height: 0, ctb: 0, luma: false, ..Picture::MONOCHROME.at_depths([0, 0]) };
        let plane = |buffer: usize| vec![0; WHOLE[buffer]];
        let whole = World {
            deblocked: [0, 1, 2].map(plane),
            filtered: [3, 4, 5].map(plane),
            marks: vec![0; WHOLE[6]],
            table: vec![0; WHOLE[7]],
        };
        Machine { state: State { picture: none, next: 0 }, lengths: [0; 8], whole }
    }

    /// Makes a command; what is made of a call comes back.
    pub fn made(&mut self, command: &Command) -> Option<Made> {
        match command {
            Command::State(state) => self.state = *state,
            Command::Lengths(lengths) => self.lengths = *lengths,
            Command::Fill(seed) => self.fill(*seed),
            Command::Poke { buffer, place, value } => self.poke(*buffer, *place, *value),
            _ => return command.call().map(|call| self.called(call)),
        }
        None
    }

    fn fill(&mut self, mut x: u32) {
        let World { deblocked, filtered, marks, table } = &mut self.whole;
        let mut next = || {
            x = xorshift(x);
            x
        };
        deblocked.iter_mut().chain(filtered).flatten().for_each(|sample| *sample = next() as u16);
        marks.iter_mut().chain(table).for_each(|byte| *byte = next() as u8);
    }

    fn poke(&mut self, buffer: usize, place: usize, value: u16) {
        let World { deblocked, filtered, marks, table } = &mut self.whole;
        match buffer {
            0..=2 => deblocked[buffer][place] = value,
            3..=5 => filtered[buffer - 3][place] = value,
            6 => marks[place] = value as u8,
            _ => table[place] = value as u8,
        }
    }

    /// What stands at a place of a buffer.
    fn at(&self, buffer: usize, place: usize) -> u16 {
        let World { deblocked, filtered, marks, table } = &self.whole;
        match buffer {
            0..=2 => deblocked[buffer][place],
            3..=5 => filtered[buffer - 3][place],
            6 => marks[place].into(),
            _ => table[place].into(),
        }
    }

    /// The leading parts of the buffers.
    pub fn lent(&self) -> World {
        let World { deblocked, filtered, marks, table } = &self.whole;
        World {
            deblocked: std::array::from_fn(|n| deblocked[n][..self.lengths[n]].to_vec()),
            filtered: std::array::from_fn(|n| filtered[n][..self.lengths[3 + n]].to_vec()),
            marks: marks[..self.lengths[6]].to_vec(),
            table: table[..self.lengths[7]].to_vec(),
        }
    }

    fn called(&mut self, call: Call) -> Made {
        let (state, lent) = (self.state, self.lent());
        let mut after = lent.clone();
        let answer = apply(&mut after, state, call.clone());
        self.state = answer.state;
        self.put_back(&after);
        Made { state, lent, call, answer }
    }

    /// The line of the call that was made last.
    pub fn line(&self, command: &Command, answer: &Answer) -> String {
        format!("{}{}\n", said(command, answer), self.sums())
    }

    fn put_back(&mut self, lent: &World) {
        let World { deblocked, filtered, marks, table } = &mut self.whole;
        let parts = lent.deblocked.iter().chain(&lent.filtered);
        for (whole, part) in deblocked.iter_mut().chain(filtered).zip(parts) {
            whole[..part.len()].copy_from_slice(part);
        }
        marks[..lent.marks.len()].copy_from_slice(&lent.marks);
        table[..lent.table.len()].copy_from_slice(&lent.table);
    }

    /// The sums of the state, the deblocked planes, the filtered planes, the marks and the table: of each what is lent
    /// and what comes after it, as far as the guard goes.
    fn sums(&self) -> String {
        let Picture { width, height, ctb, format, luma_depth, chroma_depth, luma, chroma } = self.state.picture;
        let single = [format, luma_depth, chroma_depth, luma.into(), chroma.into()].map(u32::from);
        let state = [&[width, height, ctb][..], &single, &[self.state.next]].concat();
        let World { deblocked, filtered, marks, table } = &self.whole;
        let end = |buffer: usize| (self.lengths[buffer] + GUARD).min(WHOLE[buffer]);
        let planes = |planes: &[Vec<u16>; 3], first: usize| {
            sum(planes.iter().enumerate().flat_map(|(plane, samples)| &samples[..end(first + plane)]))
        };
        let (deblocked, filtered) = (planes(deblocked, 0), planes(filtered, 3));
        let sums = [sum(&state), deblocked, filtered, sum(&marks[..end(6)]), sum(&table[..end(7)])];
        sums.map(|sum| format!(" {sum:08x}")).concat()
    }
}

impl Default for Machine {
    fn default() -> Machine {
        Machine::new()
    }
}

/// The letter of the call, its number and what it hands out.
fn said(command: &Command, answer: &Answer) -> String {
    let number = answer.answer.err().map_or(0, |refusal| refusal.0);
    let value = match answer.answer {
        Ok(Value::Set(set)) => format!(" {}", table::encode(&set).map(|byte| format!("{byte:02x}")).concat()),
        Ok(Value::Bins(number) | Value::Rows(number)) => format!(" {number}"),
        _ => String::new(),
    };
    let (letter, handed_out) = match command {
        Command::Read { .. } => ('r', String::new()),
        Command::Write { byte, .. } => {
            let mut room = answer.out.clone();
            room.resize(ROOM, *byte);
            ('w', format!(" {:08x}", sum(&room)))
        }
        Command::Deliver { .. } => ('d', String::new()),
        Command::Filter { .. } => ('f', String::new()),
        Command::FinishedRows { .. } => ('n', format!(" {} {:08x}", answer.part.len(), sum(&answer.part))),
        _ => ('o', String::new()),
    };
    format!("{letter} {number}{value}{handed_out}")
}
