//! Sets read from bins and written to bins, one CTU to a record.
//!
//! Method: a set is drawn and said in bins; the record writes it, reads it, or reads a damaged copy: another count,
//! other bits, another entry. Depths, formats, switches and neighbours are gone through in all combinations, and so are
//! pairs of depths of every M with switches and neighbours.

use crate::bins::{self, Form, Reading};
use crate::generate;
use crate::picture::Picture;
use crate::random::Random;
use crate::sets::{ComponentSet, CtuSet};
use crate::table::{self, ENTRY_BYTES};

/// The bytes of bins that a record holds, and room for as many.
const BODY: usize = 56;

const HEAD: usize = 72;

/// What stands where a record has nothing to say, so that whoever looks there is found out.
const NOTHING: u8 = 0x5A;

type Entry = [u8; ENTRY_BYTES];

/// One CTU to be read or written. Sets are entries of the table, so that unsound ones can be handed in.
#[derive(Clone, Debug, PartialEq, Eq)]
pub struct Record {
    pub picture: Picture,
    pub left: Option<Entry>,
    pub up: Option<Entry>,
    pub call: Call,
}

#[derive(Clone, Debug, PartialEq, Eq)]
pub enum Call {
    Read { bins: Vec<u8>, count: usize },
    Write { set: Entry, room: Vec<u8> },
}

impl Record {
    /// Its bytes, as crates/cases describes them.
    pub fn bytes(&self) -> Vec<u8> {
        let Picture { width, height, ctb, format, luma_depth, chroma_depth, luma, chroma } = self.picture;
        let (set, count, lent) = match &self.call {
            Call::Read { bins, count } => ([NOTHING; ENTRY_BYTES], *count, bins),
            Call::Write { set, room } => (*set, 0, room),
        };
        assert!(lent.len() <= BODY, "a record holds {BODY} bytes of bins");
        let flags = [self.left.is_some(), self.up.is_some(), matches!(self.call, Call::Write { .. })];
        let pair = |number: u32| (number as u16).to_le_bytes();
        let mut bytes = Vec::with_capacity(HEAD + BODY);
        for entry in [self.left, self.up, Some(set)] {
            bytes.extend(entry.unwrap_or([NOTHING; ENTRY_BYTES]));
        }
        bytes.extend(flags.map(u8::from));
        bytes.extend([format, luma_depth, chroma_depth, luma.into(), chroma.into()]);
        bytes.extend([width, height, ctb, count as u32].map(pair).concat());
        bytes.extend([lent.len() as u8, 0]);
        bytes.extend(lent);
        bytes.resize(HEAD + BODY, NOTHING);
        bytes
    }

    /// The line that it must give.
    pub fn answer(&self) -> String {
        let picture = &self.picture;
        if picture.breaks_a_rule() {
            return "description".into();
        }
        let (Some(left), Some(up)) = (neighbour(picture, self.left), neighbour(picture, self.up)) else {
            return "neighbour".into();
        };
        match &self.call {
            Call::Read { bins, count } if *count > 8 * bins.len() => "count".into(),
            Call::Read { bins, count } => what_is_read(picture, left, up, &bins::unpack(bins, *count)),
            Call::Write { set, room } => match table::decode(picture, set) {
                Some(set) => what_is_written(picture, left, up, &set, room),
                None => "set".into(),
            },
        }
    }
}

/// No neighbour, or its set; nothing if its entry is not sound.
fn neighbour(picture: &Picture, entry: Option<Entry>) -> Option<Option<CtuSet>> {
    match entry {
        None => Some(None),
        Some(entry) => table::decode(picture, &entry).map(Some),
    }
}

fn what_is_read(picture: &Picture, left: Option<CtuSet>, up: Option<CtuSet>, bins: &str) -> String {
    let set = match bins::read(picture, left.is_some(), up.is_some(), bins) {
        Reading::EndTooEarly => return "early".into(),
        Reading::Remain => return "remain".into(),
        Reading::Whole(Form::MergeLeft) => left,
        Reading::Whole(Form::MergeUp) => up,
        Reading::Whole(Form::Full(set)) => Some(set),
        Reading::Whole(Form::None) => Some(CtuSet::OFF),
    };
    hex(&table::encode(&set.expect("a merge is read only where there is a neighbour")))
}

fn what_is_written(picture: &Picture, left: Option<CtuSet>, up: Option<CtuSet>, set: &CtuSet, room: &[u8]) -> String {
    let bins = said(picture, left, up, set);
    let packed = bins::pack(&bins);
    match room.get(packed.len()..) {
        Some(rest) => format!("{}:{}{}", bins.len(), hex(&packed), hex(rest)),
        None => format!("no room:{}", hex(room)),
    }
}

fn said(picture: &Picture, left: Option<CtuSet>, up: Option<CtuSet>, set: &CtuSet) -> String {
    bins::written(picture, left, up, set).expect("a sound entry is within the rules")
}

fn hex(bytes: &[u8]) -> String {
    bytes.iter().map(|byte| format!("{byte:02x}")).collect()
}

// The records.

pub fn records() -> Vec<Record> {
    let mut random = Random::new(1);
    let combined = combinations(&mut random);
    let damaged = (0..120).map(|n| with_a_damaged_entry(&mut random, &combined[23 * n])).collect();
    let longest = Picture::pairs_of_depths().flat_map(longest).collect();
    let too_large = paired().flat_map(one_too_large).collect();
    [document(), misread_with_one_depth(), combined, longest, too_large, damaged, wrong_descriptions()].concat()
}

const MONOCHROME: Picture = Picture::MONOCHROME;

/// 4:2:0 with both switches on.
const COLOUR: Picture = Picture { format: 1, chroma: true, ..MONOCHROME };

fn read(left: Option<CtuSet>, up: Option<CtuSet>, bins: &[u8], count: usize) -> Record {
    let entry = |set: Option<CtuSet>| set.map(|set| table::encode(&set));
    let call = Call::Read { bins: bins.to_vec(), count };
    Record { picture: MONOCHROME, left: entry(left), up: entry(up), call }
}

fn write(set: ComponentSet) -> Record {
    let call = Call::Write { set: table::encode(&CtuSet::of_luma(set)), room: vec![0xFF; 4] };
    Record { picture: MONOCHROME, left: None, up: None, call }
}

/// Document 01's cases 1 to 5 and 9.
fn document() -> Vec<Record> {
    let magnitude = |offset| ComponentSet::Edge { class: 0, offsets: [offset, 0, 0, 0] };
    let off = ComponentSet::Off;
    let case_3 = ComponentSet::Edge { class: 2, offsets: [1, 0, 0, -2] };
    let case_5 = ComponentSet::Band { position: 30, offsets: [0, -3, 0, 1] };
    let alone = |bins: &[u8], count| read(None, None, bins, count);
    let set = |set| Some(CtuSet::of_luma(set));
    vec![
        // 1: between the type "11" and the other magnitudes and the class, "00000", stand "0", "1110" and "1111111"
        write(magnitude(0)),
        write(magnitude(3)),
        write(magnitude(7)),
        // 2
        alone(&[0x00], 1),
        write(off),
        // 3: low bits of the last byte that are no bins are not looked at, and are written as 0
        alone(&[0xE3, 0x40], 11),
        alone(&[0xE3, 0x5F], 11),
        write(case_3),
        // 4: one bin too few, one too many, and more than the bytes hold
        alone(&[0xE3, 0x40], 10),
        alone(&[0xE3, 0x40], 12),
        alone(&[0xE3, 0x40], 17),
        // 5
        alone(&[0x9C, 0xAF, 0x00], 17),
        write(case_5),
        // 9: merge left; merge up after a left neighbour not taken; left before up; merge up in column 0
        read(set(case_3), None, &[0x80], 1),
        read(set(off), set(case_5), &[0x40], 2),
        read(set(off), set(case_5), &[0x80], 1),
        read(None, set(case_3), &[0x80], 1),
    ]
}

/// Luma at depth 10 and chroma at depth 8, so that M is 31 and 7: written, read, and read as if there were one depth.
fn misread_with_one_depth() -> Vec<Record> {
    let band = |position, offsets| ComponentSet::Band { position, offsets };
    let set = CtuSet::of([band(3, [8, 0, 0, 0]), band(1, [7, 0, 0, -1]), band(31, [0, 0, 0, -7])]);
    let picture = COLOUR.at_depths([10, 8]);
    let bins = said(&picture, None, None, &set);
    let call = Call::Read { bins: bins::pack(&bins), count: bins.len() };
    let alone = |picture, call| Record { picture, left: None, up: None, call };
    let mut records = vec![alone(picture, Call::Write { set: table::encode(&set), room: vec![0xFF; 8] })];
    records.extend([[10, 8], [10, 10], [8, 8]].map(|depths| alone(COLOUR.at_depths(depths), call.clone())));
    records
}

/// The formats and pairs of switches.
const SWITCHES: [(u8, bool, bool); 14] = [
    (0, false, false),
    (0, true, false),
    (1, false, false),
    (1, false, true),
    (1, true, false),
    (1, true, true),
    (2, false, false),
    (2, false, true),
    (2, true, false),
    (2, true, true),
    (3, false, false),
    (3, false, true),
    (3, true, false),
    (3, true, true),
];

/// Two different depths for luma and chroma: of each M, and of one M two.
fn paired() -> impl Iterator<Item = [u8; 2]> {
    let depths = [8, 9, 10, 16];
    depths.into_iter().flat_map(move |luma| depths.map(|chroma| [luma, chroma])).filter(|[luma, chroma]| luma != chroma)
}

/// Every depth with every format and pair of switches; and two different depths with every pair of switches, one format
/// after the other.
fn kinds() -> Vec<Picture> {
    let of = |depths, (format, luma, chroma)| Picture { format, luma, chroma, ..MONOCHROME }.at_depths(depths);
    let equal = (8..=16).flat_map(|depth| SWITCHES.map(|switches| of([depth; 2], switches)));
    let paired = paired().zip([1, 2, 3].into_iter().cycle()).flat_map(|(depths, format)| {
        SWITCHES.into_iter().filter(move |switches| switches.0 == format).map(move |switches| of(depths, switches))
    });
    equal.chain(paired).collect()
}

/// All of these with every kind of neighbours, in pictures of any size.
fn combinations(random: &mut Random) -> Vec<Record> {
    let mut records = Vec::new();
    for kind in kinds() {
        for (has_left, has_up) in [(false, false), (true, false), (false, true), (true, true)] {
            let mut side = || 8 * (1 + random.below(1024) as u32);
            let (width, height) = (side(), side());
            let picture = Picture { width, height, ctb: random.pick(&[16, 32, 64]), ..kind };
            records.extend(written_and_read(random, picture, has_left, has_up));
        }
    }
    records
}

/// One CTU written, read, and read from another count and from other bits.
fn written_and_read(random: &mut Random, picture: Picture, has_left: bool, has_up: bool) -> [Record; 4] {
    let mut neighbour = |exists: bool| exists.then(|| generate::set(random, &picture));
    let (left, up) = (neighbour(has_left), neighbour(has_up));
    let own = generate::set(random, &picture);
    let set = random.pick(&[left, up, None, None, None]).unwrap_or(own);
    let bins = said(&picture, left, up, &set);
    let calls = [
        writing(random, &set, &bins),
        reading(random, &bins, bins.len()),
        with_another_count(random, &bins),
        with_other_bits(random, &bins),
    ];
    let [left, up] = [left, up].map(|set| set.map(|set| table::encode(&set)));
    calls.map(|call| Record { picture, left, up, call })
}

fn any_bytes(random: &mut Random, number: usize) -> Vec<u8> {
    (0..number).map(|_| random.number() as u8).collect()
}

/// Room that is enough, or, one time in four, a byte too little.
fn writing(random: &mut Random, set: &CtuSet, bins: &str) -> Call {
    let enough = bins.len().div_ceil(8) + random.below(3);
    let too_little = bins.len().div_ceil(8).saturating_sub(1);
    let number = if random.once_in(4) { too_little } else { enough };
    Call::Write { set: table::encode(set), room: any_bytes(random, number) }
}

/// These bins, and any bits after them up to the end of the bytes; the count may be another.
fn reading(random: &mut Random, bins: &str, count: usize) -> Call {
    let bytes = bins.len().max(count).div_ceil(8) + random.below(2);
    let mut all = bins.to_string();
    while all.len() < 8 * bytes {
        all.push(random.pick(&['0', '1']));
    }
    Call::Read { bins: bins::pack(&all), count }
}

/// One too few, one too many, any number up to all the bits, or one more than these.
fn with_another_count(random: &mut Random, bins: &str) -> Call {
    let call = reading(random, bins, bins.len() + 1);
    let Call::Read { bins: bytes, .. } = call else { unreachable!("reading makes a read") };
    let any = random.below(8 * bytes.len() + 1);
    let too_few = bins.len().saturating_sub(1);
    let count = random.pick(&[too_few, too_few, bins.len() + 1, bins.len() + 1, any, 8 * bytes.len()]);
    Call::Read { bins: bytes, count }
}

/// Up to four bits turned over, or all of them drawn anew.
fn with_other_bits(random: &mut Random, bins: &str) -> Call {
    let Call::Read { bins: mut bytes, count } = reading(random, bins, bins.len()) else {
        unreachable!("reading makes a read")
    };
    if random.once_in(4) {
        return Call::Read { bins: any_bytes(random, bytes.len()), count };
    }
    for _ in 0..bins.len().min(1 + random.below(4)) {
        let bit = random.below(bins.len());
        bytes[bit / 8] ^= 128 >> (bit % 8);
    }
    Call::Read { bins: bytes, count }
}

/// The longest CTU of two depths: written where it just fits and where it does not, and read.
fn longest(depths: [u8; 2]) -> [Record; 3] {
    let picture = COLOUR.at_depths(depths);
    let most = |component| picture.largest_magnitude(component) as i8;
    let set = CtuSet::of([0, 1, 2].map(|of| ComponentSet::Band { position: 31, offsets: [-most(of); 4] }));
    let bins = said(&picture, Some(CtuSet::OFF), Some(CtuSet::OFF), &set);
    let bytes = bins::pack(&bins);
    let room = |number| Call::Write { set: table::encode(&set), room: vec![0xFF; number] };
    let calls = [room(bytes.len()), room(bytes.len() - 1), Call::Read { bins: bytes, count: bins.len() }];
    let off = Some(table::encode(&CtuSet::OFF));
    calls.map(|call| Record { picture, left: off, up: off, call })
}

/// Entries with one offset above M of its own component, though not always of the other depth: to be written, and to be
/// merged with.
fn one_too_large(depths: [u8; 2]) -> Vec<Record> {
    let picture = COLOUR.at_depths(depths);
    let edge = |offset| ComponentSet::Edge { class: 1, offsets: [offset, 0, 0, 0] };
    let too_large = |component| {
        let mut components = [edge(0); 3];
        components[component] = edge(picture.largest_magnitude(component) as i8 + 1);
        table::encode(&CtuSet::of(components))
    };
    let written = |set| Record { picture, left: None, up: None, call: Call::Write { set, room: vec![0xFF; BODY] } };
    let merge = Call::Read { bins: vec![0x80], count: 1 };
    let merged = |set| Record { picture, left: Some(set), up: None, call: merge.clone() };
    [0, 1, 2].map(too_large).into_iter().flat_map(|set| [written(set), merged(set)]).collect()
}

/// A record with one byte of an entry changed by little: most entries are then unsound.
fn with_a_damaged_entry(random: &mut Random, record: &Record) -> Record {
    let mut damaged = record.clone();
    let written = if let Call::Write { set, .. } = &mut damaged.call { Some(set) } else { None };
    let entries = [written, damaged.left.as_mut(), damaged.up.as_mut()];
    let mut entries: Vec<&mut Entry> = entries.into_iter().flatten().collect();
    let which = random.below(entries.len().max(1));
    if let Some(entry) = entries.get_mut(which) {
        let byte = &mut entry[random.below(ENTRY_BYTES)];
        *byte = random.pick(&[byte.wrapping_add(1), byte.wrapping_sub(1), *byte ^ 128, 3, 32]);
    }
    damaged
}

/// Descriptions that break one rule each.
fn wrong_descriptions() -> Vec<Record> {
    let wrong = [
        Picture { width: 0, ..MONOCHROME },
        Picture { width: 12, ..MONOCHROME },
        Picture { height: 8200, ..MONOCHROME },
        Picture { ctb: 8, ..MONOCHROME },
        Picture { ctb: 48, ..MONOCHROME },
        Picture { format: 4, ..MONOCHROME },
        Picture { chroma: true, ..MONOCHROME },
        MONOCHROME.at_depths([7, 7]),
        MONOCHROME.at_depths([17, 17]),
        // Both within 8 to 16, but not equal.
        MONOCHROME.at_depths([10, 8]),
        MONOCHROME.at_depths([8, 9]),
        MONOCHROME.at_depths([9, 16]),
        COLOUR.at_depths([7, 8]),
        COLOUR.at_depths([17, 16]),
        COLOUR.at_depths([8, 7]),
        COLOUR.at_depths([16, 17]),
    ];
    let call = Call::Read { bins: vec![0], count: 1 };
    wrong.map(|picture| Record { picture, left: None, up: None, call: call.clone() }).to_vec()
}
