//! The stage as a Rust user meets it: whole pictures on owned and on lent buffers, every refusal, and sets and refusals
//! as numbers.

use steamgusset::{
    BINS_BYTES, Block, Buffers, ChromaFormat, CtuSet, Lent, Memory, Offsets, Picture, Plane, Refusal, Refused, Rows,
    SET_BYTES, Sizes, Stage, State, calls,
};

/// Nine CTUs, those on the right and below cut short.
const NINE: Picture = Picture {
    width: 40,
    height: 40,
    ctb: 16,
    format: ChromaFormat::Chroma420,
    luma_depth: 10,
    chroma_depth: 10,
    luma: true,
    chroma: true,
};

/// Four CTUs; the last has a left and an upper neighbour.
const FOUR: Picture = Picture { width: 32, height: 32, ..NINE };

const MONOCHROME: Picture = Picture { format: ChromaFormat::Monochrome, chroma: false, ..NINE };

/// Nine CTUs in 4:2:2 and in 4:4:4.
const HALF_WIDTH: Picture = Picture { format: ChromaFormat::Chroma422, ..NINE };
const FULL: Picture = Picture { format: ChromaFormat::Chroma444, ..NINE };

type Outcome = Result<(), Refusal>;

// Pictures.

fn band(position: u8, offsets: [i8; 4]) -> Offsets {
    Offsets::Band { position, offsets }
}

fn edge(class: u8, offsets: [i8; 4]) -> Offsets {
    Offsets::Edge { class, offsets }
}

/// A CTU's set; many are a neighbour's, so that merges are among them.
fn set(picture: Picture, ctu: u32) -> CtuSet {
    let set = match ctu % 3 {
        0 => CtuSet { luma: band(30, [31, -31, 5, 0]), cb: edge(1, [3, 1, 0, -9]), cr: edge(1, [0, 31, -31, 0]) },
        _ => CtuSet { luma: edge(2, [9, 4, -4, -9]), cb: band(3, [1, 2, 3, 4]), cr: band(31, [-8, 8, 0, 1]) },
    };
    if picture.chroma { set } else { CtuSet { luma: set.luma, ..CtuSet::OFF } }
}

/// A deblocked block of depth 10.
fn samples(component: u32, block: Block) -> Vec<u16> {
    let sample = |x: usize, y: usize| ((x * 397 + y * 101 + x * y * 17 + component as usize * 29) % 1024) as u16;
    (block.y0..block.y1).flat_map(|y| (block.x0..block.x1).map(move |x| sample(x, y))).collect()
}

/// What a decoder hands to the stage, one thing at a time.
#[derive(Clone, Copy)]
enum Event {
    NextSet,
    Deblocked { component: u32, ctb: u32 },
}

/// The number of every CTB, as component and CTB.
fn ctbs(picture: Picture) -> Vec<(u32, u32)> {
    let ctus = picture.sizes().map_or(0, |sizes| sizes.ctus as u32);
    (0..picture.components()).flat_map(|component| (0..ctus).map(move |ctb| (component, ctb))).collect()
}

fn sets_in_order(picture: Picture) -> Vec<Event> {
    ctbs(picture).into_iter().filter(|&(component, _)| component == 0).map(|_| Event::NextSet).collect()
}

fn blocks_in_order(picture: Picture) -> Vec<Event> {
    ctbs(picture).into_iter().map(|(component, ctb)| Event::Deblocked { component, ctb }).collect()
}

fn forwards(picture: Picture) -> Vec<Event> {
    [sets_in_order(picture), blocks_in_order(picture)].concat()
}

fn backwards(picture: Picture) -> Vec<Event> {
    forwards(picture).into_iter().rev().collect()
}

fn hand_in<B: Memory>(stage: &mut Stage<B>, event: Event) -> Outcome {
    match event {
        Event::NextSet => {
            let set = set(stage.picture(), stage.next_ctu());
            stage.write(&set, &mut [0; BINS_BYTES]).map(|_| ())
        }
        Event::Deblocked { component, ctb } => {
            let block = stage.block(component, ctb)?;
            stage.deliver(component, ctb, &samples(component, block))
        }
    }
}

fn filter_what_is_ready<B: Memory>(stage: &mut Stage<B>) -> Outcome {
    for (component, ctb) in ctbs(stage.picture()) {
        match stage.filter(component, ctb) {
            Ok(()) | Err(Refusal::NotReady | Refusal::FilteredBefore) => {}
            Err(refusal) => return Err(refusal),
        }
    }
    Ok(())
}

fn run<B: Memory>(stage: &mut Stage<B>, events: &[Event]) -> Outcome {
    for &event in events {
        hand_in(stage, event)?;
        filter_what_is_ready(stage)?;
    }
    Ok(())
}

fn is_finished<B: Memory>(stage: &Stage<B>) -> bool {
    let finished = |component| stage.finished_count(component) == Ok(stage.sizes().height[component as usize]);
    (0..stage.picture().components()).all(finished)
}

/// Buffers filled with what no call leaves.
fn filled(sizes: &Sizes) -> Buffers {
    let planes = |sample| sizes.samples.map(|length| Plane::from(vec![sample; length]));
    Buffers {
        deblocked: planes(0xAAAA),
        filtered: planes(0xBBBB),
        marks: vec![0xCC; sizes.marks],
        table: vec![0xDD; sizes.table],
    }
}

#[test]
fn owned_or_lent_and_in_either_order_the_planes_are_the_same() -> Outcome {
    for picture in [NINE, FOUR, MONOCHROME, HALF_WIDTH, FULL] {
        let mut owned = Stage::open(picture)?;
        run(&mut owned, &forwards(picture))?;
        assert!(is_finished(&owned));

        let mut buffers = filled(&picture.sizes()?);
        let mut lent = Stage::open_lent(picture, buffers.lend())?;
        run(&mut lent, &backwards(picture))?;
        assert!(is_finished(&lent));

        for (component, place) in [(0, 0), (1, 1), (2, 2)] {
            assert_eq!(owned.deblocked(component), &*buffers.deblocked[place]);
            assert_eq!(owned.filtered(component), &*buffers.filtered[place]);
            // its own planes begin with a cache line
            assert_eq!(
                [owned.deblocked(component), owned.filtered(component)].map(|plane| plane.as_ptr().addr() % 64),
                [0; 2]
            );
            // The filter has changed every plane that is there.
            let there = component < picture.components();
            assert_eq!(owned.filtered(component) != owned.deblocked(component), there);
        }
    }
    Ok(())
}

/// Flat planes, each in another band and moved by another offset.
#[test]
fn every_component_has_its_own_plane_and_set() -> Outcome {
    let mut stage = Stage::open(Picture { width: 8, height: 8, luma_depth: 8, chroma_depth: 8, ..NINE })?;
    let set =
        CtuSet { luma: band(40 / 8, [1, 0, 0, 0]), cb: band(80 / 8, [2, 0, 0, 0]), cr: band(120 / 8, [3, 0, 0, 0]) };
    stage.write(&set, &mut [0; BINS_BYTES])?;
    for (component, level, moved) in [(2, 120, 123), (0, 40, 41), (1, 80, 82)] {
        let length = stage.block(component, 0)?.samples();
        stage.deliver(component, 0, &vec![level; length])?;
        stage.filter(component, 0)?;
        assert_eq!(stage.deblocked(component), vec![level; length]);
        assert_eq!(stage.finished_rows(component)?, vec![moved; length]);
    }
    Ok(())
}

#[test]
fn a_stage_is_opened_again_for_the_next_picture() -> Outcome {
    let mut stage = Stage::open(NINE)?;
    run(&mut stage, &forwards(NINE))?;
    let first = stage.filtered(0).to_vec();
    stage.reopen();
    assert_eq!((stage.next_ctu(), stage.finished_count(0)?), (0, 0));
    run(&mut stage, &backwards(NINE))?;
    assert_eq!(stage.filtered(0), first);
    assert_eq!((stage.next_ctu(), stage.picture(), stage.sizes()), (9, NINE, NINE.sizes()?));
    Ok(())
}

#[test]
fn the_finished_rows_lead_the_plane() -> Outcome {
    let mut stage = Stage::open(NINE)?;
    assert_eq!(stage.finished_rows(2)?, [0; 0]);
    // Without Cr's last block its neighbours wait too, and Cr is finished down to the first of them.
    let events = forwards(NINE);
    run(&mut stage, &events[..events.len() - 1])?;
    assert_eq!([0, 1, 2].map(|component| stage.finished_count(component)), [Ok(40), Ok(20), Ok(8)]);
    assert_eq!(stage.finished_rows(1)?, stage.filtered(1));
    assert_eq!(stage.finished_rows(2)?, &stage.filtered(2)[..8 * 20]);
    Ok(())
}

// Buffers in and out.

/// Where each buffer lies.
fn places(buffers: &Buffers) -> [usize; 8] {
    let [y, cb, cr] = buffers.deblocked.each_ref().map(|plane| plane.as_ptr().addr());
    let [out_y, out_cb, out_cr] = buffers.filtered.each_ref().map(|plane| plane.as_ptr().addr());
    [y, cb, cr, out_y, out_cb, out_cr, buffers.marks.as_ptr().addr(), buffers.table.as_ptr().addr()]
}

#[test]
fn buffers_are_moved_in_and_out() -> Outcome {
    for mut buffers in [filled(&NINE.sizes()?), Buffers::zeros(&NINE.sizes()?)] {
        let places_before = places(&buffers);
        // What is in them does not matter, that of an earlier picture least of all.
        for events in [forwards(NINE), backwards(NINE)] {
            let mut stage = Stage::open_in(NINE, buffers)?;
            assert_eq!((stage.next_ctu(), stage.finished_count(0)?), (0, 0));
            run(&mut stage, &events)?;
            assert!(is_finished(&stage));
            buffers = stage.into_buffers();
        }
        assert_eq!(places(&buffers), places_before);
        let mut stage = Stage::open(NINE)?;
        run(&mut stage, &forwards(NINE))?;
        assert!(stage.into_buffers() == buffers, "the buffers hold another picture");
    }
    Ok(())
}

/// Finished planes go, others take their place.
#[test]
fn finished_planes_are_kept_while_the_next_picture_is_under_way() -> Outcome {
    let mut stage = Stage::open(FOUR)?;
    run(&mut stage, &forwards(FOUR))?;
    let buffers = stage.into_buffers();
    let finished = buffers.filtered;
    let unused = FOUR.sizes()?.samples.map(Plane::zeros);
    let mut next = Stage::open_in(FOUR, Buffers { filtered: unused, ..buffers })?;
    run(&mut next, &backwards(FOUR))?;
    assert!(next.into_buffers().filtered == finished);
    Ok(())
}

#[test]
fn lent_buffers_come_out_as_they_were_lent() -> Outcome {
    let mut buffers = filled(&FOUR.sizes()?);
    let before = places(&buffers);
    let stage = Stage::open_lent(FOUR, buffers.lend())?;
    // Another description may have the same lengths.
    let lent: Lent = stage.into_buffers();
    let mut stage = Stage::open_lent(Picture { luma: false, chroma: false, ..FOUR }, lent)?;
    assert_eq!(stage.read(&[], 0), Ok(CtuSet::OFF));
    assert_eq!(places(&buffers), before);
    Ok(())
}

#[test]
fn a_plane_is_a_slice_that_begins_with_a_cache_line() {
    for length in [0, 1, 31, 32, 33, 4096] {
        let zeros = Plane::zeros(length);
        assert_eq!((zeros.to_vec(), zeros.as_ptr().addr() % 64), (vec![0; length], 0));

        // A vector's samples stay where they are, on the way in and on the way out.
        let samples: Vec<u16> = (1..).take(length).collect();
        let (place, expected) = (samples.as_ptr(), samples.clone());
        let plane = Plane::from(samples);
        let copy = plane.clone();
        assert_eq!((copy == plane, copy.as_ptr().addr() % 64), (true, 0));
        assert_eq!(plane == zeros, length == 0);
        let samples = Vec::from(plane);
        assert_eq!((samples.as_ptr(), &samples), (place, &expected));
        assert_eq!(Vec::from(copy), expected);
    }
    assert_eq!(Plane::default().len(), 0);
    assert_eq!(format!("{:?}", Plane::zeros(960)), "Plane { len: 960, .. }");
}

// Threads.

/// Compiles for what may be handed to another thread, and looked at by several.
fn goes_to_threads<T: Send + Sync>() {}

#[test]
fn stages_and_buffers_go_to_threads() {
    goes_to_threads::<(Stage<Lent<'_>>, Lent<'_>)>();
    goes_to_threads::<(Stage, Buffers, Plane, Refused)>();
    goes_to_threads::<(Picture, State, Sizes, Block, Rows, CtuSet, Refusal)>();
}

#[test]
fn several_threads_look_at_one_picture() -> Outcome {
    let mut buffers = filled(&FOUR.sizes()?);
    let mut stage = Stage::open_lent(FOUR, buffers.lend())?;
    run(&mut stage, &forwards(FOUR))?;
    let counts = std::thread::scope(|scope| {
        let ask = |component| {
            scope.spawn({
                let stage = &stage;
                move || stage.finished_count(component)
            })
        };
        [0, 1, 2].map(ask).map(|thread| thread.join().unwrap_or(Err(Refusal::Stored)))
    });
    assert_eq!(counts, [Ok(32), Ok(16), Ok(16)]);
    Ok(())
}

#[test]
fn a_stage_may_go_to_another_thread() -> Outcome {
    let mut stage = Stage::open(FOUR)?;
    let handed = std::thread::scope(|scope| scope.spawn(|| run(&mut stage, &forwards(FOUR))).join());
    assert!(handed.is_ok_and(|outcome| outcome.is_ok()) && is_finished(&stage));
    Ok(())
}

// Depths.

/// One CTU with a luma and a chroma depth.
fn of_depths(luma_depth: u8, chroma_depth: u8) -> Picture {
    Picture { width: 8, height: 8, luma_depth, chroma_depth, ..NINE }
}

/// Samples at the end of the component's range, of which band 31 is raised by the largest offset: the band's width, M, the
/// shift and the upper limit are the component's own.
#[test]
fn every_component_is_filtered_by_its_own_depth() -> Outcome {
    for picture in (8..=16).flat_map(|luma| (8..=16).map(move |chroma| of_depths(luma, chroma))) {
        let raised = [0, 1, 2].map(|component| band(31, [largest(picture.depth(component)), 0, 0, 0]));
        let mut stage = Stage::open(picture)?;
        stage.write(&CtuSet { luma: raised[0], cb: raised[1], cr: raised[2] }, &mut [0; BINS_BYTES])?;
        for component in 0..3 {
            let depth = picture.depth(component);
            let (top, offset) = (u16::MAX >> (16 - depth), largest(depth) as u16 * (1 << depth.saturating_sub(10)));
            // The last sample of band 30, the first of band 31, and samples that the upper limit stops.
            let first = top - (top >> 5);
            let mut samples = vec![top - 1; stage.block(component, 0)?.samples()];
            samples[..2].copy_from_slice(&[first - 1, first]);
            stage.deliver(component, 0, &samples)?;
            stage.filter(component, 0)?;
            let finished = stage.finished_rows(component)?;
            assert_eq!(finished[..2], [first - 1, first + offset], "{picture:?} {component}");
            assert!(finished[2..].iter().all(|sample| *sample == top), "{picture:?} {component}");
        }
    }
    Ok(())
}

#[test]
fn a_delivered_sample_is_judged_by_its_components_depth() -> Outcome {
    for (luma, chroma) in (8..16).flat_map(|luma| (8..16).map(move |chroma| (luma, chroma))) {
        let mut stage = Stage::open(of_depths(luma, chroma))?;
        for (component, depth) in [(0, luma), (1, chroma), (2, chroma)] {
            let mut samples = vec![0; stage.block(component, 0)?.samples()];
            samples[0] = 1 << depth;
            assert_eq!(stage.deliver(component, 0, &samples), Err(Refusal::SampleTooLarge));
            samples[0] -= 1;
            assert_eq!(stage.deliver(component, 0, &samples), Ok(()));
        }
    }
    Ok(())
}

/// In monochrome chroma's depth is luma's; with chroma, it is any.
#[test]
fn in_monochrome_there_is_one_depth() {
    for (luma, chroma) in (7..=17).flat_map(|luma| (7..=17).map(move |chroma| (luma, chroma))) {
        let with_chroma = of_depths(luma, chroma);
        let monochrome = Picture { format: ChromaFormat::Monochrome, chroma: false, ..with_chroma };
        let within = [luma, chroma].iter().all(|depth| (8..=16).contains(depth));
        assert_eq!(with_chroma.sizes().is_ok(), within, "{luma} {chroma}");
        assert_eq!(monochrome.sizes().is_ok(), within && luma == chroma, "{luma} {chroma}");
    }
}

// Formats.

/// The sizes of chroma by document 02's words: half width and full height in 4:2:2, luma's own in 4:4:4; and of the CTBs
/// in the corners.
#[test]
fn planes_and_ctbs_go_by_the_format() -> Outcome {
    let corners = |picture: Picture| [0, 2, 6, 8].map(|ctb| picture.block(1, ctb));
    let place = |x0, x1, y0, y1| Ok(Block { x0, x1, y0, y1 });

    let sizes = HALF_WIDTH.sizes()?;
    assert_eq!((sizes.width, sizes.height, sizes.samples), ([40, 20, 20], [40; 3], [1600, 800, 800]));
    let expected = [place(0, 8, 0, 16), place(16, 20, 0, 16), place(0, 8, 32, 40), place(16, 20, 32, 40)];
    assert_eq!(corners(HALF_WIDTH), expected);

    let sizes = FULL.sizes()?;
    assert_eq!((sizes.width, sizes.height, sizes.samples), ([40; 3], [40; 3], [1600; 3]));
    assert_eq!(corners(FULL), [0, 2, 6, 8].map(|ctb| FULL.block(0, ctb)));

    // Every format has as many CTBs in chroma as in luma.
    assert_eq!(
        [HALF_WIDTH, FULL].map(|picture| picture.sizes().map(|sizes| (sizes.ctus, sizes.marks))),
        [Ok((9, 27)); 2]
    );
    Ok(())
}

#[test]
fn formats_have_the_standards_names_and_numbers() {
    let named = ChromaFormat::ALL.map(|format| (u32::from(format), format.to_string()));
    assert_eq!(named, [(0, "monochrome"), (1, "4:2:0"), (2, "4:2:2"), (3, "4:4:4")].map(|(n, name)| (n, name.into())));
    for number in 0..=300 {
        let format = ChromaFormat::try_from(number);
        assert_eq!(format.map(u32::from), if number <= 3 { Ok(number) } else { Err(Refusal::Description) });
    }
    assert_eq!(ChromaFormat::try_from(u32::MAX), Err(Refusal::Description));
    assert_eq!(format!("{:>6}|", ChromaFormat::Chroma422), " 4:2:2|");
}

// Refusals.

#[test]
fn opening_is_refused() {
    let wrong = [
        Picture { width: 41, ..NINE },
        Picture { height: 8200, ..NINE },
        Picture { ctb: 8, ..NINE },
        Picture { luma_depth: 17, ..NINE },
        Picture { chroma_depth: 7, ..NINE },
        Picture { luma_depth: 8, ..MONOCHROME },
        Picture { format: ChromaFormat::Monochrome, ..NINE },
    ];
    for picture in wrong {
        assert_eq!(Stage::open(picture).err(), Some(Refusal::Description));
        assert_eq!(picture.block(3, 0), Err(Refusal::Description));
        // The description is judged before any length.
        let mut buffers = filled(&Sizes::default());
        assert_eq!(Stage::open_lent(picture, buffers.lend()).err(), Some(Refusal::Description));
        let refused = Stage::open_in(picture, buffers.clone()).err();
        assert_eq!(refused, Some(Refused { refusal: Refusal::Description, buffers: buffers.into() }));
    }
}

#[test]
fn every_lent_buffer_must_have_its_length() -> Outcome {
    let damages: [fn(&mut Buffers); 6] = [
        |buffers| buffers.deblocked[0] = Plane::zeros(7),
        |buffers| buffers.deblocked[2] = Plane::zeros(401),
        |buffers| buffers.filtered[0] = Plane::zeros(1601),
        |buffers| buffers.filtered[1] = Plane::default(),
        |buffers| buffers.marks.truncate(26),
        |buffers| buffers.table.push(0),
    ];
    for damage in damages {
        let mut buffers = filled(&NINE.sizes()?);
        damage(&mut buffers);
        let before = buffers.clone();
        assert_eq!(Stage::open_lent(NINE, buffers.lend()).err(), Some(Refusal::Length));
        assert!(buffers == before, "a refused call changed a buffer");
        let refused = Refused { refusal: Refusal::Length, buffers: before.into() };
        assert_eq!(refused.to_string(), Refusal::Length.to_string());
        assert_eq!(Stage::open_in(NINE, buffers).err(), Some(refused));
    }
    Ok(())
}

/// Calls that are refused when CTUs 0 and 1 have their sets and luma's blocks 0 to 5 are there, of which 0 and 1 are
/// then filtered.
fn refused_in_the_middle<B: Memory>(stage: &mut Stage<B>) {
    refused_sets(stage);
    for (component, ctb) in [(3, 0), (256, 0), (u32::MAX, 0), (0, 9), (2, u32::MAX)] {
        assert_eq!(stage.block(component, ctb), Err(Refusal::NoSuchBlock));
        assert_eq!(stage.deliver(component, ctb, &[]), Err(Refusal::NoSuchBlock));
        assert_eq!(stage.filter(component, ctb), Err(Refusal::NoSuchBlock));
    }
    assert_eq!(stage.finished_rows(3), Err(Refusal::NoSuchBlock));
    assert_eq!(stage.finished_count(u32::MAX), Err(Refusal::NoSuchBlock));

    assert_eq!(stage.deliver(0, 6, &[0; 127]), Err(Refusal::Length));
    assert_eq!(stage.deliver(0, 0, &[0; 256]), Err(Refusal::DeliveredBefore));
    assert_eq!(stage.deliver(0, 3, &[0; 256]), Err(Refusal::DeliveredBefore));
    assert_eq!(stage.deliver(0, 6, &[1024; 128]), Err(Refusal::SampleTooLarge));

    assert_eq!(stage.filter(0, 0), Err(Refusal::FilteredBefore));
    // Luma's block 2 waits for its set alone, Cb's block 0 for blocks alone.
    assert_eq!(stage.filter(0, 2), Err(Refusal::NotReady));
    assert_eq!(stage.filter(1, 0), Err(Refusal::NotReady));
}

/// CTU 2 has a left neighbour, and none above.
fn refused_sets<B: Memory>(stage: &mut Stage<B>) {
    assert_eq!(stage.read(&[0], 9), Err(Refusal::CountTooLarge));
    assert_eq!(stage.read(&[], usize::MAX), Err(Refusal::CountTooLarge));
    assert_eq!(stage.read(&[], 0), Err(Refusal::TooEarly));
    assert_eq!(stage.read(&[0b0100_0000], 1), Err(Refusal::TooEarly));
    assert_eq!(stage.read(&[0b1000_0000], 2), Err(Refusal::BinsRemain));

    let mut room = [0x55; BINS_BYTES];
    let outside = [
        CtuSet { luma: band(32, [0; 4]), ..CtuSet::OFF },
        CtuSet { luma: band(0, [0, 0, 32, 0]), ..CtuSet::OFF },
        CtuSet { luma: edge(0, [0, -1, 0, 0]), ..CtuSet::OFF },
        CtuSet { cb: edge(1, [0; 4]), cr: edge(2, [0; 4]), ..CtuSet::OFF },
    ];
    for set in outside {
        assert_eq!(stage.write(&set, &mut room), Err(Refusal::NoBins), "{set}");
    }
    let long = CtuSet { luma: band(0, [31; 4]), ..CtuSet::OFF };
    assert_eq!(stage.write(&long, &mut room[..2]), Err(Refusal::NoRoom));
    assert_eq!(room, [0x55; BINS_BYTES]);
}

/// What a stage shows of itself.
fn seen<B: Memory>(stage: &Stage<B>) -> (u32, Vec<Vec<u16>>, Vec<Result<usize, Refusal>>) {
    let planes = (0..3).flat_map(|component| [stage.deblocked(component), stage.filtered(component)]);
    let counts = (0..3).map(|component| stage.finished_count(component));
    (stage.next_ctu(), planes.map(<[u16]>::to_vec).collect(), counts.collect())
}

/// A whole picture on these buffers, with or without refused calls among the accepted ones.
fn whole_picture(buffers: &mut Buffers, with_refused: bool) -> Outcome {
    let mut stage = Stage::open_lent(NINE, buffers.lend())?;
    let (sets, blocks) = (sets_in_order(NINE), blocks_in_order(NINE));
    run(&mut stage, &[&sets[..2], &blocks[..6]].concat())?;
    if with_refused {
        let before = seen(&stage);
        refused_in_the_middle(&mut stage);
        assert!(seen(&stage) == before, "a refused call changed the stage");
    }
    run(&mut stage, &[&sets[2..], &blocks[6..]].concat())?;
    if with_refused {
        assert_eq!(stage.read(&[], 0), Err(Refusal::AllRead));
        assert_eq!(stage.write(&CtuSet::OFF, &mut [0]), Err(Refusal::AllRead));
    }
    Ok(())
}

#[test]
fn a_refused_call_changes_nothing() -> Outcome {
    let mut with_refused = filled(&NINE.sizes()?);
    let mut without = with_refused.clone();
    whole_picture(&mut with_refused, true)?;
    whole_picture(&mut without, false)?;
    assert!(with_refused == without, "the refused calls left a trace");
    Ok(())
}

/// A stage keeps what it stores to itself; where the caller keeps it, it can be damaged, and the calls say so.
#[test]
fn damaged_buffers_are_refused() -> Outcome {
    let sizes = MONOCHROME.sizes()?;
    let Buffers { mut deblocked, filtered, mut marks, mut table } = filled(&sizes);
    let filtered = filtered.each_ref().map(|plane| &**plane);
    let mut state = MONOCHROME.state();
    calls::open(&mut state, &mut marks)?;
    assert_eq!(calls::finished_rows(&state, 0, filtered, &marks), Ok(Rows { rows: 0, samples: 0 }));

    let mut ahead = State { next: 10, ..state };
    assert_eq!(calls::read(&mut ahead, &[0], 1, &mut table), Err(Refusal::Stored));
    assert_eq!(calls::write(&mut ahead, &CtuSet::OFF, &mut [0], &mut table), Err(Refusal::Stored));
    assert_eq!((ahead, table), (State { next: 10, ..state }, filled(&sizes).table));

    marks[8] = 3;
    let planes = deblocked.each_mut().map(|plane| &mut **plane);
    assert_eq!(calls::deliver(&state, 0, 8, &[0; 64], planes, &mut marks), Err(Refusal::Stored));
    assert_eq!(calls::finished_rows(&state, 0, filtered, &marks), Err(Refusal::Stored));
    assert_eq!(deblocked, filled(&sizes).deblocked);

    // A state may hold numbers that no description has.
    assert_eq!(calls::sizes(&State { format: 4, ..state }), Err(Refusal::Description));
    assert_eq!(calls::sizes(&State { format: 256, ..state }), Err(Refusal::Description));
    assert_eq!(calls::sizes(&State { luma: 2, ..state }), Err(Refusal::Description));
    Ok(())
}

#[test]
fn the_linked_stage_has_the_packages_version() {
    let (major, minor) = steamgusset::version();
    assert_eq!(steamgusset::ffi::sg_version(), major * 65536 + minor);
    assert_eq!(format!("{major}.{minor}.{}", env!("CARGO_PKG_VERSION_PATCH")), env!("CARGO_PKG_VERSION"));
    assert_eq!(steamgusset::VERSION, (major, minor));
}

#[test]
fn a_refusal_is_its_number() {
    for (refusal, number) in Refusal::ALL.into_iter().zip(1..) {
        assert_eq!((refusal.number(), Refusal::from_number(number)), (number, Some(refusal)));
        assert_eq!(refusal.to_string(), format!("refused {number}: {}", refusal.reason()));
    }
    assert!(Refusal::ALL.is_sorted());
    assert_eq!([0, 15, u32::MAX].map(Refusal::from_number), [None; 3]);
    assert_eq!(Refusal::TooEarly.to_string(), "refused 5: the bins end too early");
}

// Sets.

/// Sets that have every value in every place of their bytes.
fn many_sets() -> impl Iterator<Item = CtuSet> {
    (0..=u8::MAX).flat_map(|value| {
        let offsets = [0, 1, 64, 65].map(|more| value.wrapping_add(more).cast_signed());
        let parts = [Offsets::Off, band(value, offsets), edge(value, offsets)];
        let chroma = move |luma| parts.into_iter().map(move |cb| CtuSet { luma, cb, cr: parts[1] });
        parts.into_iter().flat_map(chroma)
    })
}

#[test]
fn a_set_is_its_bytes() {
    for set in many_sets() {
        assert_eq!(CtuSet::from_bytes(&set.to_bytes()), Some(set));
    }
    assert_eq!(CtuSet::default(), CtuSet::OFF);
    assert_eq!(CtuSet::OFF.to_bytes(), [0; SET_BYTES]);
    assert_eq!(CtuSet { cr: edge(3, [7, 0, -1, -128]), ..CtuSet::OFF }.to_bytes()[12..], [2, 3, 135, 128, 127, 0]);
}

/// Bytes that encode a set encode no other; an off component has one encoding.
#[test]
fn other_bytes_are_no_set() {
    for (place, value) in (0..SET_BYTES).flat_map(|place| (0..=u8::MAX).map(move |value| (place, value))) {
        let mut bytes = [0; SET_BYTES];
        bytes[place] = value;
        let set = CtuSet::from_bytes(&bytes);
        assert_eq!(set.is_some(), value == 0 || (place.is_multiple_of(6) && value <= 2));
        assert!(set.is_none_or(|set| set.to_bytes() == bytes));
    }
}

/// Off, band or edge with one magnitude everywhere.
fn uniform(kind: usize, magnitude: i8) -> Offsets {
    [Offsets::Off, band(31, [-magnitude; 4]), edge(3, [magnitude, magnitude, -magnitude, -magnitude])][kind]
}

/// A set that has one type in luma and one in chroma, and one magnitude in each.
fn uniform_set((luma, chroma): (usize, usize), [in_luma, in_chroma]: [i8; 2]) -> CtuSet {
    let (luma, chroma) = (uniform(luma, in_luma), uniform(chroma, in_chroma));
    CtuSet { luma, cb: chroma, cr: chroma }
}

/// The most bins of a CTU: two merge flags; two for each type, which Cr does not have; and for each component four
/// magnitudes of M, four signs and five for the position.
fn most_bins([in_luma, in_chroma]: [i8; 2]) -> usize {
    let component = |most: i8| 4 * most as usize + 4 + 5;
    2 + (2 + component(in_luma)) + (2 + component(in_chroma)) + component(in_chroma)
}

/// A stage whose next CTU has both neighbours, with sets that are off.
fn last_of_four((luma_depth, chroma_depth): (u8, u8)) -> Result<Stage, Refusal> {
    let mut stage = Stage::open(Picture { luma_depth, chroma_depth, ..FOUR })?;
    for _ in 0..3 {
        stage.write(&CtuSet::OFF, &mut [0])?;
    }
    Ok(stage)
}

/// Writes the set in the last of four CTUs, reads it there from its bins, and answers their number.
fn written_and_read(depths: (u8, u8), set: &CtuSet) -> Result<usize, Refusal> {
    let mut bins = [0; BINS_BYTES];
    let count = last_of_four(depths)?.write(set, &mut bins)?;
    assert_eq!(last_of_four(depths)?.read(&bins[..count.div_ceil(8)], count), Ok(*set));
    Ok(count)
}

/// M.
fn largest(depth: u8) -> i8 {
    match depth {
        8 => 7,
        9 => 15,
        _ => 31,
    }
}

/// The most bins that are written at these depths. Each part of the bins has its length from one value alone, so the
/// longest are found with one type in each of luma and chroma and one magnitude in each, both growing together.
fn longest(depths: (u8, u8)) -> Result<usize, Refusal> {
    let largest = [largest(depths.0), largest(depths.1)];
    let mut longest = 0;
    for (types, magnitude) in (0..9).flat_map(|types| (0..=31).map(move |magnitude| (types, magnitude))) {
        let set = uniform_set((types / 3, types % 3), largest.map(|largest| largest.min(magnitude)));
        longest = longest.max(written_and_read(depths, &set)?);
    }
    Ok(longest)
}

#[test]
fn the_longest_bins_fit() -> Outcome {
    for depths in (8..=16).flat_map(|luma| (8..=16).map(move |chroma| (luma, chroma))) {
        let [in_luma, in_chroma] = [largest(depths.0), largest(depths.1)];
        assert_eq!(longest(depths)?, most_bins([in_luma, in_chroma]), "{depths:?}");
        // A magnitude above the component's own M has no bins, whatever the other's is.
        for beyond in [[in_luma + 1, in_chroma], [in_luma, in_chroma + 1]] {
            assert_eq!(written_and_read(depths, &uniform_set((1, 1), beyond)), Err(Refusal::NoBins), "{depths:?}");
        }
    }
    let known = [((8, 8), 117), ((10, 8), 213), ((8, 10), 309), ((10, 10), 405)];
    for (depths, bins) in known {
        assert_eq!(longest(depths), Ok(bins), "{depths:?}");
    }
    assert_eq!(BINS_BYTES, 405_usize.div_ceil(8));
    let bands = uniform_set((1, 1), [31; 2]);
    assert_eq!(last_of_four((10, 10))?.write(&bands, &mut [0; BINS_BYTES - 1]), Err(Refusal::NoRoom));
    assert_eq!(last_of_four((10, 10))?.write(&bands, &mut [0; BINS_BYTES]), Ok(405));
    Ok(())
}
