//! Finished rows of pictures with many CTBs, beside the second program. The archive looks at many marks together, so the
//! first CTB that is not filtered, and a mark that no call leaves, are tried at every place.

use second::random::Random;
use second::{Picture, stage};
use steamgusset::{State, calls};

/// CTB columns and rows: below, at and above the number of marks that are looked at together; one column, one row, and
/// columns that do not divide it. In 4:2:0, 4:2:2 and 4:4:4, which have chroma rows of two heights.
const GRIDS: [(u32, u32, u8); 7] = [(1, 1, 2), (9, 7, 1), (8, 8, 2), (1, 65, 3), (130, 1, 1), (13, 13, 2), (30, 17, 3)];

const FILTERED: u8 = 2;

/// A picture of so many CTBs, the last ones cut short.
fn picture((columns, rows, format): (u32, u32, u8)) -> Picture {
    let (width, height, luma, chroma) = (16 * columns - 8, 16 * rows - 8, true, true);
    Picture { width, height, ctb: 16, format, luma_depth: 8, chroma_depth: 8, luma, chroma }
}

fn state(picture: &Picture) -> State {
    let Picture { width, height, ctb, format, .. } = *picture;
    State { width, height, ctb, format: format.into(), luma_depth: 8, chroma_depth: 8, luma: 1, chroma: 1, next: 0 }
}

/// Both sides of the marks of one component.
struct Asked {
    picture: Picture,
    planes: [Vec<u16>; 3],
    component: usize,
}

impl Asked {
    fn new(picture: Picture, component: usize) -> Asked {
        let plane = |of: usize| vec![0; picture.plane_width(of) * picture.plane_height(of)];
        Asked { picture, planes: [plane(0), plane(1), plane(2)], component }
    }

    /// The marks: all filtered, and those of the component from a place on as they are said.
    fn marks(&self, from: usize, mut said: impl FnMut() -> u8) -> Vec<u8> {
        let mut marks = vec![FILTERED; self.picture.marks()];
        let own = self.picture.mark_place(self.component, 0);
        marks[own + from..own + self.picture.ctus()].iter_mut().for_each(|mark| *mark = said());
        marks
    }

    fn agree(&self, marks: &[u8]) {
        let planes = [&self.planes[0][..], &self.planes[1], &self.planes[2]];
        let ours = calls::finished_rows(&state(&self.picture), self.component as u32, planes, marks);
        let ours = ours.map(|finished| finished.rows).map_err(|refusal| refusal.number());
        let second = second::State { picture: self.picture, next: 0 };
        let theirs =
            stage::finished_rows(second, self.component as u8, planes, marks).map_err(|refusal| u32::from(refusal.0));
        assert_eq!(ours, theirs, "{:?}, component {}: {marks:?}", self.picture, self.component);
    }
}

/// The pictures, each of its components.
fn all() -> impl Iterator<Item = Asked> {
    let components = |grid| (0..3).map(move |component| Asked::new(picture(grid), component));
    GRIDS.into_iter().flat_map(components)
}

#[test]
fn the_first_unfiltered_ctb_is_found_at_every_place() {
    let mut random = Random::new(14);
    for asked in all() {
        for first in 0..=asked.picture.ctus() {
            asked.agree(&asked.marks(first, || 1));
            asked.agree(&asked.marks(first, || 0));
            asked.agree(&asked.marks(first, || random.below(3) as u8));
        }
    }
}

#[test]
fn a_mark_above_two_is_found_at_every_place() {
    let mut random = Random::new(15);
    for asked in all() {
        let (ctus, own) = (asked.picture.ctus(), asked.picture.mark_place(asked.component, 0));
        for place in 0..ctus {
            let first = random.below(ctus + 1);
            let mut marks = asked.marks(first, || random.below(3) as u8);
            marks[own + place] = 3 + random.below(253) as u8;
            asked.agree(&marks);
        }
    }
}

#[test]
fn a_mark_of_another_component_does_not_count() {
    for asked in all() {
        let own = asked.picture.mark_place(asked.component, 0);
        let mut marks = vec![255; asked.picture.marks()];
        marks[own..own + asked.picture.ctus()].fill(FILTERED);
        asked.agree(&marks);
    }
}
