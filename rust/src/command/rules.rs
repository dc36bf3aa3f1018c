//! Which rule a set breaks, in words, where the stage has refused it 12.
//!
//! This is for display alone: whether bins mean a set, the stage says.

use super::run::NAMES;
use steamgusset::{CtuSet, Offsets, Picture, Refusal};

/// The largest magnitude of a component's offsets as coded, M, by the component's own depth.
pub fn largest(picture: &Picture, component: u32) -> u8 {
    (1 << (picture.depth(component).min(10) - 5)) - 1
}

/// The refusal of a set, with the first rule that the set breaks where that is the reason.
pub fn refused(refusal: Refusal, set: &CtuSet, picture: &Picture) -> String {
    match broken(set, picture).filter(|_| refusal == Refusal::NoBins) {
        Some(rule) => format!("{refusal}: {rule}"),
        None => refusal.to_string(),
    }
}

fn broken(set: &CtuSet, picture: &Picture) -> Option<String> {
    let Picture { luma, chroma, .. } = *picture;
    let mut components = (0..).zip(set.components()).zip([luma, chroma, chroma]);
    let own = components.find_map(|((component, offsets), switch)| {
        let rule = if switch { of_component(offsets, largest(picture, component)) } else { of_switched_off(offsets) };
        rule.map(|rule| format!("{} {rule}", NAMES[component as usize]))
    });
    own.or_else(|| of_chroma(set.cb, set.cr))
}

fn of_switched_off(offsets: Offsets) -> Option<String> {
    (offsets != Offsets::Off).then(|| "is on, and its switch is off".into())
}

fn of_component(offsets: Offsets, largest: u8) -> Option<String> {
    let above =
        |what: &str, number: u8, most: u8| (number > most).then(|| format!("has the {what} {number}, above {most}"));
    match offsets {
        Offsets::Off => None,
        Offsets::Band { position, offsets } => {
            above("position", position, 31).or_else(|| of_magnitudes(offsets, largest))
        }
        Offsets::Edge { class, offsets } => {
            above("class", class, 3).or_else(|| of_magnitudes(offsets, largest)).or_else(|| of_signs(offsets))
        }
    }
}

fn of_magnitudes(offsets: [i8; 4], largest: u8) -> Option<String> {
    let offset = offsets.into_iter().find(|offset| offset.unsigned_abs() > largest)?;
    Some(format!("has the offset {offset}, outside -{largest} to {largest}"))
}

/// An edge's signs are not coded.
fn of_signs([one, two, three, four]: [i8; 4]) -> Option<String> {
    let wrong = one.min(two) < 0 || three.max(four) > 0;
    wrong.then(|| "has an edge with a negative offset among the first two, or a positive one among the last two".into())
}

/// Type and class of Cr are not coded: they are Cb's.
fn of_chroma(cb: Offsets, cr: Offsets) -> Option<String> {
    match (cb, cr) {
        (Offsets::Off, Offsets::Off) | (Offsets::Band { .. }, Offsets::Band { .. }) => None,
        (Offsets::Edge { class: cb, .. }, Offsets::Edge { class: cr, .. }) => {
            (cb != cr).then(|| format!("Cr has the class {cr}, and Cb {cb}"))
        }
        _ => Some("Cr has another type than Cb".into()),
    }
}
