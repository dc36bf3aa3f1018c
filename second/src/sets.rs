//! Parameter sets and what it means for one to be within the rules.
//!
//! Method: a set is within the rules exactly if it can be said in the full form, so the rules are read off the bins of
//! document 01: what no type, magnitude, sign, position or class can say is outside.

use crate::picture::Picture;

/// One component's set; offsets as coded, before the multiplication. Values outside the rules can be made and judged.
#[derive(Clone, Copy, Debug, PartialEq, Eq)]
pub enum ComponentSet {
    Off,
    Band { position: u8, offsets: [i8; 4] },
    Edge { class: u8, offsets: [i8; 4] },
}

/// One CTU's parameter set.
#[derive(Clone, Copy, Debug, PartialEq, Eq)]
pub struct CtuSet {
    pub luma: ComponentSet,
    pub cb: ComponentSet,
    pub cr: ComponentSet,
}

impl ComponentSet {
    /// H.265's SaoTypeIdx.
    pub fn type_index(&self) -> u8 {
        match self {
            ComponentSet::Off => 0,
            ComponentSet::Band { .. } => 1,
            ComponentSet::Edge { .. } => 2,
        }
    }

    /// Its offsets; off has four zeros.
    pub fn offsets(&self) -> [i8; 4] {
        match *self {
            ComponentSet::Off => [0; 4],
            ComponentSet::Band { offsets, .. } | ComponentSet::Edge { offsets, .. } => offsets,
        }
    }
}

impl CtuSet {
    pub const OFF: CtuSet = CtuSet::of([ComponentSet::Off; 3]);

    pub const fn of([luma, cb, cr]: [ComponentSet; 3]) -> CtuSet {
        CtuSet { luma, cb, cr }
    }

    /// A set of luma alone.
    pub const fn of_luma(luma: ComponentSet) -> CtuSet {
        CtuSet::of([luma, ComponentSet::Off, ComponentSet::Off])
    }

    pub const fn components(&self) -> [ComponentSet; 3] {
        [self.luma, self.cb, self.cr]
    }

    /// Whether the full form can say this set.
    pub fn within_rules(&self, picture: &Picture) -> bool {
        let sets = self.components();
        (0..3).all(|component| component_within_rules(picture, component, &sets[component]))
            && shares_with_cb(&self.cb, &self.cr)
    }
}

fn component_within_rules(picture: &Picture, component: usize, set: &ComponentSet) -> bool {
    let most = i64::from(picture.largest_magnitude(component));
    let sayable = set.offsets().iter().all(|&offset| i64::from(offset).abs() <= most);
    match *set {
        ComponentSet::Off => true,
        ComponentSet::Band { position, .. } => picture.switch(component) && sayable && position <= 31,
        ComponentSet::Edge { class, offsets } => {
            picture.switch(component) && sayable && class <= 3 && edge_signs(&offsets)
        }
    }
}

/// Edge signs are not coded: the first two offsets are not negative, the last two not positive.
fn edge_signs(offsets: &[i8; 4]) -> bool {
    offsets[0] >= 0 && offsets[1] >= 0 && offsets[2] <= 0 && offsets[3] <= 0
}

/// Cr takes Cb's type and, for edge, its class; offsets and position are its own.
fn shares_with_cb(cb: &ComponentSet, cr: &ComponentSet) -> bool {
    match (cb, cr) {
        (ComponentSet::Edge { class: of_cb, .. }, ComponentSet::Edge { class: of_cr, .. }) => of_cb == of_cr,
        _ => cb.type_index() == cr.type_index(),
    }
}

#[cfg(test)]
mod tests {
    use super::*;

    /// Every value of every offset of each component, at every pair of depths, beside the range that document 01 gives for
    /// it at the component's own.
    #[test]
    fn every_offset_is_judged() {
        for depths @ [luma, chroma] in Picture::pairs_of_depths() {
            let picture = Picture { format: 1, chroma: true, ..Picture::MONOCHROME }.at_depths(depths);
            for (component, depth) in [luma, chroma, chroma].into_iter().enumerate() {
                let most = [7, 15, 31][usize::from(depth.min(10)) - 8];
                every_offset_of_one(&picture, component, most);
            }
        }
    }

    fn every_offset_of_one(picture: &Picture, component: usize, most: i8) {
        let ranges = [0..=most, 0..=most, -most..=0, -most..=0];
        for (place, value) in (0..4).flat_map(|place| (i8::MIN..=i8::MAX).map(move |value| (place, value))) {
            let mut offsets = [0; 4];
            offsets[place] = value;
            let judged = |set| among_others_like(set, component).within_rules(picture);
            let in_band = (-most..=most).contains(&value);
            assert_eq!(judged(ComponentSet::Band { position: 0, offsets }), in_band);
            assert_eq!(judged(ComponentSet::Edge { class: 0, offsets }), ranges[place].contains(&value));
        }
    }

    /// The component's set beside others of its type whose offsets are 0.
    fn among_others_like(set: ComponentSet, component: usize) -> CtuSet {
        let plain = match set {
            ComponentSet::Edge { class, .. } => ComponentSet::Edge { class, offsets: [0; 4] },
            _ => ComponentSet::Band { position: 0, offsets: [0; 4] },
        };
        CtuSet::of(std::array::from_fn(|other| if other == component { set } else { plain }))
    }
}
