//! Document 01's "slips that look right": for each the right answer, at a place where the slip gives another.

mod common;

use common::{MONOCHROME, NINE, band, edge, filter_row};
use second::bins::{self, Form, Reading};
use second::{ComponentSet, CtuSet, Picture, filter_picture};

#[test]
fn neighbours_are_deblocked_samples() {
    // Compared with the second sample's new 5, the third would be no peak of any kind and stay 5.
    let filtered = filter_row(edge(0, [2, 1, -1, -2]), &[5, 3, 5, 5, 6, 6, 4, 4]);
    assert_eq!(filtered[2], 4);
}

#[test]
fn the_four_bands_wrap_around() {
    // Bands 30, 31, 0, 1: sample 8 lies in band 1.
    let set = band(30, [0, -3, 0, 1]);
    assert_eq!(filter_row(set, &[8, 248, 0, 16, 8, 8, 8, 8])[..4], [9, 245, 0, 16]);
}

#[test]
fn categories_are_renumbered() {
    // The second to the sixth sample have the sums -2, 1, 0, -1, 2, so their categories are 1, 3, 0, 2, 4.
    let filtered = filter_row(edge(0, [1, 2, -3, -4]), &[9, 5, 8, 8, 8, 9, 2, 2]);
    assert_eq!(filtered[1..6], [5 + 1, 8 - 3, 8, 8 + 2, 9 - 4]);
}

#[test]
fn cr_shares_type_and_class_alone() {
    let both = Picture { luma: false, ..NINE };
    let of = |cb, cr| CtuSet { luma: ComponentSet::Off, cb, cr };
    let bands = of(band(5, [1, 0, 0, 0]), band(9, [0, 0, 0, -2]));
    let edges = of(edge(3, [1, 0, 0, 0]), edge(3, [0, 0, 0, -2]));
    let tables = [
        (bands, "10".to_string() + "10000" + "0" + "00101" + "000110" + "1" + "01001"),
        (edges, "11".to_string() + "10000" + "11" + "000110"),
    ];
    for (set, said) in tables {
        assert_eq!(bins::written(&both, None, None, &set), Some(said.clone()));
        assert_eq!(bins::read(&both, false, false, &said), Reading::Whole(Form::Full(set)));
    }
}

#[test]
fn ctb_edges_are_not_picture_edges() {
    // A step between two CTBs: the samples on both sides of it have their category, those at the border have none.
    let picture = Picture { width: 32, ..MONOCHROME };
    let row: Vec<u16> = (0..32).map(|x| if x < 16 { 10 } else { 20 }).collect();
    let set = CtuSet::of_luma(edge(0, [0, 3, -4, 0]));
    let filtered = filter_picture(&picture, &[set; 2], [&row.repeat(8), &[], &[]]);
    assert_eq!(filtered[0][14..18], [10, 13, 16, 20]);
    assert_eq!(filter_row(edge(0, [0, 3, -4, 0]), &row)[14..18], [10, 13, 16, 20]);
}

#[test]
fn a_magnitude_of_0_has_no_sign_bin() {
    let set = CtuSet::of_luma(band(5, [0, 2, 0, 0]));
    let said = "10".to_string() + "0" + "110" + "0" + "0" + "0" + "00101";
    assert_eq!(bins::written(&MONOCHROME, None, None, &set), Some(said.clone()));
    assert_eq!(bins::read(&MONOCHROME, false, false, &said), Reading::Whole(Form::Full(set)));
}
