//! One CTU's bins explained: the syntax elements of H.265 7.3.8.3 in order, each with its bins and its value.
//!
//! This is for display alone: what the bins mean, and whether they are refused, the stage says.

/// Which elements a CTU has.
pub struct Syntax {
    pub luma: bool,
    pub chroma: bool,
    pub left: bool,
    pub up: bool,
    /// The largest magnitude, M, of luma, Cb and Cr.
    pub largest: [usize; 3],
}

/// One syntax element as it stands in the bins.
#[derive(Debug, PartialEq, Eq)]
pub struct Element {
    pub component: &'static str,
    pub name: String,
    pub bins: String,
    pub value: usize,
    /// What the value means, where the number does not say it.
    pub meaning: &'static str,
}

/// The elements as far as the bins hold them whole.
pub struct Explained {
    pub elements: Vec<Element>,
    /// The bins in which the next element is cut short, or that remain after the last.
    pub rest: String,
    /// Whether the CTU's last element is among them.
    pub whole: bool,
}

/// Explains the bins, given as digits 0 and 1.
pub fn explained(syntax: &Syntax, bins: &str) -> Explained {
    let mut reader = Reader { rest: bins, elements: Vec::new() };
    let whole = reader.ctu(syntax).is_some();
    Explained { elements: reader.elements, rest: reader.rest.into(), whole }
}

/// The first `count` bins of the bytes, as far as there are bytes, from the most significant bit of the first.
pub fn digits(bytes: &[u8], count: usize) -> String {
    let all: String = bytes.iter().map(|byte| format!("{byte:08b}")).collect();
    all.chars().take(count).collect()
}

struct Reader<'a> {
    rest: &'a str,
    elements: Vec<Element>,
}

/// Where an element belongs: component and name.
type Named = (&'static str, String);

impl Reader<'_> {
    /// Nothing where the bins end within an element.
    fn ctu(&mut self, syntax: &Syntax) -> Option<()> {
        if !syntax.luma && !syntax.chroma {
            return Some(());
        }
        if syntax.left && self.merge("sao_merge_left_flag", "the left set is copied")? {
            return Some(());
        }
        if syntax.up && self.merge("sao_merge_up_flag", "the upper set is copied")? {
            return Some(());
        }
        let [luma, cb, cr] = syntax.largest;
        if syntax.luma {
            let kind = self.kind("Y", "sao_type_idx_luma")?;
            self.component("Y", kind, luma, Some("sao_eo_class_luma"))?;
        }
        if syntax.chroma {
            let kind = self.kind("Cb", "sao_type_idx_chroma")?;
            self.component("Cb", kind, cb, Some("sao_eo_class_chroma"))?;
            // Cr takes Cb's type and class.
            self.component("Cr", kind, cr, None)?;
        }
        Some(())
    }

    fn merge(&mut self, name: &str, copied: &'static str) -> Option<bool> {
        let meaning = |value| if value == 1 { copied } else { "" };
        Some(self.fixed(("", name.into()), 1, meaning)? == 1)
    }

    /// 0 "0", 1 "10", 2 "11": a one may follow a one, so these are magnitudes of which 2 is the largest.
    fn kind(&mut self, component: &'static str, name: &str) -> Option<usize> {
        self.ones((component, name.into()), 2, |value| ["off", "band", "edge"][value])
    }

    fn component(
        &mut self,
        component: &'static str,
        kind: usize,
        largest: usize,
        class: Option<&'static str>,
    ) -> Option<()> {
        if kind == 0 {
            return Some(());
        }
        let mut magnitudes = [0; 4];
        for (number, magnitude) in magnitudes.iter_mut().enumerate() {
            *magnitude = self.ones((component, format!("sao_offset_abs[{number}]")), largest, |_| "")?;
        }
        match (kind, class) {
            (1, _) => self.band(component, magnitudes),
            (_, Some(name)) => self.fixed((component, name.into()), 2, direction).map(|_| ()),
            (_, None) => Some(()),
        }
    }

    fn band(&mut self, component: &'static str, magnitudes: [usize; 4]) -> Option<()> {
        let sign = |value| if value == 1 { "negative" } else { "positive" };
        for (number, _) in magnitudes.iter().enumerate().filter(|(_, magnitude)| **magnitude != 0) {
            self.fixed((component, format!("sao_offset_sign[{number}]")), 1, sign)?;
        }
        self.fixed((component, "sao_band_position".into()), 5, |_| "").map(|_| ())
    }

    /// That many ones and then a zero; the largest value has no zero.
    fn ones(&mut self, named: Named, largest: usize, meaning: impl Fn(usize) -> &'static str) -> Option<usize> {
        let value = self.rest.bytes().take(largest).take_while(|bin| *bin == b'1').count();
        let length = if value == largest { value } else { value + 1 };
        self.take(named, length, value, meaning)
    }

    /// So many bins, the high one first.
    fn fixed(&mut self, named: Named, length: usize, meaning: impl Fn(usize) -> &'static str) -> Option<usize> {
        let bins = self.rest.get(..length)?;
        let value = bins.bytes().fold(0, |value, bin| 2 * value + usize::from(bin == b'1'));
        self.take(named, length, value, meaning)
    }

    fn take(
        &mut self,
        (component, name): Named,
        length: usize,
        value: usize,
        meaning: impl Fn(usize) -> &'static str,
    ) -> Option<usize> {
        let (bins, rest) = self.rest.split_at_checked(length)?;
        self.elements.push(Element { component, name, bins: bins.into(), value, meaning: meaning(value) });
        self.rest = rest;
        Some(value)
    }
}

/// The two neighbours of an edge class, as (x, y) steps.
fn direction(class: usize) -> &'static str {
    [
        "neighbours (-1,0) and (1,0)",
        "neighbours (0,-1) and (0,1)",
        "neighbours (-1,-1) and (1,1)",
        "neighbours (1,-1) and (-1,1)",
    ][class]
}
