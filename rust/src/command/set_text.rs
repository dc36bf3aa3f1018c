//! Sets as they are typed and shown: `edge:2:1,0,0,-2/off/off`, or the 36 hex digits of a table entry.
//!
//! LUMA/CB/CR, each `off`, `band:POSITION:` or `edge:CLASS:` with four offsets; what is not typed is off. Numbers that
//! break a rule are let through, so that the stage itself refuses them.

use steamgusset::{CtuSet, Offsets, SET_BYTES};

/// The set that the text says, or why it says none.
pub fn parse(text: &str) -> Result<CtuSet, String> {
    if text.len() == 2 * SET_BYTES && text.bytes().all(|digit| digit.is_ascii_hexdigit()) {
        return entry(text);
    }
    let mut components = [Offsets::Off; 3];
    let typed: Vec<&str> = text.split('/').collect();
    if typed.len() > components.len() {
        return Err(format!("{text} has more than three components"));
    }
    for (component, text) in components.iter_mut().zip(typed) {
        *component = offsets(text)?;
    }
    let [luma, cb, cr] = components;
    Ok(CtuSet { luma, cb, cr })
}

fn entry(digits: &str) -> Result<CtuSet, String> {
    let bytes = hex(digits).and_then(|bytes| <[u8; SET_BYTES]>::try_from(bytes).ok());
    bytes.and_then(|bytes| CtuSet::from_bytes(&bytes)).ok_or_else(|| format!("{digits} is the table entry of no set"))
}

fn offsets(text: &str) -> Result<Offsets, String> {
    if text == "off" {
        return Ok(Offsets::Off);
    }
    let form = || format!("{text} is none of off, band:P:A,B,C,D and edge:K:A,B,C,D");
    let (kind, number, list) = parted(text).ok_or_else(form)?;
    // What a byte does not hold cannot be handed to the stage.
    let number =
        u8::try_from(number).map_err(|_| format!("{text} has {number} where a number from 0 to 255 stands"))?;
    let offset =
        |offset: i64| i8::try_from(offset).map_err(|_| format!("{text} has the offset {offset}, outside -128 to 127"));
    let [a, b, c, d] = list.map(offset);
    let offsets = [a?, b?, c?, d?];
    match kind {
        "band" => Ok(Offsets::Band { position: number, offsets }),
        "edge" => Ok(Offsets::Edge { class: number, offsets }),
        _ => Err(form()),
    }
}

/// The kind, the number after it and the four offsets.
fn parted(text: &str) -> Option<(&str, i64, [i64; 4])> {
    let (kind, rest) = text.split_once(':')?;
    let (number, list) = rest.split_once(':')?;
    let list: Vec<i64> = list.split(',').map(|offset| offset.parse().ok()).collect::<Option<_>>()?;
    Some((kind, number.parse().ok()?, list.try_into().ok()?))
}

/// The set as it can be typed.
pub fn shown(set: &CtuSet) -> String {
    set.components().map(component).join("/")
}

fn component(offsets: Offsets) -> String {
    let listed = |offsets: [i8; 4]| offsets.map(|offset| offset.to_string()).join(",");
    match offsets {
        Offsets::Off => "off".into(),
        Offsets::Band { position, offsets } => format!("band:{position}:{}", listed(offsets)),
        Offsets::Edge { class, offsets } => format!("edge:{class}:{}", listed(offsets)),
    }
}

/// The bytes of hex digits, two each; nothing if they are no hex digits or not in pairs.
pub fn hex(digits: &str) -> Option<Vec<u8>> {
    let value = |digit: char| digit.to_digit(16).and_then(|value| u8::try_from(value).ok());
    let values: Vec<u8> = digits.chars().map(value).collect::<Option<_>>()?;
    let (pairs, rest) = values.as_chunks();
    rest.is_empty().then(|| pairs.iter().map(|[high, low]| high << 4 | low).collect())
}

/// The hex digits of bytes.
pub fn digits(bytes: &[u8]) -> String {
    bytes.iter().map(|byte| format!("{byte:02X}")).collect()
}

#[cfg(test)]
mod tests {
    use super::*;

    #[test]
    fn what_is_shown_can_be_typed() {
        for text in ["off/off/off", "edge:2:1,0,0,-2/off/off", "off/band:31:-7,0,7,1/band:0:0,0,0,0"] {
            let set = parse(text).expect("a set");
            assert_eq!(shown(&set), text);
            assert_eq!(parse(&digits(&set.to_bytes())), Ok(set));
        }
    }

    #[test]
    fn what_is_not_typed_is_off() {
        assert_eq!(parse("edge:2:1,0,0,-2"), parse("edge:2:1,0,0,-2/off/off"));
    }

    #[test]
    fn what_says_no_set() {
        for text in
            ["", "on", "edge", "edge:1", "edge:1:1,2,3", "band:256:0,0,0,0", "off/off/off/off", "band:1:128,0,0,0"]
        {
            assert!(parse(text).is_err(), "{text}");
        }
        assert!(parse(&"F".repeat(36)).is_err());
    }

    #[test]
    fn hex_digits_come_in_pairs() {
        assert_eq!(hex("E34a"), Some(vec![0xE3, 0x4A]));
        assert_eq!(hex(""), Some(vec![]));
        assert_eq!((hex("E34"), hex("+1"), hex("zz")), (None, None, None));
    }
}
