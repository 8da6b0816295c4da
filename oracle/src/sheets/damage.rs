//! Changes to the text of a sheet. Most of them make a line bad; some leave the
//! sheet well formed and change what it says.

use crate::random::SplitMix64;

type Change = fn(&mut SplitMix64, &mut Vec<u8>);

/// The changes, each with its name.
pub const DAMAGES: [(&str, Change); 26] = [
    ("bit_flipped", |random, text| {
        let place = random.below(text.len());
        text[place] ^= 1 << random.below(8);
    }),
    ("byte_replaced", |random, text| {
        let byte = random.byte();
        replace(random, text, |_| true, &[byte]);
    }),
    ("byte_inserted", |random, text| {
        let byte = random.byte();
        insert(random, text, |_| true, &[byte]);
    }),
    ("byte_removed", |random, text| {
        replace(random, text, |_| true, b"");
    }),
    ("cut_short", |random, text| {
        text.truncate(random.below(text.len()));
    }),
    ("final_newline_missing", |_, text| {
        text.pop();
    }),
    ("tab_doubled", |random, text| {
        insert(random, text, |byte| byte == b'\t', b"\t");
    }),
    ("trailing_tab", |random, text| {
        insert(random, text, |byte| byte == b'\n', b"\t");
    }),
    ("trailing_space", |random, text| {
        insert(random, text, |byte| byte == b'\n', b" ");
    }),
    ("carriage_return", |random, text| {
        insert(random, text, |byte| byte == b'\n', b"\r");
    }),
    ("empty_line", |random, text| {
        insert(random, text, |byte| byte == b'\n', b"\n");
    }),
    ("nul", |random, text| {
        insert(random, text, |_| true, b"\0");
    }),
    ("byte_above_127", |random, text| {
        let byte = random.byte() | 0x80;
        insert(random, text, |_| true, &[byte]);
    }),
    ("space_for_a_tab", |random, text| {
        replace(random, text, |byte| byte == b'\t', b" ");
    }),
    ("lower_case", |random, text| {
        let place = place(random, text, |byte| byte.is_ascii_uppercase());
        text[place].make_ascii_lowercase();
    }),
    ("leading_zero", |random, text| number(random, text, "0", "")),
    ("plus_sign", |random, text| number(random, text, "+", "")),
    ("digit_after_a_number", |random, text| {
        let digit = random.below(10).to_string();
        let place = number_place(random, text);
        text.splice(place + 1..place + 1, digit.into_bytes());
    }),
    ("thousand_digits", thousand_digits),
    ("number_too_large", number_too_large),
    ("dash_for_a_number", |random, text| {
        let place = number_place(random, text);
        text.splice(place..number_end(text, place), *b"-");
    }),
    ("field_removed", field_removed),
    ("lines_swapped", lines_swapped),
    ("line_repeated", line_repeated),
    ("line_removed", line_removed),
    ("line_from_a_transcript", |random, text| {
        let line = random.pick(&[
            "S\tReady\n",
            "X\tReadFirmware\t7\n",
            "T\t7\tNominal\t0\t0\t0\n",
        ]);
        let place = line_start(random, text);
        text.splice(place..place, line.bytes());
    }),
];

/// One change to `text`, which is a well-formed sheet. Gives its name.
pub fn damage(random: &mut SplitMix64, text: &mut Vec<u8>) -> &'static str {
    let (name, change) = random.pick(&DAMAGES);
    change(random, text);
    name
}

/// A place whose byte the test holds for. A sheet has tabs, ends of lines,
/// digits and capitals in its B line.
fn place(random: &mut SplitMix64, text: &[u8], test: impl Fn(u8) -> bool) -> usize {
    let places: Vec<usize> = (0..text.len()).filter(|place| test(text[*place])).collect();
    random.pick(&places)
}

/// Puts bytes before a place.
fn insert(random: &mut SplitMix64, text: &mut Vec<u8>, test: impl Fn(u8) -> bool, bytes: &[u8]) {
    let place = place(random, text, test);
    text.splice(place..place, bytes.iter().copied());
}

/// Puts bytes in the place of one.
fn replace(random: &mut SplitMix64, text: &mut Vec<u8>, test: impl Fn(u8) -> bool, bytes: &[u8]) {
    let place = place(random, text, test);
    text.splice(place..=place, bytes.iter().copied());
}

/// Where a number begins.
fn number_place(random: &mut SplitMix64, text: &[u8]) -> usize {
    let places: Vec<usize> = (1..text.len())
        .filter(|place| text[*place].is_ascii_digit() && text[place - 1] == b'\t')
        .collect();
    random.pick(&places)
}

/// Where the number that begins at `place` ends.
fn number_end(text: &[u8], place: usize) -> usize {
    let digits = text[place..]
        .iter()
        .take_while(|byte| byte.is_ascii_digit());
    place + digits.count()
}

/// Puts text around a number.
fn number(random: &mut SplitMix64, text: &mut Vec<u8>, before: &str, after: &str) {
    let place = number_place(random, text);
    let end = number_end(text, place);
    text.splice(end..end, after.bytes());
    text.splice(place..place, before.bytes());
}

fn thousand_digits(random: &mut SplitMix64, text: &mut Vec<u8>) {
    let digits = random.pick(&["0", "1", "9"]).repeat(1_000);
    if random.one_in(2) {
        number(random, text, &digits, "");
    } else {
        number(random, text, "", &digits);
    }
}

/// A number that is the old one after a cut to 8, 16, 32 or 64 bits.
fn number_too_large(random: &mut SplitMix64, text: &mut Vec<u8>) {
    let place = number_place(random, text);
    let end = number_end(text, place);
    let old: u128 = str::from_utf8(&text[place..end])
        .expect("digits")
        .parse()
        .expect("a number up to 65535");
    let bits = random.pick(&[8, 16, 32, 64]);
    let new = old + (1 << bits);
    text.splice(place..end, new.to_string().into_bytes());
}

fn field_removed(random: &mut SplitMix64, text: &mut Vec<u8>) {
    let start = place(random, text, |byte| byte == b'\t');
    let rest = &text[start + 1..];
    let length = rest.iter().position(|byte| b"\t\n".contains(byte));
    let end = start + 1 + length.expect("every line is ended");
    text.drain(start..end);
}

/// The lines of a text, each with its end.
fn lines(text: &[u8]) -> Vec<Vec<u8>> {
    let lines = text.split_inclusive(|byte| *byte == b'\n');
    lines.map(<[u8]>::to_vec).collect()
}

fn lines_swapped(random: &mut SplitMix64, text: &mut Vec<u8>) {
    let mut lines = lines(text);
    let (one, other) = (random.below(lines.len()), random.below(lines.len()));
    lines.swap(one, other);
    *text = lines.concat();
}

fn line_repeated(random: &mut SplitMix64, text: &mut Vec<u8>) {
    let mut lines = lines(text);
    let line = lines[random.below(lines.len())].clone();
    lines.insert(random.below(lines.len() + 1), line);
    *text = lines.concat();
}

fn line_removed(random: &mut SplitMix64, text: &mut Vec<u8>) {
    let mut lines = lines(text);
    lines.remove(random.below(lines.len()));
    *text = lines.concat();
}

/// Where a line begins, or the end of the text.
fn line_start(random: &mut SplitMix64, text: &[u8]) -> usize {
    let lines = lines(text);
    let before = random.below(lines.len() + 1);
    lines[..before].iter().map(Vec::len).sum()
}

#[cfg(test)]
mod tests {
    use super::*;

    const SHEET: &[u8] = b"B\t2\nC\t7\tActive\tRequired\t0\t-\nE\tTimeout\t17\nR\tok\n";

    #[test]
    fn every_change_can_change_the_text() {
        let mut random = SplitMix64::new(1);
        for (name, change) in DAMAGES {
            let changed = (0..20).any(|_| {
                let mut text = SHEET.to_vec();
                change(&mut random, &mut text);
                text != SHEET
            });
            assert!(changed, "{name}");
        }
    }

    #[test]
    fn a_number_is_one_that_is_cut_to_the_old_one() {
        let mut random = SplitMix64::new(2);
        for _ in 0..100 {
            let mut text = b"B\t7\n".to_vec();
            number_too_large(&mut random, &mut text);
            let number: u128 = str::from_utf8(&text[2..text.len() - 1])
                .unwrap()
                .parse()
                .unwrap();
            assert!(number > 255 && number % 256 == 7, "{number}");
        }
    }

    #[test]
    fn a_field_goes_with_the_tab_before_it() {
        let mut text = b"B\t2\n".to_vec();
        field_removed(&mut SplitMix64::new(3), &mut text);
        assert_eq!(text, b"B\n");
    }
}
