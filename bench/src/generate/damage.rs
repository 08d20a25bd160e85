//! Damage to the text of a good sheet.

use std::ops::Range;

use crate::plain::rate::Rate;
use crate::random::Random;

const MOST_BYTES: usize = 8_192;

/// Bytes that mean something in a sheet, or look as if they did.
const TELLING_BYTES: &[u8] = b"0123456789 \n\r\tRMCrmcXPS-+.EOT\0\x7f\x80\xa0\xff";

/// Numbers at the limits of 32 bits and of the rules, and texts that are nearly numbers.
const NUMBERS: &[&str] = &[
    "0",
    "1",
    "4",
    "8",
    "9",
    "99",
    "100",
    "239",
    "240",
    "241",
    "9999",
    "10000",
    "36524",
    "36525",
    "65536",
    "99999999",
    "100000000",
    "2147483647",
    "2147483648",
    "4294967294",
    "4294967295",
    "4294967296",
    "4294967297",
    "4294967306",
    "4294967300",
    "5000000000",
    "9999999999",
    "10000000000",
    "42949672950",
    "18446744073709551615",
    "18446744073709551616",
    "18446744073709551621",
    "340282366920938463463374607431768211461",
    "",
    "00",
    "01",
    "-1",
    "+1",
    "1.0",
    "1e2",
    "0x1",
    "1,000",
    "x",
    "\u{0661}",
];

/// One to three faults, of a sort that a person or a program may make.
pub fn damage(random: &mut Random, text: &mut Vec<u8>) {
    let faults = if random.percent(75) { 1 } else { random.between(2, 3) };
    for _ in 0..faults {
        damage_once(random, text);
    }
}

/// One to eight bytes changed, put in or taken out.
pub fn mutate(random: &mut Random, text: &mut Vec<u8>) {
    let edits = if random.percent(60) { 1 } else { random.between(2, 8) };
    for _ in 0..edits {
        match random.below(4) {
            0 => insert_byte(random, text),
            1 => delete_byte(random, text),
            _ => change_byte(random, text),
        }
    }
}

fn damage_once(random: &mut Random, text: &mut Vec<u8>) {
    match random.below(28) {
        0 => change_byte(random, text),
        1 => insert_byte(random, text),
        2 => delete_byte(random, text),
        3 => drop_line(random, text),
        4 => double_line(random, text),
        5 => swap_lines(random, text),
        6 => text.truncate(random.index(text.len() + 1)),
        7 => cut_line(random, text),
        8 => carriage_returns(random, text),
        9 => change_space(random, text),
        10 => space_at_an_end(random, text),
        11 => empty_line(random, text),
        12 => change_count(random, text),
        13 => drop(text.pop()),
        14 => trailing_bytes(random, text),
        15 => stretch_line(random, text),
        16 => stretch_sheet(random, text),
        17 => leading_zeros(random, text),
        18..=20 => change_number(random, text),
        21 => change_letter(random, text),
        22 => change_case(random, text),
        23 => drop_field(random, text),
        24 => add_field(random, text),
        25 => change_rate(random, text),
        26 => change_section_name(random, text),
        _ if random.percent(30) => text.clear(),
        _ => noise(random, text),
    }
}

fn any_byte(random: &mut Random) -> u8 {
    if random.percent(70) { random.pick(TELLING_BYTES) } else { random.byte() }
}

fn change_byte(random: &mut Random, text: &mut [u8]) {
    if !text.is_empty() {
        let place = random.index(text.len());
        text[place] = any_byte(random);
    }
}

fn insert_byte(random: &mut Random, text: &mut Vec<u8>) {
    let place = random.index(text.len() + 1);
    text.insert(place, any_byte(random));
}

fn delete_byte(random: &mut Random, text: &mut Vec<u8>) {
    if !text.is_empty() {
        text.remove(random.index(text.len()));
    }
}

/// Where the lines of a text are, each with its LF.
fn lines(text: &[u8]) -> Vec<Range<usize>> {
    let mut start = 0;
    text.split_inclusive(|&byte| byte == b'\n')
        .map(|line| {
            let range = start..start + line.len();
            start = range.end;
            range
        })
        .collect()
}

/// Any line. The first four are as likely as all others together.
fn some_line(random: &mut Random, text: &[u8]) -> Range<usize> {
    let lines = lines(text);
    match lines.len() {
        0 => 0..0,
        count if random.percent(50) => lines[random.index(count.min(4))].clone(),
        count => lines[random.index(count)].clone(),
    }
}

/// A line without its LF.
fn some_inner_line(random: &mut Random, text: &[u8]) -> Range<usize> {
    let line = some_line(random, text);
    let ends_with_lf = text[line.clone()].ends_with(b"\n");
    line.start..line.end - usize::from(ends_with_lf)
}

/// The fields of a line, without the spaces between them.
fn fields(text: &[u8], line: Range<usize>) -> Vec<Range<usize>> {
    let mut start = line.start;
    text[line]
        .split(|&byte| byte == b' ')
        .map(|field| {
            let range = start..start + field.len();
            start = range.end + 1;
            range
        })
        .collect()
}

/// A field, mostly one that is a number.
fn some_field(random: &mut Random, text: &[u8]) -> Range<usize> {
    let line = some_inner_line(random, text);
    let fields = fields(text, line);
    let numbers: Vec<_> =
        fields.iter().filter(|field| text[(*field).clone()].iter().all(u8::is_ascii_digit)).collect();
    if numbers.is_empty() || random.percent(10) {
        fields[random.index(fields.len())].clone()
    } else {
        numbers[random.index(numbers.len())].clone()
    }
}

fn replace(text: &mut Vec<u8>, range: Range<usize>, new: &[u8]) {
    text.splice(range, new.iter().copied());
}

fn drop_line(random: &mut Random, text: &mut Vec<u8>) {
    let line = some_line(random, text);
    text.drain(line);
}

fn double_line(random: &mut Random, text: &mut Vec<u8>) {
    let line = some_line(random, text);
    let copy = text[line.clone()].to_vec();
    replace(text, line.end..line.end, &copy);
}

fn swap_lines(random: &mut Random, text: &mut Vec<u8>) {
    let (one, two) = (some_line(random, text), some_line(random, text));
    let (first, second) = if one.start < two.start { (one, two) } else { (two, one) };
    if first.end <= second.start {
        let (early, late) = (text[first.clone()].to_vec(), text[second.clone()].to_vec());
        replace(text, second, &early);
        replace(text, first, &late);
    }
}

/// Takes the end of a line away, sometimes with its LF.
fn cut_line(random: &mut Random, text: &mut Vec<u8>) {
    let line = if random.percent(70) { some_inner_line(random, text) } else { some_line(random, text) };
    let from = line.start + random.index(line.len() + 1);
    text.drain(from..line.end);
}

/// CR before one LF, or before all.
fn carriage_returns(random: &mut Random, text: &mut Vec<u8>) {
    if random.percent(50) {
        let end = some_inner_line(random, text).end;
        text.insert(end, b'\r');
    } else {
        for line in lines(text).into_iter().rev() {
            if text[line.clone()].ends_with(b"\n") {
                text.insert(line.end - 1, b'\r');
            }
        }
    }
}

/// A space doubled, left out, or made into something else.
fn change_space(random: &mut Random, text: &mut Vec<u8>) {
    let line = some_line(random, text);
    let spaces: Vec<usize> = line.filter(|&place| text[place] == b' ').collect();
    if !spaces.is_empty() {
        let place = random.pick(&spaces);
        let new: &[u8] = random.pick(&[&b"  "[..], b"\t", b"", b"\n", b"   ", b" \t", b"\0", b"\xa0"]);
        replace(text, place..place + 1, new);
    }
}

fn space_at_an_end(random: &mut Random, text: &mut Vec<u8>) {
    let line = some_inner_line(random, text);
    let place = random.pick(&[line.start, line.end]);
    text.insert(place, random.pick(b"   \t"));
}

fn empty_line(random: &mut Random, text: &mut Vec<u8>) {
    let line = some_line(random, text);
    let place = random.pick(&[line.start, line.end]);
    text.insert(place, b'\n');
}

/// Another number on the count line of the calls, mostly one that is next to it.
fn change_count(random: &mut Random, text: &mut Vec<u8>) {
    let Some(line) = lines(text).get(2).cloned() else { return };
    let field = fields(text, line)[0].clone();
    let count: u32 =
        std::str::from_utf8(&text[field.clone()]).ok().and_then(|digits| digits.parse().ok()).unwrap_or(0);
    let new = match random.below(5) {
        0 => count.saturating_sub(1).to_string(),
        1 => count.saturating_add(1).to_string(),
        2 => random.below(242).to_string(),
        3 => (u64::from(count) + (1 << random.pick(&[8, 16, 32]))).to_string(),
        _ => random.pick(NUMBERS).to_owned(),
    };
    replace(text, field, new.as_bytes());
}

fn trailing_bytes(random: &mut Random, text: &mut Vec<u8>) {
    match random.below(4) {
        0 => text.push(b'\n'),
        1 => text.push(any_byte(random)),
        2 => text.extend_from_slice(b"M 1\n"),
        _ => {
            for _ in 0..random.between(1, 20) {
                text.push(any_byte(random));
            }
        }
    }
}

/// A length at the limit of a sheet, or beyond.
fn full_length(random: &mut Random) -> usize {
    match random.below(5) {
        0 => MOST_BYTES + 1,
        1 => MOST_BYTES + random.index(20_000),
        2 => MOST_BYTES - random.index(3),
        _ => MOST_BYTES,
    }
}

/// Makes a line so long that the whole sheet comes to the limit.
fn stretch_line(random: &mut Random, text: &mut Vec<u8>) {
    let length = full_length(random);
    let place = some_field(random, text).end;
    if let Some(bytes) = length.checked_sub(text.len()) {
        let filling = vec![random.pick(b"0000 19\rRM\n"); bytes];
        replace(text, place..place, &filling);
    }
}

/// Puts bytes after the last line, until the whole sheet comes to the limit.
fn stretch_sheet(random: &mut Random, text: &mut Vec<u8>) {
    let length = full_length(random);
    if length > text.len() {
        text.resize(length, random.pick(b"\n 0M\0"));
    }
}

fn leading_zeros(random: &mut Random, text: &mut Vec<u8>) {
    let place = some_field(random, text).start;
    let zeros = random.between(1, 12) as usize;
    replace(text, place..place, &b"000000000000"[..zeros]);
}

fn change_number(random: &mut Random, text: &mut Vec<u8>) {
    let field = some_field(random, text);
    if random.percent(60) {
        replace(text, field, random.pick(NUMBERS).as_bytes());
    } else {
        let number = random.any() / 2 + random.any() / 2;
        replace(text, field, number.to_string().as_bytes());
    }
}

/// Another letter at the start of a line.
fn change_letter(random: &mut Random, text: &mut Vec<u8>) {
    let lines = lines(text);
    let Some(line) = lines.get(3..).filter(|calls| !calls.is_empty()) else { return };
    let start = line[random.index(line.len())].start;
    let new: &[u8] = random.pick(&[&b"R"[..], b"M", b"C", b"r", b"m", b"c", b"N", b"X", b"MM", b"", b"1"]);
    replace(text, start..start + 1, new);
}

/// Large letters made small, and small ones large.
fn change_case(random: &mut Random, text: &mut [u8]) {
    let line = some_line(random, text);
    for byte in &mut text[line] {
        if byte.is_ascii_alphabetic() && random.percent(60) {
            *byte ^= 0x20;
        }
    }
}

/// A field and the space before it taken out.
fn drop_field(random: &mut Random, text: &mut Vec<u8>) {
    let field = some_field(random, text);
    let has_space = field.start > 0 && text[field.start - 1] == b' ';
    text.drain(field.start - usize::from(has_space)..field.end);
}

fn add_field(random: &mut Random, text: &mut Vec<u8>) {
    let place = some_field(random, text).end;
    let new = format!(" {}", random.pick(NUMBERS));
    replace(text, place..place, new.as_bytes());
}

/// Another rate's name, or nearly one.
fn change_rate(random: &mut Random, text: &mut Vec<u8>) {
    let Some(line) = lines(text).get(1).cloned() else { return };
    let field = fields(text, line)[0].clone();
    let name = random.pick(&Rate::ALL).name();
    let new = match random.below(6) {
        0 => name.to_lowercase(),
        1 => name[..name.len() - 1].to_owned(),
        2 => format!("{name}{}", random.pick(&["R", "1", "2", "\0", "\r", "-"])),
        3 => random.pick(&["", "E12", "ET-3", "ECT-1", "ECT-2R", "NR", "NR-M", "Other", "E-12 "]).to_owned(),
        _ => name.to_owned(),
    };
    replace(text, field, new.as_bytes());
}

fn change_section_name(random: &mut Random, text: &mut Vec<u8>) {
    let Some(line) = lines(text).get(random.pick(&[0, 2])).cloned() else { return };
    let start =
        text[line.clone()].iter().position(|&byte| byte == b' ').map_or(line.start, |at| line.start + at + 1);
    let end = line.end - usize::from(text[line.clone()].ends_with(b"\n"));
    if start <= end {
        let names =
            ["PREMISE", "CALLS", "CALL", "CALLS ", "premise", "calls", "PREMISES", "ENTRIES", "", "CALLS 1"];
        replace(text, start..end, random.pick(&names).as_bytes());
    }
}

/// No sheet at all.
fn noise(random: &mut Random, text: &mut Vec<u8>) {
    text.clear();
    for _ in 0..random.below(300) {
        text.push(any_byte(random));
    }
}
