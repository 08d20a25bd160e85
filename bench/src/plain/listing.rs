//! Writing a listing: the answers and the entries, as text.

use super::Refusal;
use super::file::{Answer, Entry};
use super::sheet::{Fault, Section};

const BYTES_OF_ANSWER: usize = 21;
const BYTES_OF_ENTRY: usize = 44;
const BYTES_OF_COUNT: usize = 12;

/// The listing of what happened on a file, and of the entries of its book.
pub fn listing(answers: &[Result<Answer, Refusal>], entries: &[Entry]) -> Vec<u8> {
    let bytes = BYTES_OF_ANSWER * answers.len() + BYTES_OF_ENTRY * entries.len();
    let mut text = Vec::with_capacity(bytes + 2 * BYTES_OF_COUNT);
    push_number(&mut text, answers.len() as u32);
    text.extend_from_slice(b" ANSWERS\n");
    for answer in answers {
        push_answer(&mut text, answer);
    }
    push_number(&mut text, entries.len() as u32);
    text.extend_from_slice(b" ENTRIES\n");
    for entry in entries {
        push_entry(&mut text, entry);
    }
    text
}

/// The line in place of a listing where the sheet is refused.
pub fn fault_line(fault: &Fault) -> Vec<u8> {
    let section = match fault.section {
        Section::Premise => b"X P",
        Section::Calls => b"X C",
        Section::Whole => b"X S",
    };
    let mut text = Vec::new();
    push_line(&mut text, section, &[fault.line, fault.field, fault.refusal.number()]);
    text
}

fn push_answer(text: &mut Vec<u8>, answer: &Result<Answer, Refusal>) {
    match *answer {
        Ok(Answer::Read { kind, kwh, corrected }) => {
            push_line(text, b"R", &[kind as u32, kwh, corrected as u32]);
        }
        Ok(Answer::Miss { kind, rung, kwh }) => push_line(text, b"M", &[kind as u32, rung, kwh]),
        Ok(Answer::Move) => push_line(text, b"C", &[]),
        Err(refusal) => push_line(text, b"N", &[refusal.number()]),
    }
}

fn push_entry(text: &mut Vec<u8>, entry: &Entry) {
    push_number(text, entry.customer);
    let rest = [
        entry.end_day,
        entry.days,
        entry.usage_days,
        entry.kind as u32,
        entry.rung,
        u32::from(entry.initial),
        entry.kwh,
    ];
    push_line(text, b"", &rest);
}

/// A line's head, its numbers with a space before each, and LF.
pub fn push_line(text: &mut Vec<u8>, head: &[u8], numbers: &[u32]) {
    text.extend_from_slice(head);
    for &number in numbers {
        text.push(b' ');
        push_number(text, number);
    }
    text.push(b'\n');
}

/// A number in decimal.
pub fn push_number(text: &mut Vec<u8>, mut number: u32) {
    let mut digits = [0; 10];
    let mut start = digits.len();
    loop {
        start -= 1;
        digits[start] = b'0' + (number % 10) as u8;
        number /= 10;
        if number == 0 {
            break;
        }
    }
    text.extend_from_slice(&digits[start..]);
}

#[cfg(test)]
mod tests {
    use super::*;

    #[test]
    fn numbers() {
        for number in [0, 1, 9, 10, 99, 100, 36_524, 99_999_999, u32::MAX] {
            let mut text = Vec::new();
            push_number(&mut text, number);
            assert_eq!(text, number.to_string().as_bytes());
        }
    }
}
