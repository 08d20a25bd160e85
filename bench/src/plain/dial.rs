//! The dial of a meter, which goes on from all nines to 0.

use super::Refusal;

#[derive(Clone, Copy, Debug)]
pub struct Dial {
    /// How many registers the dial has, 10 to the power of its digits.
    turn: u32,
}

impl Dial {
    pub fn new(digits: u32) -> Result<Dial, Refusal> {
        match digits {
            4..=8 => Ok(Dial { turn: 10u32.pow(digits) }),
            _ => Err(Refusal::Digits),
        }
    }

    pub fn turn(self) -> u32 {
        self.turn
    }

    /// Refuses a register that the dial cannot show.
    pub fn check(self, register: u32) -> Result<(), Refusal> {
        if register >= self.turn {
            return Err(Refusal::Register);
        }
        Ok(())
    }

    /// How far the dial went from one register to another, both of which it can show.
    pub fn advance(self, from: u32, to: u32) -> u32 {
        if to >= from { to - from } else { to + self.turn - from }
    }
}

#[cfg(test)]
mod tests {
    use super::*;

    #[test]
    fn a_dial_has_4_to_8_digits() {
        for digits in [0, 3, 9, 10, u32::MAX] {
            assert_eq!(Dial::new(digits).err(), Some(Refusal::Digits));
        }
        for digits in 4..=8 {
            assert!(Dial::new(digits).is_ok());
        }
    }

    #[test]
    fn five_digits_show_0_to_99_999() {
        let dial = Dial::new(5).unwrap();
        assert_eq!(dial.check(0), Ok(()));
        assert_eq!(dial.check(99_999), Ok(()));
        assert_eq!(dial.check(100_000), Err(Refusal::Register));
    }

    #[test]
    fn the_advance_goes_past_all_nines() {
        let dial = Dial::new(5).unwrap();
        assert_eq!(dial.advance(99_500, 800), 1_300);
        assert_eq!(dial.advance(800, 99_500), 98_700);
        assert_eq!(dial.advance(800, 800), 0);
        assert_eq!(dial.advance(1, 0), 99_999);
    }
}
