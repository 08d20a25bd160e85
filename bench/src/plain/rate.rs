//! The rates, with their class figures and load factors.

#[derive(Clone, Copy, Debug, PartialEq, Eq)]
pub enum Rate {
    E12,
    Et1,
    Et2,
    EtSp,
    Ect1R,
    Ect2,
    NrS,
    NrL,
    Other,
}

impl Rate {
    pub const ALL: [Rate; 9] = [
        Rate::E12,
        Rate::Et1,
        Rate::Et2,
        Rate::EtSp,
        Rate::Ect1R,
        Rate::Ect2,
        Rate::NrS,
        Rate::NrL,
        Rate::Other,
    ];

    pub fn name(self) -> &'static str {
        match self {
            Rate::E12 => "E-12",
            Rate::Et1 => "ET-1",
            Rate::Et2 => "ET-2",
            Rate::EtSp => "ET-SP",
            Rate::Ect1R => "ECT-1R",
            Rate::Ect2 => "ECT-2",
            Rate::NrS => "NR-S",
            Rate::NrL => "NR-L",
            Rate::Other => "OTHER",
        }
    }

    pub fn from_name(name: &[u8]) -> Option<Rate> {
        Rate::ALL.into_iter().find(|rate| rate.name().as_bytes() == name)
    }

    /// What a customer of the class uses in a day, in kWh.
    pub fn class_figure(self) -> Option<u32> {
        match self {
            Rate::E12 => Some(25),
            Rate::Et1 | Rate::Et2 | Rate::EtSp => Some(47),
            Rate::Ect1R | Rate::Ect2 => Some(75),
            Rate::NrS => Some(45),
            Rate::NrL => Some(1_156),
            Rate::Other => None,
        }
    }

    /// The load factor in percent.
    pub fn load_factor(self) -> Option<u32> {
        match self {
            Rate::Ect1R => Some(42),
            Rate::Ect2 => Some(39),
            Rate::NrS | Rate::NrL => Some(50),
            Rate::E12 | Rate::Et1 | Rate::Et2 | Rate::EtSp | Rate::Other => None,
        }
    }
}

#[cfg(test)]
mod tests {
    use super::*;

    #[test]
    fn names_are_exact() {
        for rate in Rate::ALL {
            assert_eq!(Rate::from_name(rate.name().as_bytes()), Some(rate));
        }
        for name in ["", "E-1", "E-123", "e-12", "ET-SP ", "NR"] {
            assert_eq!(Rate::from_name(name.as_bytes()), None);
        }
    }
}
