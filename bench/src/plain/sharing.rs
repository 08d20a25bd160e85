//! Sharing a total out by weights, with no unit lost or made.

use super::Refusal;

const MOST_TOTAL: u32 = 1_000_000_000;
const MOST_WEIGHT: u32 = 1_000_000;
const MOST_RECORDS: usize = 3_360;

/// A record that may take a share.
pub trait Sharer {
    /// The weight of a record that takes part, none of one that does not.
    fn weight(&self) -> Option<u32>;

    fn take(&mut self, share: u32);
}

/// A record of a list that is shared out over on its own.
#[derive(Clone, Copy, Debug, PartialEq, Eq)]
pub struct Portion {
    pub takes_part: bool,
    pub weight: u32,
    pub share: u32,
}

impl Sharer for Portion {
    fn weight(&self) -> Option<u32> {
        self.takes_part.then_some(self.weight)
    }

    fn take(&mut self, share: u32) {
        self.share = share;
    }
}

/// Shares a total out over the records that take part.
pub fn share_out<S: Sharer>(total: u32, records: &mut [S]) -> Result<(), Refusal> {
    let too_heavy = |record: &S| record.weight().is_some_and(|weight| weight > MOST_WEIGHT);
    if total > MOST_TOTAL || records.len() > MOST_RECORDS || records.iter().any(too_heavy) {
        return Err(Refusal::SharingLimits);
    }
    if total > 0 && sum_of_weights(records) == 0 {
        return Err(Refusal::NoWeights);
    }
    deal(total, records);
    Ok(())
}

/// Shares out what is known to be within the limits, and to have a weight if the total is above 0.
pub fn deal<S: Sharer>(total: u32, records: &mut [S]) {
    let total = u64::from(total);
    let all_weights = sum_of_weights(records);
    let mut weights = 0;
    let mut dealt = 0;
    for record in records {
        let Some(weight) = record.weight() else { continue };
        weights += u64::from(weight);
        let running_total = (total * weights).checked_div(all_weights).unwrap_or(0);
        // At most the total, so it fits.
        record.take((running_total - dealt) as u32);
        dealt = running_total;
    }
}

fn sum_of_weights<S: Sharer>(records: &[S]) -> u64 {
    records.iter().filter_map(S::weight).map(u64::from).sum()
}

#[cfg(test)]
mod tests {
    use super::*;

    fn portion(weight: u32) -> Portion {
        Portion { takes_part: true, weight, share: 7 }
    }

    fn bystander(weight: u32) -> Portion {
        Portion { takes_part: false, weight, share: 7 }
    }

    fn shares(portions: &[Portion]) -> Vec<u32> {
        portions.iter().map(|portion| portion.share).collect()
    }

    #[test]
    fn a_hundred_over_30_30_and_31() {
        let mut portions = [portion(30), portion(30), portion(31)];
        assert_eq!(share_out(100, &mut portions), Ok(()));
        assert_eq!(shares(&portions), [32, 33, 35]);
    }

    #[test]
    fn who_takes_no_part_stays() {
        let mut portions = [portion(0), bystander(u32::MAX), portion(1), portion(2)];
        assert_eq!(share_out(10, &mut portions), Ok(()));
        assert_eq!(shares(&portions), [0, 7, 3, 7]);
        assert_eq!(portions[1], bystander(u32::MAX));
    }

    #[test]
    fn nothing_over_no_weights() {
        let mut portions = [portion(0), bystander(5), portion(0)];
        assert_eq!(share_out(0, &mut portions), Ok(()));
        assert_eq!(shares(&portions), [0, 7, 0]);
        assert_eq!(share_out(1, &mut portions), Err(Refusal::NoWeights));
        assert_eq!(share_out(1, &mut [bystander(5)]), Err(Refusal::NoWeights));
        assert_eq!(share_out::<Portion>(1, &mut []), Err(Refusal::NoWeights));
        assert_eq!(share_out::<Portion>(0, &mut []), Ok(()));
    }

    #[test]
    fn the_limits() {
        let mut heavy = vec![portion(MOST_WEIGHT); MOST_RECORDS];
        assert_eq!(share_out(MOST_TOTAL, &mut heavy), Ok(()));
        let sum: u32 = heavy.iter().map(|portion| portion.share).sum();
        assert_eq!(sum, MOST_TOTAL);

        let mut zeros = vec![portion(0); MOST_RECORDS + 1];
        assert_eq!(share_out(0, &mut zeros), Err(Refusal::SharingLimits));
        let mut one = [portion(MOST_WEIGHT + 1)];
        assert_eq!(share_out(0, &mut one), Err(Refusal::SharingLimits));
        let mut one = [portion(0)];
        assert_eq!(share_out(MOST_TOTAL + 1, &mut one), Err(Refusal::SharingLimits));
    }
}
