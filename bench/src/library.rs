//! The functions of `include/pekstuvna.h`. A refusal comes back as its number.

use bench::header::{Interval, Month, Period, Portion, Reading};

#[link(name = "pekstuvna", kind = "static")]
#[link(name = "rattle_c", kind = "static")]
unsafe extern "C" {
    fn pekstuvna_list_sheet(
        sheet: *const u8,
        sheet_length: usize,
        listing: *mut u8,
        listing_length: usize,
    ) -> i64;

    fn pekstuvna_share_out(total: u32, portions: *mut Portion, count: usize) -> i64;

    safe fn pekstuvna_estimate(kwh: u32, days: u32, usage_days: u32) -> i64;

    fn pekstuvna_fill(
        month: *const Month,
        weekday: *const u32,
        weekday_count: usize,
        weekend: *const u32,
        weekend_count: usize,
        holidays: *const u32,
        holiday_count: usize,
        intervals: *mut Interval,
        count: usize,
    ) -> i64;

    fn pekstuvna_demand(
        book: *const Reading,
        count: usize,
        period: *const Period,
        rate: *const u8,
        rate_length: usize,
        tenths: *mut u64,
    ) -> i64;
}

/// A number of 0 or more, or the number of a refusal.
fn answer(number: i64) -> Result<u32, u32> {
    u32::try_from(number).map_err(|_| number.unsigned_abs() as u32)
}

/// How many bytes of the buffer the listing has.
pub fn list_sheet(sheet: &[u8], listing: &mut [u8]) -> Result<usize, u32> {
    // SAFETY: both slices are valid for their lengths, and do not overlap.
    let number =
        unsafe { pekstuvna_list_sheet(sheet.as_ptr(), sheet.len(), listing.as_mut_ptr(), listing.len()) };
    answer(number).map(|bytes| bytes as usize)
}

pub fn share_out(total: u32, portions: &mut [Portion]) -> Result<u32, u32> {
    // SAFETY: the slice is valid for its length, and its records are laid out as in the header.
    answer(unsafe { pekstuvna_share_out(total, portions.as_mut_ptr(), portions.len()) })
}

pub fn estimate(kwh: u32, days: u32, usage_days: u32) -> Result<u64, u32> {
    let number = pekstuvna_estimate(kwh, days, usage_days);
    u64::try_from(number).map_err(|_| number.unsigned_abs() as u32)
}

/// How many intervals were filled.
pub fn fill(
    month: &Month,
    weekday: &[u32],
    weekend: &[u32],
    holidays: &[u32],
    intervals: &mut [Interval],
) -> Result<u32, u32> {
    // SAFETY: all slices are valid for their lengths, the records are laid out as in the header, and the one slice
    // that is written overlaps with nothing.
    answer(unsafe {
        pekstuvna_fill(
            month,
            weekday.as_ptr(),
            weekday.len(),
            weekend.as_ptr(),
            weekend.len(),
            holidays.as_ptr(),
            holidays.len(),
            intervals.as_mut_ptr(),
            intervals.len(),
        )
    })
}

/// The number of the answer. Its tenths of a kW are written.
pub fn demand(book: &[Reading], period: &Period, rate: &[u8], tenths: &mut u64) -> Result<u32, u32> {
    // SAFETY: both slices are valid for their lengths, the records are laid out as in the header, and what is
    // written overlaps with nothing.
    answer(unsafe { pekstuvna_demand(book.as_ptr(), book.len(), period, rate.as_ptr(), rate.len(), tenths) })
}
