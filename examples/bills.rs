//! The library from Rust: a sheet played, and an advance shared out.

#[repr(C)]
struct Portion {
    takes_part: u32,
    weight: u32,
    share: u32,
}

unsafe extern "C" {
    fn pekstuvna_list_sheet(
        sheet: *const u8,
        sheet_length: usize,
        listing: *mut u8,
        listing_length: usize,
    ) -> i64;
    fn pekstuvna_share_out(total: u32, portions: *mut Portion, count: usize) -> i64;
    fn pekstuvna_estimate(kwh: u32, days: u32, usage_days: u32) -> i64;
}

/// The fewest bytes of the buffer for a listing.
const LISTING_BYTES: usize = 16_384;

/// The listing of a sheet, or the number by which the call is refused.
fn list_sheet(sheet: &[u8]) -> Result<String, i64> {
    let mut listing = vec![0; LISTING_BYTES];
    // The sheet is only read, and the listing is written within its length.
    let count = unsafe {
        pekstuvna_list_sheet(
            sheet.as_ptr(),
            sheet.len(),
            listing.as_mut_ptr(),
            listing.len(),
        )
    };
    let count = usize::try_from(count).map_err(|_| -count)?;
    Ok(String::from_utf8_lossy(&listing[..count]).into_owned())
}

/// Shares a total out over months by their usage days.
fn share_out(total: u32, usage_days: &[u32]) -> Result<Vec<u32>, i64> {
    let mut months: Vec<Portion> = usage_days
        .iter()
        .map(|&weight| Portion {
            takes_part: 1,
            weight,
            share: 0,
        })
        .collect();
    let refusal = unsafe { pekstuvna_share_out(total, months.as_mut_ptr(), months.len()) };
    if refusal < 0 {
        return Err(-refusal);
    }
    Ok(months.iter().map(|month| month.share).collect())
}

fn main() {
    let sheet = b"1 PREMISE\nE-12 5 100 99500 7\n3 CALLS\nM 108\nM 138\nR 168 800\n";
    match list_sheet(sheet) {
        Ok(listing) => print!("{listing}"),
        Err(number) => println!("no listing: {number}"),
    }
    println!("shared out: {:?}", share_out(100, &[30, 30, 31]));
    println!("no usage days: {:?}", share_out(100, &[0, 0]));
    println!("estimate: {}", unsafe { pekstuvna_estimate(350, 30, 31) });
}
