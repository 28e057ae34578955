//! Where ruby stands over its group (document 01, "Records and groups", and document 02, request 06).

use crate::raw;
use crate::refusal::{Refusal, RECORD};

/// The offset of the k-th ruby character from the start of its group, `k` counted from 0.
///
/// `base_advance` is the sum of the base characters' advances; `size` is theirs, and a ruby
/// character's is half of it.
///
/// Where the ruby is shorter than its base, two or more characters start and end together with it, and the gaps
/// between them open alike; a single one stands in the middle. Where it is longer, it is set solid, and the base
/// under it is opened or centred in the same way: in [`Line::xs`](crate::Line::xs).
///
/// ```
/// use gelumbrio::{ruby_place, Refusal};
///
/// // Over two ideographs of size 80.
/// assert_eq!([0, 1, 2].map(|k| ruby_place(160, 3, 80, k)), [Ok(0), Ok(60), Ok(120)]);
/// assert_eq!(ruby_place(160, 1, 80, 0), Ok(60));
/// // Over one of them.
/// assert_eq!([0, 1, 2].map(|k| ruby_place(80, 3, 80, k)), [Ok(0), Ok(40), Ok(80)]);
/// // There is no fourth.
/// assert_eq!(ruby_place(80, 3, 80, 3), Err(Refusal::Ruby));
/// ```
pub fn ruby_place(base_advance: u32, ruby_count: u32, size: u32, k: u32) -> Result<u32, Refusal> {
    let place = raw::ruby_place(base_advance, ruby_count, size, k);
    match place.number {
        0 => Ok(place.offset),
        RECORD => Err(Refusal::Ruby),
        number => Err(Refusal::Unknown { number, place: 0 }),
    }
}
