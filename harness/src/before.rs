//! The library of an earlier commit, which scripts/before-archive makes. It is linked with the feature `before` alone.

use crate::implementations::Recognise;
#[cfg(feature = "before")]
use crate::{answer_of, Limits, Numbers};

/// Its recognise, if it is linked.
#[cfg(not(feature = "before"))]
pub const RECOGNISE: Option<Recognise> = None;
#[cfg(feature = "before")]
pub const RECOGNISE: Option<Recognise> = Some(recognise);

#[cfg(feature = "before")]
fn recognise(image: &[u8], input: &[u8], limits: Limits, slots: &mut [u32]) -> Numbers {
    answer_of!(before_recognise, image, input, limits, slots)
}
