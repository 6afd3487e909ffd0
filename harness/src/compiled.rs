//! The library's `compile`: from a grammar text to its image.

use crate::notation::LONGEST_IMAGE;
use crate::outcome::{Outcome, Refused};

extern "C" {
    fn yarnspire_compile(text: *const u8, text_len: usize, image: *mut u8, image_len: usize, number: *mut u32, length: *mut u32, at: *mut u32);
}

/// Writes the image of a grammar text (docs/notation.md) to the front of a buffer, and gives its length; or the first refusal, 20 to 25, which leaves
/// the buffer as it was. An image has at most 16,384 bytes.
pub fn compile(text: &[u8], image: &mut [u8]) -> Result<usize, Refused> {
    compile_numbers(text, image).into()
}

/// The image of a grammar text, with a buffer that is long enough for every image; or the first refusal, 20 to 24.
pub fn image_of(text: &[u8]) -> Result<Vec<u8>, Refused> {
    let mut image = vec![0; LONGEST_IMAGE];
    let length = compile(text, &mut image)?;
    image.truncate(length);
    Ok(image)
}

/// [`compile`] as the library answers it: three numbers.
pub fn compile_numbers(text: &[u8], image: &mut [u8]) -> Outcome {
    let mut outcome = Outcome::UNWRITTEN;
    // Safety: each slice is valid for its length; the image is lent mutably and the three numbers are fields of their own, so that nothing that is
    // written overlaps anything else.
    unsafe { yarnspire_compile(text.as_ptr(), text.len(), image.as_mut_ptr(), image.len(), &mut outcome.number, &mut outcome.length, &mut outcome.at) };
    outcome
}
