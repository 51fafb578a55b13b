//! Circuit files of the former edition, in which delays go up to 63.

use crate::limits::CONVERTER_LENGTH;
use crate::refusal::{accepted, Refusal};
use crate::sys;

/// The file of the same circuit in the present edition.
///
/// ```
/// use mazhorukku::{newer, older, Circuit, Kind, Refusal};
///
/// let mut circuit = Circuit::new(1);
/// circuit.gate(Kind::Not, 63, 0, &[0]);
/// let former = older(&circuit.to_bytes()).unwrap();
/// assert_eq!(former, [1, 0, 1, 0, 8, 0, 5, 0, 1, 63, 0, 0, 0]);
/// assert_eq!(newer(&former).unwrap(), circuit.to_bytes());
///
/// circuit.gate(Kind::Not, 64, 0, &[0]);
/// assert_eq!(older(&circuit.to_bytes()), Err(Refusal::DelayTooLong));
/// ```
///
/// # Errors
/// The first "no" of 1 to 9, as they are asked of the former edition.
pub fn newer(file: &[u8]) -> Result<Vec<u8>, Refusal> {
    converted(sys::newer, file)
}

/// The file of the same circuit in the former edition.
///
/// # Errors
/// The first "no" of 1 to 9 and 23.
pub fn older(file: &[u8]) -> Result<Vec<u8>, Refusal> {
    converted(sys::older, file)
}

/// The file of the same circuit in the other edition: [`older`] where bytes 0 and 1 hold 256 or more, else [`newer`].
///
/// # Errors
/// Those of the two.
pub fn other(file: &[u8]) -> Result<Vec<u8>, Refusal> {
    converted(sys::other, file)
}

fn converted(call: fn(&[u8], &mut [u8], &mut [u32; 1]) -> u32, file: &[u8]) -> Result<Vec<u8>, Refusal> {
    let mut area = vec![0; CONVERTER_LENGTH];
    let mut written = [0];
    accepted(call(file, &mut area, &mut written))?;
    area.truncate(written[0] as usize);
    Ok(area)
}
