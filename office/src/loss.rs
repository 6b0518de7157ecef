//! The losses of a list as its bytes hold them: one of 4 bytes for each section, in cm.

use crate::calls::MOST_SECTIONS;
use std::fmt;

/// Bytes of a loss.
pub const LOSS: usize = 4;
/// The greatest loss that the library takes, in cm. No table can give more.
pub const MOST: u32 = 4_259_775;

/// Bytes that are no list of whole losses.
#[derive(Clone, Debug, PartialEq, Eq)]
pub struct NoLosses {
    pub given: usize,
}

impl fmt::Display for NoLosses {
    fn fmt(&self, f: &mut fmt::Formatter) -> fmt::Result {
        let given = self.given;
        match given {
            0 => write!(f, "0 bytes, but a section's loss has {LOSS}"),
            _ if !given.is_multiple_of(LOSS) => {
                write!(f, "{given} bytes, but {LOSS} for each section are {}", given - given % LOSS)
            }
            _ if given > LOSS * MOST_SECTIONS => {
                write!(
                    f,
                    "{given} bytes, but {MOST_SECTIONS} sections, the most of a house, have {}",
                    LOSS * MOST_SECTIONS
                )
            }
            _ => write!(f, "{given} bytes, but the first of each {LOSS} is not 0, as it is in a loss"),
        }
    }
}

impl std::error::Error for NoLosses {}

/// The losses of any bytes that are whole losses, of as many sections as a house may have; section 1 is at place 0.
pub fn read(bytes: &[u8]) -> Result<Vec<u32>, NoLosses> {
    if bytes.is_empty() || !bytes.len().is_multiple_of(LOSS) || bytes.len() > LOSS * MOST_SECTIONS {
        return Err(NoLosses { given: bytes.len() });
    }
    Ok(bytes.chunks_exact(LOSS).map(|four| u32::from_be_bytes([four[0], four[1], four[2], four[3]])).collect())
}

/// Whether bytes are a list of losses and nothing else: none that the library takes has another first byte than 0, while the fifth
/// byte of a job and of a catalogue is their version, which is not 0.
pub fn is_list(bytes: &[u8]) -> bool {
    read(bytes).is_ok_and(|losses| losses.iter().all(|loss| loss >> 24 == 0))
}

/// The bytes of losses.
pub fn bytes(losses: &[u32]) -> Vec<u8> {
    losses.iter().flat_map(|loss| loss.to_be_bytes()).collect()
}

#[cfg(test)]
mod tests {
    use super::*;

    #[test]
    fn bytes_of_a_list() {
        let list = [0, 0, 0, 71, 0, 0x40, 0xff, 0xbf];
        assert_eq!(read(&list), Ok(vec![71, MOST]));
        assert_eq!(bytes(&[71, MOST]), list);
        assert!(is_list(&list) && is_list(&[0; 252]) && !is_list(&[0; 256]) && !is_list(&list[..7]) && !is_list(&[]));
        // A job and a catalogue have their version there.
        assert!(!is_list(&[0, 0, 0, 40, 1, 3, 0, 24]) && !is_list(&[1, 0, 0, 0]));
        assert_eq!(read(&[1, 0, 0, 0]), Ok(vec![16_777_216]));
    }
}
