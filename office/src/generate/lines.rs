//! Whose water a job is about, and in which version its record says so.

use super::rng::Rng;
use crate::case::Call;
use crate::model::norms::{self, Norm};

#[derive(Clone, Copy, Debug, PartialEq, Eq)]
pub enum Line {
    /// Version 1, which has no service.
    Unnamed,
    /// Version 2 with service 0.
    Total,
    Cold,
    Hot,
}

impl Line {
    /// For a call; heat is mostly asked of hot lines.
    pub fn of(rng: &Rng, call: Call) -> Line {
        if call == Call::Heat && !rng.once_in(8) {
            return Line::Hot;
        }
        match rng.below(16) {
            0..7 => Line::Unnamed,
            7..9 => Line::Total,
            9..12 => Line::Cold,
            _ => Line::Hot,
        }
    }

    pub fn version(self) -> u8 {
        if self == Line::Unnamed { 1 } else { 2 }
    }

    /// The service byte, where the record has one.
    pub fn service(self) -> Option<u8> {
        match self {
            Line::Unnamed => None,
            Line::Total => Some(0),
            Line::Cold => Some(1),
            Line::Hot => Some(2),
        }
    }

    /// The norms of a kind.
    pub fn norm(self, kind: usize) -> Norm {
        norms::of(self.service().unwrap_or(0).into(), kind)
    }

    /// Whether the norms are those of a cold or a hot line.
    pub fn is_part(self) -> bool {
        matches!(self, Line::Cold | Line::Hot)
    }
}
