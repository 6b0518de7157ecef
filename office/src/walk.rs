//! The walk from a section over its parents to the pump. Every path loss that the command shows comes from it.

use crate::record::Section;

/// One turn of a walk.
#[derive(Clone, Copy, Debug, PartialEq, Eq)]
pub struct Turn {
    /// The section reached.
    pub section: u8,
    /// What its own pipe loses, in cm.
    pub loss: u32,
    /// What it and the sections before it on the walk lose together, in cm; after the last turn the path loss asked for.
    pub sum: i64,
}

/// The turns from a section to the pump, a section each, its own first; from the pump, 0, there is none. Section 1 and its loss
/// are at place 0. At the start of each turn `sum` plus the path loss of section `at` is the path loss asked for.
///
/// There is no walk where a section or its loss is missing, nor where a parent is not less than its section: it could go round for
/// ever. The library takes no such house. So there are at most 255 turns, and 64 bits hold any sum of so many losses.
pub fn walk(sections: &[Section], losses: &[u32], section: u8) -> Option<Vec<Turn>> {
    let mut turns = Vec::new();
    let mut sum: i64 = 0;
    let mut at = section;
    while 0 < at {
        let place = usize::from(at) - 1;
        let (loss, parent) = (*losses.get(place)?, sections.get(place)?.parent);
        sum += i64::from(loss);
        turns.push(Turn { section: at, loss, sum });
        if parent >= at {
            return None;
        }
        at = parent;
    }
    Some(turns)
}

#[cfg(test)]
mod tests {
    use super::*;

    fn from(parents: &[u8]) -> Vec<Section> {
        parents.iter().map(|parent| Section { parent: *parent, ..Section::default() }).collect()
    }

    /// A main, a riser of two storeys and a branch: 1 hangs on the pump, 2 and 4 on 1, 3 on 2.
    #[test]
    fn each_turn_goes_to_the_parent() {
        let (sections, losses) = (from(&[0, 1, 2, 1]), [100, 20, 3, 4_000]);
        let found = |section| {
            let turns = walk(&sections, &losses, section).expect("it ends at the pump");
            turns.iter().map(|turn| (turn.section, turn.loss, turn.sum)).collect::<Vec<_>>()
        };
        assert_eq!(found(3), [(3, 3, 3), (2, 20, 23), (1, 100, 123)]);
        assert_eq!(found(4), [(4, 4_000, 4_000), (1, 100, 4_100)]);
        assert_eq!(found(1), [(1, 100, 100)]);
        assert_eq!(found(0), []);
    }

    /// Any parents, losses and section end in a walk or in none.
    #[test]
    fn what_the_library_does_not_take_has_no_walk() {
        let losses = [1; 255];
        // A circle of two, a section that hangs on itself, a parent that is greater, one that is not there.
        for parents in [&[2, 1][..], &[1], &[2, 0], &[9]] {
            assert_eq!(walk(&from(parents), &losses, 1), None, "{parents:?}");
        }
        let chain = from(&(0..=254).collect::<Vec<u8>>());
        for (sections, losses, section) in
            [(&chain[..254], &losses[..], 255), (&chain, &losses[..254], 255), (&chain, &[], 1), (&[], &[], 1)]
        {
            assert_eq!(walk(sections, losses, section), None);
        }
        // The most sections that a record's byte can count, each with the most that its loss's bytes hold.
        let most = walk(&chain, &[u32::MAX; 255], 255).expect("it ends at the pump");
        assert_eq!(most.last().map(|turn| (turn.section, turn.sum)), Some((1, 255 * 4_294_967_295)));
    }
}
