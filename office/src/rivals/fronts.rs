//! The search by fronts of head and cost, as good as it can be: over the sizes that are left, with points of one number each
//! and no branch that turns on them. A front's first point is at the raised need, each next one has more head and costs less,
//! and none has more head than is of use.

use super::tree::{Fit, Found, Tree};
use super::trim::Trim;

/// The head above, the cost below: points compare as their heads do, and at one head as their costs.
type Point = u64;

type Front = Vec<Point>;

/// Stands behind the last point of a front while two are gone through.
const END: Point = Point::MAX;

fn point(head: usize, cost: u32) -> Point {
    (head as u64) << 32 | u64::from(cost)
}

fn head(point: Point) -> usize {
    (point >> 32) as usize
}

fn cost(point: Point) -> u32 {
    point as u32
}

#[derive(Default)]
pub struct Fronts {
    trim: Trim,
    /// What hangs below each end; place 0 is the pump. Empty as long as nothing does.
    ends: Vec<Front>,
    branch: Front,
    moved: Front,
    spare: Front,
}

impl Fronts {
    pub fn choose(&mut self, tree: &Tree) -> Found {
        if !self.trim.trim(tree) {
            return None;
        }
        self.ends.resize_with(tree.parts.len() + 1, Vec::new);
        self.ends.iter_mut().for_each(Vec::clear);
        self.fill(tree);
        Some((cost_at(&self.ends[0], tree.head), self.read_back(tree)))
    }

    fn fill(&mut self, tree: &Tree) {
        for (place, part) in tree.parts.iter().enumerate().rev() {
            let (own, parent) = (place + 1, part.parent);
            if self.ends[own].is_empty() {
                self.ends[own].push(point(self.trim.lows[own], 0));
            }
            let (low, high) = (self.trim.lows[parent], self.trim.highs[parent]);
            self.branch.clear();
            for fit in self.trim.fits(own) {
                after(&self.ends[own], fit, low, high, &mut self.moved);
                cheaper(&self.branch, &self.moved, &mut self.spare);
                std::mem::swap(&mut self.branch, &mut self.spare);
            }
            if self.ends[parent].is_empty() {
                std::mem::swap(&mut self.ends[parent], &mut self.branch);
            } else {
                beside(&mut self.ends[parent], &mut self.branch, &mut self.spare);
                std::mem::swap(&mut self.ends[parent], &mut self.spare);
            }
        }
    }

    /// Sizes by choosing again, section by section, at the head that the parent's end has.
    fn read_back(&self, tree: &Tree) -> Vec<u8> {
        let mut heads = vec![tree.head];
        let mut list = Vec::with_capacity(tree.parts.len());
        for (part, own) in tree.parts.iter().zip(1..) {
            let head = heads[part.parent];
            let fits = self.trim.fits(own).iter().filter(|fit| fit.loss + self.trim.lows[own] <= head);
            let cost = |fit: &&Fit| fit.cost + cost_at(&self.ends[own], head - fit.loss);
            let fit = fits.min_by_key(cost).expect("a size fits here");
            list.push(fit.size);
            heads.push(head - fit.loss);
        }
        list
    }
}

/// The cost of a part at a head that is no less than its first point's.
fn cost_at(front: &[Point], at: usize) -> u32 {
    let enough = front.partition_point(|point| head(*point) <= at);
    cost(front[enough - 1])
}

/// A section of this size before a part, from the head `low` to the head `high`.
fn after(front: &[Point], fit: &Fit, low: usize, high: usize, moved: &mut Front) {
    moved.clear();
    // Heads under `low` count as `low`, and of the points there the last is the cheapest.
    let from = front.partition_point(|point| head(*point) + fit.loss <= low).saturating_sub(1);
    let to = front.partition_point(|point| head(*point) + fit.loss <= high);
    moved.extend(front[from..to].iter().map(|own| own + point(fit.loss, fit.cost)));
    if let Some(first) = moved.first_mut() {
        *first = point(head(*first).max(low), cost(*first));
    }
}

/// Either of two: at each head the cheaper. Only where the heads and the costs of the two overlap is there anything to compare.
fn cheaper(one: &[Point], other: &[Point], both: &mut Front) {
    both.clear();
    let least = other.last().map_or(u32::MAX, |last| cost(*last));
    let undercut = one.partition_point(|point| least <= cost(*point));
    let (one, rest) = one.split_at(undercut);
    let used = rest.first().map_or(other.len(), |first| other.partition_point(|point| head(*point) < head(*first)));
    let alone = one.first().map_or(used, |first| other[..used].partition_point(|point| point < first));
    let (lead, other) = other[..used].split_at(alone);
    both.extend_from_slice(lead);
    merge(one, other, both);
    both.extend_from_slice(rest);
}

/// Appends the points of two fronts that no other undercuts: one that does not cost less than the one before it is written
/// over.
fn merge(one: &[Point], other: &[Point], both: &mut Front) {
    let mut least = both.last().map_or(u32::MAX, |last| cost(*last));
    let (mut i, mut j, mut count) = (0, 0, both.len());
    both.resize(count + one.len() + other.len(), END);
    while i < one.len() && j < other.len() {
        let (a, b) = (one[i], other[j]);
        let next = a.min(b);
        i += usize::from(a <= b);
        j += usize::from(b < a);
        both[count] = next;
        count += usize::from(cost(next) < least);
        least = least.min(cost(next));
    }
    both.truncate(count);
    let left = one[i..].iter().chain(&other[j..]);
    both.extend(left.skip_while(|point| least <= cost(**point)));
}

/// Both of two that start at the same head: at each head the sum.
fn beside(one: &mut Front, other: &mut Front, both: &mut Front) {
    let points = (one.len(), other.len());
    one.push(END);
    other.push(END);
    both.clear();
    let (mut i, mut j) = (0, 0);
    while i < points.0 || j < points.1 {
        let at = head(one[i].min(other[j]));
        i += usize::from(head(one[i]) == at);
        j += usize::from(head(other[j]) == at);
        both.push(point(at, cost(one[i - 1]) + cost(other[j - 1])));
    }
}

#[cfg(test)]
mod tests {
    use super::*;

    fn front(points: &[(usize, u32)]) -> Front {
        points.iter().map(|(head, cost)| point(*head, *cost)).collect()
    }

    fn either(one: &[(usize, u32)], other: &[(usize, u32)]) -> Front {
        let mut both = front(&[(77, 7)]);
        cheaper(&front(one), &front(other), &mut both);
        both
    }

    #[test]
    fn either_of_two() {
        let one = [(1, 9), (4, 5), (8, 1)];
        assert_eq!(either(&one, &[(2, 8), (4, 4), (9, 3)]), front(&[(1, 9), (2, 8), (4, 4), (8, 1)]));
        assert_eq!(
            either(&one, &[(0, 12), (1, 10), (3, 9), (5, 5), (9, 0)]),
            front(&[(0, 12), (1, 9), (4, 5), (8, 1), (9, 0)])
        );
        assert_eq!(either(&one, &[(4, 5)]), front(&one));
        assert_eq!(either(&one, &[(0, 1)]), front(&[(0, 1)]));
        assert_eq!(either(&one, &[(8, 0)]), front(&[(1, 9), (4, 5), (8, 0)]));
        assert_eq!(either(&one, &[]), front(&one));
        assert_eq!(either(&[], &one), front(&one));
    }

    #[test]
    fn both_of_two() {
        let mut both = front(&[(77, 7)]);
        beside(&mut front(&[(2, 9), (4, 5), (8, 1)]), &mut front(&[(2, 8), (4, 4), (9, 3)]), &mut both);
        assert_eq!(both, front(&[(2, 17), (4, 9), (8, 5), (9, 4)]));
    }

    #[test]
    fn a_section_before_a_part() {
        let (fit, mut moved) = (Fit { size: 1, loss: 3, cost: 10 }, front(&[(77, 7)]));
        after(&front(&[(1, 9), (4, 5), (8, 1), (9, 0)]), &fit, 8, 11, &mut moved);
        assert_eq!(moved, front(&[(8, 15), (11, 11)]));
    }
}
