//! The least cost of a suitable list by fronts, for houses of any size.
//!
//! A front says what a part of the tree costs at each head: points of head and cost, where each next point has more head and
//! costs less. A head under the first point's is not enough. Side by side, two parts need the greater head and cost the sum;
//! a section before a part adds its loss and its price, for each of its sizes; and of all points only those stay that no
//! other undercuts. Points over the head that the pump delivers are dropped at once.

use super::rating::Order;

#[derive(Clone, Copy, Debug, PartialEq, Eq)]
struct Point {
    head: i64,
    cost: i64,
}

type Front = Vec<Point>;

/// One size of one section that serves within the limit.
struct Fit {
    size: u8,
    loss: i64,
    cost: i64,
}

struct Search {
    /// Section i at place i; place 0 is the pump.
    children: Vec<Vec<usize>>,
    need: Vec<i64>,
    options: Vec<Vec<Fit>>,
    /// What hangs below each section's end, filled from the leaves.
    ends: Vec<Front>,
    head: i64,
}

/// A suitable list of least cost with its cost; `None` where no list suits.
pub fn least(order: &Order) -> Option<(i128, Vec<u8>)> {
    let mut search = Search::of(order);
    search.fill(0);
    let cost = cost_at(&search.ends[0], search.head)?;
    let mut list = vec![0; order.flows.len()];
    search.read_back(0, search.head, &mut list);
    Some((i128::from(cost), list))
}

impl Search {
    fn of(order: &Order) -> Search {
        let house = order.house;
        let count = house.sections.len();
        let mut children = vec![Vec::new(); count + 1];
        house.sections.iter().zip(1..).for_each(|(s, own)| children[s.parent].push(own));
        let options = |section: usize| -> Vec<Fit> {
            let fitted = (1..=order.cat.sizes.len()).map(|t| (t, order.fitted(section, t)));
            let fitting = fitted.filter_map(|(t, fitted)| {
                let cost = order.price(section, t) as i64;
                Some(Fit { size: t as u8, loss: fitted?.loss as i64, cost })
            });
            fitting.collect()
        };
        // The pump has no end of its own; any head will do there.
        let need = std::iter::once(i64::MIN).chain(house.sections.iter().map(|s| (s.elevation + s.free) as i64));
        Search {
            children,
            need: need.collect(),
            options: std::iter::once(Vec::new()).chain((1..=count).map(options)).collect(),
            ends: vec![Vec::new(); count + 1],
            head: (house.delivered - house.meter) as i64,
        }
    }

    /// Works out the front of what hangs below an end, and of everything further down.
    fn fill(&mut self, at: usize) {
        let mut end = vec![Point { head: self.need[at], cost: 0 }];
        for child in self.children[at].clone() {
            self.fill(child);
            let branch = self.options[child]
                .iter()
                .fold(Vec::new(), |least, option| cheaper(&least, &after(&self.ends[child], option, self.head)));
            end = beside(&end, &branch);
        }
        self.ends[at] = end;
    }

    /// Sizes the sections below an end that has this head.
    fn read_back(&self, at: usize, head: i64, list: &mut [u8]) {
        for child in &self.children[at] {
            let end = &self.ends[*child];
            let priced = self.options[*child].iter().filter_map(|o| Some((o.cost + cost_at(end, head - o.loss)?, o)));
            let (_, option) = priced.min_by_key(|(cost, _)| *cost).expect("the front has a point here");
            list[child - 1] = option.size;
            self.read_back(*child, head - option.loss, list);
        }
    }
}

/// The cost of a part at a head.
fn cost_at(front: &Front, head: i64) -> Option<i64> {
    let enough = front.partition_point(|point| point.head <= head);
    front[..enough].last().map(|point| point.cost)
}

/// A section of this size before a part, as far as the head allows.
fn after(front: &Front, option: &Fit, most: i64) -> Front {
    let moved = front.iter().map(|p| Point { head: p.head + option.loss, cost: p.cost + option.cost });
    moved.take_while(|point| point.head <= most).collect()
}

/// Either of two: at each head the cheaper.
fn cheaper(one: &Front, other: &Front) -> Front {
    let mut both = Vec::with_capacity(one.len() + other.len());
    let (mut i, mut j) = (0, 0);
    while i < one.len() || j < other.len() {
        let from_one = j == other.len() || (i < one.len() && one[i].head <= other[j].head);
        let point = if from_one { one[i] } else { other[j] };
        if from_one {
            i += 1
        } else {
            j += 1
        }
        keep(&mut both, point);
    }
    both
}

/// Both of two: at each head the sum, from the head on at which both work.
fn beside(one: &Front, other: &Front) -> Front {
    let mut both = Vec::with_capacity(one.len() + other.len());
    let (mut i, mut j) = (0, 0);
    // i and j count the points at or under the head of the sweep.
    while i < one.len() || j < other.len() {
        let head = match (one.get(i), other.get(j)) {
            (Some(a), Some(b)) => a.head.min(b.head),
            (Some(point), None) | (None, Some(point)) => point.head,
            (None, None) => break,
        };
        i += usize::from(one.get(i).is_some_and(|point| point.head == head));
        j += usize::from(other.get(j).is_some_and(|point| point.head == head));
        if i > 0 && j > 0 {
            keep(&mut both, Point { head, cost: one[i - 1].cost + other[j - 1].cost });
        }
    }
    both
}

/// Appends a point of no less head, unless it is undercut; at the same head the cheaper stays.
fn keep(front: &mut Front, point: Point) {
    match front.last_mut() {
        Some(last) if last.cost <= point.cost => {}
        Some(last) if last.head == point.head => *last = point,
        _ => front.push(point),
    }
}

#[cfg(test)]
mod tests {
    use super::*;

    fn front(points: &[(i64, i64)]) -> Front {
        points.iter().map(|(head, cost)| Point { head: *head, cost: *cost }).collect()
    }

    #[test]
    fn either_and_both() {
        let one = front(&[(1, 9), (4, 5), (8, 1)]);
        let other = front(&[(2, 8), (4, 4), (9, 3)]);
        assert_eq!(cheaper(&one, &other), front(&[(1, 9), (2, 8), (4, 4), (8, 1)]));
        assert_eq!(beside(&one, &other), front(&[(2, 17), (4, 9), (8, 5), (9, 4)]));
        assert_eq!(cheaper(&one, &Vec::new()), one);
        assert_eq!(beside(&one, &Vec::new()), Vec::new());
        assert_eq!(cost_at(&one, 0), None);
        assert_eq!(cost_at(&one, 7), Some(5));
    }
}
