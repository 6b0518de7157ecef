//! The least cost of a suitable list by trying every list, for small houses.

use super::rating::Order;

/// How many lists there are, or `None` where there are more than `most`.
pub fn lists(order: &Order, most: u64) -> Option<u64> {
    let sizes = order.cat.sizes.len() as u64;
    order.flows.iter().try_fold(1, |lists: u64, _| lists.checked_mul(sizes).filter(|lists| *lists <= most))
}

/// The least cost, and how many suitable lists have it; `None` where no list suits.
pub fn least(order: &Order) -> Option<(i128, u64)> {
    let sections = order.flows.len();
    let sizes = order.cat.sizes.len();
    let losses: Vec<Vec<Option<i128>>> =
        (1..=sections).map(|s| (1..=sizes).map(|t| order.fitted(s, t).map(|f| f.loss)).collect()).collect();
    let mut list = vec![1u8; sections];
    let mut best: Option<(i128, u64)> = None;
    loop {
        if required(order, &losses, &list).is_some_and(|head| head <= order.house.delivered) {
            let cost = order.cost(&list);
            best = match best {
                Some((least, ways)) if least == cost => Some((least, ways + 1)),
                Some((least, ways)) if least < cost => Some((least, ways)),
                _ => Some((cost, 1)),
            };
        }
        // The next list, counting like a counter of figures 1 to sizes.
        match list.iter().position(|t| usize::from(*t) < sizes) {
            Some(place) => {
                list[..place].fill(1);
                list[place] += 1;
            }
            None => return best,
        }
    }
}

/// The required head of a list; `None` where a section's size is too small.
fn required(order: &Order, losses: &[Vec<Option<i128>>], list: &[u8]) -> Option<i128> {
    let own: Vec<i128> = list.iter().zip(losses).map(|(t, of)| of[usize::from(*t) - 1]).collect::<Option<_>>()?;
    let ends = order.house.sections.iter().zip(&order.house.paths);
    let reaches = ends.map(|(s, path)| s.elevation + s.free + path.iter().map(|at| own[at - 1]).sum::<i128>());
    Some(order.house.meter + reaches.max()?)
}
