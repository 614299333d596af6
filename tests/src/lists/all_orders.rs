//! All orders of a few things.

/// The first is the one given.
pub fn all_orders<T: Copy>(of: &[T]) -> Vec<Vec<T>> {
    let Some((first, rest)) = of.split_first() else {
        return vec![Vec::new()];
    };
    let put_in = |order: Vec<T>| {
        (0..=order.len()).map(move |place| {
            let mut longer = order.clone();
            longer.insert(place, *first);
            longer
        })
    };
    all_orders(rest).into_iter().flat_map(put_in).collect()
}

#[cfg(test)]
mod tests {
    use super::*;

    #[test]
    fn each_order_once() {
        assert_eq!(all_orders(&[4, 7]), [[4, 7], [7, 4]]);
        for (count, number) in [1, 1, 2, 6, 24].into_iter().enumerate() {
            let given: Vec<usize> = (0..count).collect();
            let mut all = all_orders(&given);
            assert_eq!(all[0], given);
            all.sort();
            all.dedup();
            assert_eq!(all.len(), number);
        }
    }
}
