//! The other end: which packets it has, and when and how it acknowledges them.

/// Numbers received in one space, as half-open ranges in ascending order.
#[derive(Default)]
pub struct Received {
    ranges: Vec<(u64, u64)>,
    /// Eliciting packets since the last ack.
    pub unanswered: u64,
    /// When the largest number came.
    pub largest_at: u64,
}

impl Received {
    pub fn take_in(&mut self, number: u64, now: u64) {
        let at = self.ranges.partition_point(|r| r.1 < number);
        match self.ranges.get_mut(at) {
            Some(range) if range.0 <= number && number < range.1 => return,
            Some(range) if range.1 == number => range.1 += 1,
            Some(range) if range.0 == number + 1 => range.0 = number,
            _ => self.ranges.insert(at, (number, number + 1)),
        }
        if at + 1 < self.ranges.len() && self.ranges[at].1 == self.ranges[at + 1].0 {
            self.ranges[at].1 = self.ranges.remove(at + 1).1;
        }
        if self.ranges.last().is_some_and(|r| r.1 == number + 1) {
            self.largest_at = now;
        }
    }

    /// The newest ranges, at most `most` of them.
    pub fn newest(&self, most: usize) -> Vec<(u64, u64)> {
        let from = self.ranges.len().saturating_sub(most);
        self.ranges[from..].to_vec()
    }
}

#[cfg(test)]
mod tests {
    use super::*;

    #[test]
    fn numbers_in_any_order_join_to_ranges() {
        let mut received = Received::default();
        for number in [5, 1, 3, 2, 9, 1] {
            received.take_in(number, number);
        }
        assert_eq!(received.newest(64), [(1, 4), (5, 6), (9, 10)]);
        assert_eq!(received.newest(1), [(9, 10)]);
        assert_eq!(received.largest_at, 9);
    }
}
