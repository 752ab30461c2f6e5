//! What is planned, by the link's time.

use std::cmp::Reverse;
use std::collections::BinaryHeap;

pub struct Queue<E> {
    /// Time, order within it, and place in `events`.
    planned: BinaryHeap<Reverse<(u64, u64, usize)>>,
    events: Vec<Option<E>>,
}

impl<E> Queue<E> {
    pub fn new() -> Queue<E> {
        Queue {
            planned: BinaryHeap::new(),
            events: Vec::new(),
        }
    }

    /// Events of one millisecond come by rising `order`.
    pub fn push(&mut self, time: u64, order: u64, event: E) {
        let place = self.events.len();
        self.planned.push(Reverse((time, order, place)));
        self.events.push(Some(event));
    }

    pub fn pop(&mut self) -> Option<(u64, E)> {
        let Reverse((time, _, place)) = self.planned.pop()?;
        Some((time, self.events[place].take()?))
    }
}

#[cfg(test)]
mod tests {
    use super::*;

    #[test]
    fn by_time_and_then_by_order() {
        let mut queue = Queue::new();
        for (time, order, event) in [(7, 2, 'd'), (5, 9, 'b'), (7, 1, 'c'), (5, 3, 'a')] {
            queue.push(time, order, event);
        }
        let events: String = std::iter::from_fn(|| queue.pop())
            .map(|(_, event)| event)
            .collect();
        assert_eq!(events, "abcd");
    }
}
