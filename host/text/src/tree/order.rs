//! Execution orders that are worked out from the entries.

/// Modules that are being placed one after another.
struct Placing<'a> {
    needs: &'a [Vec<usize>],
    /// Whether a module has been placed, or is about to be.
    met: Vec<bool>,
    orders: Vec<u32>,
    next: u32,
}

/// A module that is about to be placed, and how many of its needs have been looked at.
struct Open {
    module: usize,
    looked_at: usize,
}

/// The place of each module if what a module needs comes before it, beginning with the first entry;
/// modules that no entry leads to come last, in the order of their lines.
pub fn from_entries(needs: &[Vec<usize>], starts: &[usize]) -> Vec<u32> {
    let (met, orders) = (vec![false; needs.len()], vec![0; needs.len()]);
    let mut placing = Placing { needs, met, orders, next: 0 };
    for start in starts.iter().copied().chain(0..needs.len()) {
        placing.place_from(start);
    }
    placing.orders
}

impl Placing<'_> {
    /// Places a module after all that it needs. A circle is entered where it was met first.
    fn place_from(&mut self, start: usize) {
        let mut open = Vec::new();
        let mut coming = Some(start);
        loop {
            if let Some(module) = coming.filter(|module| !self.met[*module]) {
                self.met[module] = true;
                open.push(Open { module, looked_at: 0 });
            }
            let Some(last) = open.last_mut() else { break };
            coming = self.needs[last.module].get(last.looked_at).copied();
            last.looked_at += 1;
            if coming.is_none() {
                self.orders[last.module] = self.next;
                self.next += 1;
                open.pop();
            }
        }
    }
}

#[cfg(test)]
mod tests {
    use super::from_entries;

    #[test]
    fn needs_come_first() {
        // 0 needs 1 and 2, 1 needs 2.
        assert_eq!(from_entries(&[vec![1, 2], vec![2], vec![]], &[0]), [2, 1, 0]);
    }

    #[test]
    fn entries_come_one_after_another_and_the_rest_by_line() {
        let needs = [vec![], vec![3], vec![3], vec![], vec![0]];
        assert_eq!(from_entries(&needs, &[2, 1]), [3, 2, 1, 0, 4]);
    }

    #[test]
    fn a_circle_ends() {
        assert_eq!(from_entries(&[vec![1], vec![2], vec![0]], &[1]), [0, 2, 1]);
    }
}
