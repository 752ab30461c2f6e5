//! The tiebreak of RFC 6762 section 8.2, as narrowed by "Later" in the specification.

use std::cmp::Ordering;

/// A record as the tiebreak sees it. The derived order is class, type, then
/// "rdata bytes as 0..255; the longer of two equal beginnings is later".
#[derive(Clone, Debug, PartialEq, Eq, PartialOrd, Ord)]
pub struct Entry {
    pub class: u16,
    pub rtype: u16,
    pub rdata: Vec<u8>,
}

/// "sort each list [...] Compare in turn; a list that runs out first is
/// earlier. Equal lists: no one defers. Repeats stay." `Greater` means that
/// `theirs` is later.
pub fn compare(mut theirs: Vec<Entry>, mut ours: Vec<Entry>) -> Ordering {
    theirs.sort();
    ours.sort();
    theirs.cmp(&ours)
}

#[cfg(test)]
mod tests {
    use super::*;
    use crate::rtype;

    fn entry(class: u16, rtype: u16, rdata: &[u8]) -> Entry {
        Entry {
            class,
            rtype,
            rdata: rdata.to_vec(),
        }
    }

    fn a(rdata: [u8; 4]) -> Entry {
        entry(1, rtype::A, &rdata)
    }

    #[test]
    fn bytes_are_unsigned() {
        let ours = vec![a([169, 254, 99, 200])];
        let theirs = vec![a([169, 254, 200, 50])];
        assert_eq!(compare(theirs.clone(), ours.clone()), Ordering::Greater);
        assert_eq!(compare(ours, theirs), Ordering::Less);
    }

    #[test]
    fn equal_lists_give_0_in_any_order_and_repeats_stay() {
        let (first, second) = (a([1, 2, 3, 4]), a([1, 2, 3, 5]));
        let list = vec![first.clone(), second.clone()];
        let turned = vec![second.clone(), first.clone()];
        assert_eq!(compare(list.clone(), turned), Ordering::Equal);
        let repeated = vec![first.clone(), first, second];
        assert_eq!(compare(repeated, list), Ordering::Less);
    }

    #[test]
    fn the_list_that_runs_out_is_earlier() {
        let short = vec![a([10, 0, 0, 7])];
        let mut long = short.clone();
        long.push(entry(1, rtype::AAAA, &[0; 16]));
        assert_eq!(compare(short.clone(), long.clone()), Ordering::Less);
        assert_eq!(compare(long, short.clone()), Ordering::Greater);
        assert_eq!(compare(vec![], short), Ordering::Less);
    }

    #[test]
    fn class_then_type_then_rdata_then_length() {
        let order = [
            entry(1, 1, &[255; 4]),
            entry(1, 16, &[]),
            entry(1, 16, &[0]),
            entry(1, 16, &[0, 0]),
            entry(1, 16, &[1]),
            entry(1, 33, &[0; 7]),
            entry(3, 1, &[0; 4]),
        ];
        for (i, x) in order.iter().enumerate() {
            for (j, y) in order.iter().enumerate() {
                assert_eq!(compare(vec![x.clone()], vec![y.clone()]), i.cmp(&j));
            }
        }
    }
}
