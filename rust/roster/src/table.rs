//! The table that a text has: the partners of all riders, as the planner's calls take them.

#[derive(PartialEq, Eq, Debug)]
pub struct Table {
    pub starts: Vec<u16>,
    pub links: Vec<u16>,
}

impl Table {
    /// Of a text that the planner has accepted: each rider, in their order, has a line of the form `(rider v (with a b c))`, no other line
    /// is of that form, and 16 bits hold each number and how many there are.
    pub fn of_accepted(text: &[u8]) -> Table {
        let text = std::str::from_utf8(text).expect("an accepted text has no byte but those of its form");
        let (mut starts, mut links) = (vec![0], vec![]);
        for list in text.lines().filter_map(|line| line.split_once(" (with")?.1.strip_suffix("))")) {
            let partners = list.split_whitespace().map(|word| word.parse::<u16>());
            links.extend(partners.map(|partner| partner.expect("an accepted list has numbers of 16 bits")));
            starts.push(links.len() as u16);
        }
        Table { starts, links }
    }
}

#[cfg(test)]
mod tests {
    use super::*;
    use crate::{answer, size_of_accepted, Answer};
    use planner::Size;
    use pools::{Pool, Random};

    /// The table read from the pool's text is the pool's, and the size that the roster shows is the one counted naively.
    fn compare(pool: &Pool) -> Size {
        let (Pool { starts, links, .. }, text) = (pool.clone(), pool.text(1));
        assert_eq!(Table::of_accepted(&text), Table { starts, links });
        let graph = reference::check_table(&pool.starts, &pool.links).unwrap();
        let reference::Size { edges, max_degree } = reference::size(&graph);
        assert!(matches!(answer(&text), Answer::Sheet(_)), "{pool:?}");
        let size = size_of_accepted(&text);
        assert_eq!(size, Size { edges, max_degree }, "{pool:?}");
        size
    }

    /// The examples, as the naive reader reads them.
    #[test]
    fn examples() {
        let admitted = |text: &[u8]| reference::admit_text(text, crate::LONGEST_SHEET).ok();
        let accepted = pools::examples().into_iter().filter_map(|example| Some((admitted(&example.text)?, example)));
        let names = accepted.map(|(reference::Admitted { starts, links, .. }, example)| {
            assert!(Table::of_accepted(&example.text) == Table { starts, links }, "{}", example.name);
            example.name
        });
        assert!(names.eq(["chain", "stations", "thousand"]));
    }

    #[test]
    fn small_pools() {
        let count = (0..=4).flat_map(Pool::all).map(|pool| compare(&pool)).count();
        assert_eq!(count, 1 + 2 + 8 + 64 + 1024);
    }

    #[test]
    fn random_pools() {
        let (mut random, mut unlisted) = (Random(1073741827), 0);
        for _ in 0..4000 {
            let pool = Pool::random_small(&mut random, 40);
            compare(&pool);
            unlisted += (0..pool.size()).filter(|&v| pool.list(v).is_empty()).count();
        }
        println!("4,000 texts of random pools, with {unlisted} riders who have no partner");
        assert!(unlisted > 1000);
    }

    #[test]
    fn limits() {
        let size = |edges, max_degree| Size { edges, max_degree };
        assert_eq!(compare(&Pool::of_edges(0, [], vec![])), size(0, 0));
        assert_eq!(compare(&Pool::of_edges(1, [], vec![1])), size(0, 0));
        assert_eq!(compare(&Pool::of_edges(1024, [], vec![0; 1024])), size(0, 0));
        let star = Pool::of_edges(1024, (1..1024).map(|v| (0, v)), vec![0; 1024]);
        assert_eq!(compare(&star), size(1023, 1023));
        let full = Pool::of_edges(192, (0..64).flat_map(|u| (64..192).map(move |v| (u, v))), vec![0; 192]);
        assert_eq!(compare(&full), size(8192, 128));
        assert_eq!(compare(&Pool::random(&mut Random(1024), 1024, 5000)).edges, 5000);
    }
}
