//! Refusal 14: the child entries make no cycle.
//!
//! A node instance lies on a cycle if a path of one or more child entries
//! leads from it back to it. Leading into a cycle is not enough.

use crate::index::Index;
use crate::refusal::{self, Refusal};
use crate::tree::Tree;

/// Every child entry names a node instance that is there.
pub fn check(tree: &Tree, index: &Index) -> Result<(), Refusal> {
    let children: Vec<Vec<usize>> = tree
        .node_instances
        .iter()
        .map(|instance| {
            let names = instance.children.iter().map(|child| child.node);
            names.filter_map(|name| index.node_instance(name)).collect()
        })
        .collect();
    match first_on_cycle(&children) {
        Some(position) => Err(Refusal::new(
            refusal::CYCLE,
            tree.node_instances[position].at,
        )),
        None => Ok(()),
    }
}

/// The lowest position that lies on a cycle, where `children[p]` are the
/// positions that `p` leads to.
pub fn first_on_cycle(children: &[Vec<usize>]) -> Option<usize> {
    let mut search = Search {
        children,
        order: vec![None; children.len()],
        lowest: vec![0; children.len()],
        open: Vec::new(),
        is_open: vec![false; children.len()],
        visited: 0,
        first: None,
    };
    for position in 0..children.len() {
        if search.order[position].is_none() {
            search.visit(position);
        }
    }
    search.first
}

/// Tarjan's search for strongly connected components. A position lies on a
/// cycle exactly when its component has a second position or it is its own
/// child.
struct Search<'a> {
    children: &'a [Vec<usize>],
    /// When each position was first visited.
    order: Vec<Option<usize>>,
    /// The earliest visit among the open positions known to be reachable.
    lowest: Vec<usize>,
    /// Visited positions whose component is not complete.
    open: Vec<usize>,
    is_open: Vec<bool>,
    visited: usize,
    first: Option<usize>,
}

impl Search<'_> {
    /// Recursion is as deep as the longest path, so at most the number of
    /// node instances.
    fn visit(&mut self, position: usize) {
        let own = self.visited;
        self.visited += 1;
        self.order[position] = Some(own);
        self.lowest[position] = own;
        self.open.push(position);
        self.is_open[position] = true;

        let children = self.children;
        for &child in &children[position] {
            match self.order[child] {
                None => {
                    self.visit(child);
                    self.lowest[position] = self.lowest[position].min(self.lowest[child]);
                }
                Some(visit) if self.is_open[child] => {
                    self.lowest[position] = self.lowest[position].min(visit);
                }
                Some(_) => {}
            }
        }

        if self.lowest[position] == own {
            self.close(position);
        }
    }

    /// Completes the component that was entered at `entry`.
    fn close(&mut self, entry: usize) {
        let start = self
            .open
            .iter()
            .rposition(|&position| position == entry)
            .expect("an entry stays open until its component is complete");
        let component = self.open.split_off(start);
        for &position in &component {
            self.is_open[position] = false;
        }
        if component.len() > 1 || self.children[entry].contains(&entry) {
            let lowest = component.into_iter().min();
            self.first = self.first.into_iter().chain(lowest).min();
        }
    }
}

#[cfg(test)]
mod tests {
    use super::first_on_cycle;
    use crate::generate::Random;

    /// Follows every path from each position in turn.
    fn slow_first_on_cycle(children: &[Vec<usize>]) -> Option<usize> {
        (0..children.len()).find(|&start| {
            let mut seen = vec![false; children.len()];
            let mut waiting = children[start].clone();
            while let Some(position) = waiting.pop() {
                if !seen[position] {
                    seen[position] = true;
                    waiting.extend(&children[position]);
                }
            }
            seen[start]
        })
    }

    #[test]
    fn agrees_with_the_plain_definition() {
        let mut random = Random::new(14);
        let mut with_cycle = 0;
        for _ in 0..20_000 {
            let count = random.between(1, 9);
            let mut children = vec![Vec::new(); count];
            for _ in 0..random.below(12) {
                let parent = random.below(count);
                children[parent].push(random.below(count));
            }
            let expected = slow_first_on_cycle(&children);
            assert_eq!(first_on_cycle(&children), expected, "{children:?}");
            with_cycle += usize::from(expected.is_some());
        }
        assert!((2_000..18_000).contains(&with_cycle));
    }

    #[test]
    fn a_lead_in_is_not_on_the_cycle() {
        assert_eq!(first_on_cycle(&[vec![1], vec![2], vec![1]]), Some(1));
    }

    #[test]
    fn a_bridge_between_cycles_is_on_neither() {
        let children = [vec![2], vec![1, 0], vec![3], vec![3]];
        assert_eq!(first_on_cycle(&children), Some(1));
    }
}
