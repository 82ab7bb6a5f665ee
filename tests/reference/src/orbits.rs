//! Orbits as sets, parts as a union-find, and the counts.

use crate::{Answer, Map, refusal};
use std::collections::{BTreeMap, BTreeSet};

/// The four kinds of orbit.
#[derive(Clone, Copy, Debug, PartialEq, Eq)]
pub enum Kind {
    Edge,
    Vertex,
    Face,
    Part,
}

/// An orbit as it is given: bit j of word w stands for dart 64 × w + j.
#[derive(Clone, Debug, PartialEq, Eq)]
pub struct Orbit {
    pub words: [u64; 16],
    pub size: usize,
}

#[derive(Clone, Copy, Debug, PartialEq, Eq)]
pub struct Counts {
    pub darts: usize,
    pub vertices: usize,
    pub edges: usize,
    pub faces: usize,
    pub parts: usize,
}

/// Classes of present darts, by union-find.
pub(crate) struct Partition {
    parent: BTreeMap<usize, usize>,
}

impl Partition {
    fn representative(&self, mut dart: usize) -> usize {
        while self.parent[&dart] != dart {
            dart = self.parent[&dart];
        }
        dart
    }

    fn unite(&mut self, a: usize, b: usize) {
        let (a, b) = (self.representative(a), self.representative(b));
        self.parent.insert(a.max(b), a.min(b));
    }

    /// The classes of the present darts under these links.
    fn under(m: &Map, links: &[&dyn Fn(usize) -> usize]) -> Self {
        let darts = m.darts();
        let mut classes = Partition { parent: darts.iter().map(|&d| (d, d)).collect() };
        for &dart in &darts {
            for link in links {
                classes.unite(dart, link(dart));
            }
        }
        classes
    }

    /// The connected parts. The links of present darts must be present darts.
    pub(crate) fn into_parts(m: &Map) -> Self {
        Self::under(m, &[&|d| m.edge_link(d), &|d| m.point_link(d)])
    }

    #[cfg(test)]
    pub(crate) fn into_classes(self) -> Vec<Vec<usize>> {
        let mut classes: BTreeMap<usize, Vec<usize>> = BTreeMap::new();
        for &dart in self.parent.keys() {
            classes.entry(self.representative(dart)).or_default().push(dart);
        }
        classes.into_values().collect()
    }

    fn number(&self) -> usize {
        self.parent.iter().filter(|(dart, parent)| dart == parent).count()
    }
}

impl Map {
    /// The dart, or number 6 where it is absent.
    pub(crate) fn dart(&self, dart: u64) -> Answer<usize> {
        usize::try_from(dart).ok().filter(|&d| self.is_present(d)).ok_or(refusal::NO_DART)
    }

    /// The orbit of a dart: it grows until no link leads out of it.
    pub fn orbit(&self, kind: Kind, dart: u64) -> Answer<Orbit> {
        let mut orbit = BTreeSet::new();
        let mut found = vec![self.dart(dart)?];
        while let Some(d) = found.pop() {
            if orbit.insert(d) {
                match kind {
                    Kind::Edge => found.push(self.edge_link(d)),
                    Kind::Vertex => found.push(self.point_link(d)),
                    Kind::Face => found.push(self.face_link(d)),
                    Kind::Part => found.extend([self.edge_link(d), self.point_link(d)]),
                }
            }
        }
        let mut words = [0; 16];
        for d in &orbit {
            words[d / 64] |= 1 << (d % 64);
        }
        Ok(Orbit { words, size: orbit.len() })
    }

    /// Darts, vertices, edges, faces and parts.
    pub fn counts(&self) -> Counts {
        Counts {
            darts: self.darts().len(),
            vertices: Partition::under(self, &[&|d| self.point_link(d)]).number(),
            edges: Partition::under(self, &[&|d| self.edge_link(d)]).number(),
            faces: Partition::under(self, &[&|d| self.face_link(d)]).number(),
            parts: Partition::into_parts(self).number(),
        }
    }
}
