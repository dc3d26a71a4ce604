//! Stand-in for `itertools`: the methods in use. The sort keeps the order of equals, as the crate's does.

use std::cmp::Ordering;
use std::fmt::Display;

pub trait Itertools: Iterator {
    fn collect_vec(self) -> Vec<Self::Item>
    where
        Self: Sized,
    {
        self.collect()
    }

    fn sorted_by<F>(self, compare: F) -> std::vec::IntoIter<Self::Item>
    where
        Self: Sized,
        F: FnMut(&Self::Item, &Self::Item) -> Ordering,
    {
        let mut all: Vec<_> = self.collect();
        all.sort_by(compare);
        all.into_iter()
    }

    fn join(self, between: &str) -> String
    where
        Self: Sized,
        Self::Item: Display,
    {
        let parts: Vec<String> = self.map(|part| part.to_string()).collect();
        parts.join(between)
    }
}

impl<I: Iterator> Itertools for I {}
