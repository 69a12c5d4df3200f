//! Link records, for networks in memory.

/// A link between two ASes as a record, in the order of a text's line. [`check_links`](crate::check_links) and
/// [`stable_table`](crate::stable_table) take a list of them.
///
/// Records may hold any numbers: those that no network can have are refused, with the record's index.
///
/// ```
/// use bostuvrel::Link;
/// assert_eq!(Link::provides(10, 20), Link { a: 10, b: 20, relation: 1 });
/// assert_eq!(Link::peers(10, 40), Link { a: 10, b: 40, relation: 0 });
/// ```
#[derive(Clone, Copy, Debug, PartialEq, Eq, PartialOrd, Ord, Hash)]
#[repr(C)]
pub struct Link {
    /// The first AS.
    pub a: u32,
    /// The second AS.
    pub b: u32,
    /// 0 where they are peers, 1 where a is provider of b.
    pub relation: u32,
}

impl Link {
    /// The link over which `a` is provider of `b`: `a|b|-1` in a text.
    pub fn provides(a: u32, b: u32) -> Link {
        Link { a, b, relation: 1 }
    }

    /// The link over which `a` and `b` are peers: `a|b|0` in a text.
    pub fn peers(a: u32, b: u32) -> Link {
        Link { a, b, relation: 0 }
    }
}
