//! Lines of tables and sheets, and the kinds of their routes.
use std::fmt;

/// The kind of an AS's route: what its next hop is to it. The kinds are in the order in which an AS prefers them.
///
/// ```
/// use bostuvrel::Kind;
/// assert!(Kind::Customer < Kind::Peer && Kind::Peer < Kind::Provider);
/// assert_eq!(Kind::Provider.to_string(), "provider");
/// ```
#[derive(Clone, Copy, Debug, PartialEq, Eq, PartialOrd, Ord, Hash)]
pub enum Kind {
    /// Through a customer, or the destination itself.
    Customer,
    /// Through a peer.
    Peer,
    /// Through a provider.
    Provider,
    /// No route.
    Unreachable,
    /// A type that the rules do not have. The library writes none; a sheet from elsewhere may hold one, and is never right.
    Unknown(u8),
}

impl Kind {
    /// The kind of a type, as sheets and tables number it.
    ///
    /// ```
    /// use bostuvrel::Kind;
    /// assert_eq!([1, 2, 4, 7].map(Kind::of_type), [Kind::Customer, Kind::Peer, Kind::Unreachable, Kind::Unknown(7)]);
    /// ```
    pub fn of_type(number: u8) -> Kind {
        match number {
            1 => Kind::Customer,
            2 => Kind::Peer,
            3 => Kind::Provider,
            4 => Kind::Unreachable,
            other => Kind::Unknown(other),
        }
    }

    /// The type that stands for this kind: 1 customer, 2 peer, 3 provider, 4 unreachable.
    pub fn to_type(self) -> u8 {
        match self {
            Kind::Customer => 1,
            Kind::Peer => 2,
            Kind::Provider => 3,
            Kind::Unreachable => 4,
            Kind::Unknown(number) => number,
        }
    }
}

impl fmt::Display for Kind {
    fn fmt(&self, f: &mut fmt::Formatter<'_>) -> fmt::Result {
        f.pad(match self {
            Kind::Customer => "customer",
            Kind::Peer => "peer",
            Kind::Provider => "provider",
            Kind::Unreachable => "unreachable",
            Kind::Unknown(_) => "unknown",
        })
    }
}

/// A line of a sheet or table: how traffic runs from one AS.
///
/// ```
/// use bostuvrel::{Kind, Line};
/// let line = Line::from([50, 3, 4, 10]);
/// assert_eq!(line, Line { number: 50, kind: Kind::Provider, length: 4, next_hop: 10 });
/// assert_eq!(line.to_string(), "50 provider 4 by 10");
/// ```
#[derive(Clone, Copy, Debug, PartialEq, Eq, PartialOrd, Ord, Hash)]
pub struct Line {
    /// The AS.
    pub number: u32,
    /// The kind of its route.
    pub kind: Kind,
    /// How many links its traffic takes.
    pub length: u32,
    /// Where its traffic goes next: itself at the destination and where there is no route.
    pub next_hop: u32,
}

impl Line {
    /// How many bytes a line of a sheet takes.
    pub(crate) const BYTES: usize = 11;

    /// Whether this is the destination's mark, 'origin': type 1 and length 0.
    pub fn is_origin(&self) -> bool {
        self.kind == Kind::Customer && self.length == 0
    }

    /// AS (4 bytes), type (1), length (2), next hop (4), high bytes first.
    pub(crate) fn of_bytes(bytes: &[u8]) -> Line {
        let word = |at: usize| u32::from_be_bytes([bytes[at], bytes[at + 1], bytes[at + 2], bytes[at + 3]]);
        let length = u32::from(u16::from_be_bytes([bytes[5], bytes[6]]));
        Line { number: word(0), kind: Kind::of_type(bytes[4]), length, next_hop: word(7) }
    }
}

/// The line of a table's four words: number, type, length, next hop.
impl From<[u32; 4]> for Line {
    fn from([number, typ, length, next_hop]: [u32; 4]) -> Line {
        Line { number, kind: Kind::of_type(u8::try_from(typ).unwrap_or(u8::MAX)), length, next_hop }
    }
}

impl fmt::Display for Line {
    fn fmt(&self, f: &mut fmt::Formatter<'_>) -> fmt::Result {
        write!(f, "{} {} {} by {}", self.number, self.kind, self.length, self.next_hop)
    }
}
