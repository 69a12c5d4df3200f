//! Route sheets as the page and the port crew read them.
use crate::{Kind, Line, Refusal, MOST_BYTES};

/// Where the lines begin: behind the destination's field (tag, length, four bytes) and the tag and length of the lines' field.
const HEAD: usize = 10;

/// The bytes of the head that are always the same, with their places: two tags, and the length of the destination.
const FIXED: [(usize, u8); 4] = [(0, 1), (1, 0), (2, 4), (7, 2)];

/// A route sheet in the right form: one that the library has written, or bytes from elsewhere that [`Sheet::decode`] took.
///
/// Of bytes from elsewhere the form alone is known. Whether it is the right sheet for a network says [`judge`](crate::judge).
///
/// ```
/// use bostuvrel::Sheet;
/// let sheet = bostuvrel::sheet("1|2|-1\n2|3|-1\n", 3)?;
/// assert_eq!(sheet.destination(), 3);
/// assert_eq!(sheet.lines().map(|line| line.number).collect::<Vec<_>>(), [1, 2, 3]);
/// assert_eq!(Sheet::decode(sheet.as_bytes())?, sheet);
/// # Ok::<(), bostuvrel::Refusal>(())
/// ```
#[derive(Clone, Debug, PartialEq, Eq, Hash)]
pub struct Sheet {
    bytes: Vec<u8>,
}

impl Sheet {
    /// A sheet that the library has just written, so that its form is right.
    pub(crate) fn written(bytes: Vec<u8>) -> Sheet {
        Sheet { bytes }
    }

    /// The sheet of these bytes, if they have the form of one. Its lines may be any.
    ///
    /// ```
    /// use bostuvrel::{Kind, Sheet};
    /// let refused = Sheet::decode(b"\x01\x00\x05").unwrap_err();
    /// assert_eq!((refused.number(), refused.place()), (10, 2));
    ///
    /// let mut bytes = bostuvrel::sheet("1|2|-1\n", 2)?.into_bytes();
    /// bytes[14] = 9; // the type of the first line
    /// assert_eq!(Sheet::decode(&bytes)?.line(1).unwrap().kind, Kind::Unknown(9));
    /// # Ok::<(), bostuvrel::Refusal>(())
    /// ```
    ///
    /// # Errors
    /// Refusal 1 above 65,536 bytes; refusal 10 with the byte where the form is broken.
    pub fn decode(bytes: &[u8]) -> Result<Sheet, Refusal> {
        check_form(bytes)?;
        Ok(Sheet { bytes: bytes.to_vec() })
    }

    /// The sheet's bytes, as they are printed and judged.
    pub fn as_bytes(&self) -> &[u8] {
        &self.bytes
    }

    /// The sheet's bytes, for keeping.
    pub fn into_bytes(self) -> Vec<u8> {
        self.bytes
    }

    /// The AS that the routes lead to.
    pub fn destination(&self) -> u32 {
        u32::from_be_bytes([self.bytes[3], self.bytes[4], self.bytes[5], self.bytes[6]])
    }

    /// The lines, in the sheet's order: ASes ascending where the library wrote it.
    pub fn lines(&self) -> impl DoubleEndedIterator<Item = Line> + ExactSizeIterator + '_ {
        self.bytes[HEAD..].chunks_exact(Line::BYTES).map(Line::of_bytes)
    }

    /// The line of an AS, the first if a sheet from elsewhere has several; none where the sheet has no such AS.
    ///
    /// ```
    /// let sheet = bostuvrel::sheet("1|2|0\n2|3|0\n", 3)?;
    /// assert_eq!(sheet.line(2).unwrap().next_hop, 3);
    /// assert_eq!(sheet.line(4), None);
    /// # Ok::<(), bostuvrel::Refusal>(())
    /// ```
    pub fn line(&self, number: u32) -> Option<Line> {
        self.lines().find(|line| line.number == number)
    }

    /// The ASes that traffic from `number` comes through on its way to the destination, both ends included; none where it does not
    /// arrive. On a right sheet that is where there is no route. On a sheet from elsewhere the next hops may also lead round in a ring
    /// or to an AS that has no line.
    ///
    /// ```
    /// let sheet = bostuvrel::sheet("1|2|-1\n2|3|-1\n4|5|0\n", 3)?;
    /// assert_eq!(sheet.walk(1), Some(vec![1, 2, 3]));
    /// assert_eq!(sheet.walk(3), Some(vec![3]));
    /// assert_eq!(sheet.walk(4), None);
    /// # Ok::<(), bostuvrel::Refusal>(())
    /// ```
    pub fn walk(&self, number: u32) -> Option<Vec<u32>> {
        let mut walk = Vec::new();
        let mut at = number;
        // One step for each line: who has not arrived by then goes round
        for _ in self.lines() {
            let line = self.line(at)?;
            walk.push(at);
            if at == self.destination() {
                return Some(walk);
            }
            if line.kind == Kind::Unreachable {
                return None;
            }
            at = line.next_hop;
        }
        None
    }
}

/// Byte 0 is 1; bytes 1 and 2 say 4; byte 7 is 2; bytes 8 and 9 are a multiple of 11 and equal the bytes left. A sheet that ends before one
/// of them is broken at its end.
fn check_form(bytes: &[u8]) -> Result<(), Refusal> {
    let broken = |place: usize| Err(Refusal::new(10, place as u32));
    if bytes.len() > MOST_BYTES {
        return Err(Refusal::new(1, 0));
    }
    if let Some((place, _)) = FIXED.iter().find(|(place, due)| bytes.get(*place) != Some(due)) {
        return broken((*place).min(bytes.len()));
    }
    if bytes.len() < HEAD {
        return broken(bytes.len());
    }
    let said = usize::from(u16::from_be_bytes([bytes[8], bytes[9]]));
    if said % Line::BYTES != 0 || said != bytes.len() - HEAD {
        return broken(8);
    }
    Ok(())
}

impl AsRef<[u8]> for Sheet {
    fn as_ref(&self) -> &[u8] {
        &self.bytes
    }
}

/// As [`Sheet::decode`].
impl TryFrom<&[u8]> for Sheet {
    type Error = Refusal;

    fn try_from(bytes: &[u8]) -> Result<Sheet, Refusal> {
        Sheet::decode(bytes)
    }
}

/// As [`Sheet::decode`], without a copy.
impl TryFrom<Vec<u8>> for Sheet {
    type Error = Refusal;

    fn try_from(bytes: Vec<u8>) -> Result<Sheet, Refusal> {
        check_form(&bytes)?;
        Ok(Sheet { bytes })
    }
}

impl From<Sheet> for Vec<u8> {
    fn from(sheet: Sheet) -> Vec<u8> {
        sheet.bytes
    }
}
