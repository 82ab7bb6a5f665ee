use std::fmt;

/// Why a call is refused. A refused call changes nothing.
///
/// Later engines may refuse for more reasons, and withdraw some: match with a last arm `_`.
///
/// It is displayed in a few words:
///
/// ```
/// let refused = reach::read_line(b"4,0").unwrap_err();
/// assert_eq!(refused.to_string(), "the line is not in form");
/// ```
#[derive(Clone, Copy, Debug, PartialEq, Eq, PartialOrd, Ord, Hash)]
#[non_exhaustive]
pub enum Refusal {
    /// The map is not sound: it is not the one that its points, offered in order, build.
    NotSound,
    /// The map has 512 points already.
    Full,
    /// A coordinate is out of range: below -1,000,000,000 or above 1,000,000,000.
    OutOfRange,
    /// The point is equal to an accepted point.
    Repeated,
    /// The dart is absent, or above 1,023; of an area: the index is no place of the corners'
    /// listing.
    NoDart,
    /// The file is not in form: it has under 9 bytes, its length does not match its version, its
    /// number of points and the bytes lent, it has more than 512 points, its version is neither 1
    /// nor 2, a helper byte is above 1 or an arrival byte above 3.
    BadFile,
    /// The line of text is not in form.
    BadLine,
    /// The text has more than 65,536 bytes.
    LongText,
    /// The lent list is shorter than the result.
    ShortList,
    /// The outline's text is in another spelling, its ring does not end on its first corner, or has
    /// under three corners.
    BadOutline,
    /// No survey lists the corners of the outline's text in that order.
    NoSurvey,
    /// A number that this crate does not know: the archive it is linked with is of a later engine,
    /// or of an earlier one and the number withdrawn, as 5 is.
    Unknown(u32),
}

impl Refusal {
    /// Every refusal that this crate knows, in the order of the numbers. Number 5 is withdrawn and
    /// not used again.
    pub const ALL: &'static [Refusal] = &[
        Refusal::NotSound,
        Refusal::Full,
        Refusal::OutOfRange,
        Refusal::Repeated,
        Refusal::NoDart,
        Refusal::BadFile,
        Refusal::BadLine,
        Refusal::LongText,
        Refusal::ShortList,
        Refusal::BadOutline,
        Refusal::NoSurvey,
    ];

    /// The number of the refusal.
    ///
    /// ```
    /// assert_eq!(reach::Refusal::NoDart.number(), 6);
    /// ```
    pub fn number(self) -> u32 {
        match self {
            Refusal::NotSound => 1,
            Refusal::Full => 2,
            Refusal::OutOfRange => 3,
            Refusal::Repeated => 4,
            Refusal::NoDart => 6,
            Refusal::BadFile => 7,
            Refusal::BadLine => 8,
            Refusal::LongText => 9,
            Refusal::ShortList => 10,
            Refusal::BadOutline => 11,
            Refusal::NoSurvey => 12,
            Refusal::Unknown(number) => number,
        }
    }

    /// The refusal of the number that a call returns, or none where it is served. The number is
    /// looked up: the numbers need not follow each other.
    pub(crate) fn of(number: u32) -> Result<(), Refusal> {
        if number == 0 {
            return Ok(());
        }
        let known = Refusal::ALL.iter().find(|refusal| refusal.number() == number);
        Err(known.copied().unwrap_or(Refusal::Unknown(number)))
    }
}

impl fmt::Display for Refusal {
    fn fmt(&self, f: &mut fmt::Formatter<'_>) -> fmt::Result {
        f.write_str(match self {
            Refusal::NotSound => "the map is not sound",
            Refusal::Full => "the map is full",
            Refusal::OutOfRange => "a coordinate is out of range",
            Refusal::Repeated => "the point is equal to an accepted point",
            Refusal::NoDart => "there is no such dart, or no such place of the listing",
            Refusal::BadFile => "the file is not in form",
            Refusal::BadLine => "the line is not in form",
            Refusal::LongText => "the text is too long",
            Refusal::ShortList => "the lent list is too short",
            Refusal::BadOutline => "the outline's text is not in form",
            Refusal::NoSurvey => "no survey lists these corners in this order",
            Refusal::Unknown(number) => {
                return write!(f, "refused with {number}, which this crate does not know");
            }
        })
    }
}

impl std::error::Error for Refusal {}

#[cfg(test)]
mod tests {
    use super::Refusal;
    use std::collections::BTreeSet;

    #[test]
    fn a_number_is_looked_up() {
        assert_eq!(Refusal::of(0), Ok(()));
        for &refusal in Refusal::ALL {
            assert_eq!(Refusal::of(refusal.number()), Err(refusal));
        }
        let numbers: Vec<u32> = Refusal::ALL.iter().map(|refusal| refusal.number()).collect();
        assert!(numbers.is_sorted_by(|a, b| a < b) && !numbers.contains(&0));
    }

    #[test]
    fn an_unknown_number_is_kept() {
        for number in [5, 13, 18, u32::MAX] {
            assert_eq!(Refusal::of(number), Err(Refusal::Unknown(number)));
            assert_eq!(Refusal::Unknown(number).number(), number);
        }
        let words = "refused with 18, which this crate does not know";
        assert_eq!(Refusal::Unknown(18).to_string(), words);
    }

    #[test]
    fn each_has_words_of_its_own() {
        let words: BTreeSet<String> = Refusal::ALL.iter().map(Refusal::to_string).collect();
        assert_eq!(words.len(), Refusal::ALL.len());
    }
}
