use std::error::Error;
use std::fmt;

/// Why a call says no. A refused call changes nothing: the end and the output are as they were.
#[derive(Clone, Copy, Debug, PartialEq, Eq, Hash, PartialOrd, Ord)]
#[non_exhaustive]
pub enum Refusal {
    /// 1: symbol size, width, latency budget or bitrate outside its values.
    Values = 1,
    /// 2: the output is too short.
    Short = 2,
    /// 3: state memory that its end has not opened. The types of this crate own opened memory, so they never give it.
    Unopened = 3,
    /// 4: an ADU over 65,535 bytes, or one that needs more symbols than the width; in a block, more than one.
    Long = 4,
    /// 5: a source packet under 4 bytes, or a repair packet that is not a header and 1 to 16 symbols; of a block, a source packet under 6
    /// bytes, or a repair packet that is not 6 bytes and a symbol.
    Form = 5,
    /// 6: density threshold over 15 or a count that is not 1 to 16 (sender); a packet over no symbols or more than the width (receiver).
    Range = 6,
    /// 7: the sender's window is empty; the block has fewer than k ADUs.
    Empty = 7,
    /// 8: behind the window.
    Behind = 8,
    /// 9: too far ahead.
    Ahead = 9,
    /// 10: sixteen zero draws for one coefficient.
    Draws = 10,
    /// 11: the packet contradicts those accepted before, or itself.
    Contradiction = 11,
    /// 12: not known, or past the window or block; any symbol or ADU while no packet was accepted.
    Unknown = 12,
    /// 13: no start of an ADU.
    NoStart = 13,
    /// 14: the ADU needs more symbols than the width, or its padding is not zero.
    Padding = 14,
    /// 16: the flow is not announced.
    Unannounced = 16,
    /// 17: rows or columns outside their values, or symbols that are not all of such a grid.
    Grid = 17,
    /// 18: k, total or block number outside its values; an ADU past the k-th; another block number, another k, or an ESI not of its kind.
    Block = 18,
}

impl Refusal {
    /// The refusal's number: 1 to 14 or 16 to 18.
    ///
    /// ```
    /// assert_eq!(rlc8681::Refusal::Contradiction.number(), 11);
    /// ```
    #[must_use]
    pub const fn number(self) -> u8 {
        self as u8
    }

    /// The refusal of a number; none for a number other than 1 to 14 and 16 to 18.
    ///
    /// ```
    /// use rlc8681::Refusal;
    /// assert_eq!(Refusal::from_number(12), Some(Refusal::Unknown));
    /// assert_eq!((Refusal::from_number(0), Refusal::from_number(15)), (None, None));
    /// ```
    #[must_use]
    pub const fn from_number(number: u8) -> Option<Refusal> {
        Some(match number {
            1 => Refusal::Values,
            2 => Refusal::Short,
            3 => Refusal::Unopened,
            4 => Refusal::Long,
            5 => Refusal::Form,
            6 => Refusal::Range,
            7 => Refusal::Empty,
            8 => Refusal::Behind,
            9 => Refusal::Ahead,
            10 => Refusal::Draws,
            11 => Refusal::Contradiction,
            12 => Refusal::Unknown,
            13 => Refusal::NoStart,
            14 => Refusal::Padding,
            16 => Refusal::Unannounced,
            17 => Refusal::Grid,
            18 => Refusal::Block,
            _ => return None,
        })
    }
}

impl fmt::Display for Refusal {
    fn fmt(&self, f: &mut fmt::Formatter<'_>) -> fmt::Result {
        f.write_str(match self {
            Refusal::Values => "scheme, E, width, latency budget or bitrate outside its values",
            Refusal::Short => "memory for opening, working memory or output too short",
            Refusal::Unopened => "state memory all zero, of another kind of end, or shorter than opening asked",
            Refusal::Long => "ADU over 65,535 bytes or needing more symbols than the width; in a block, more than one",
            Refusal::Form => "source packet under 4 bytes; repair packet not 8 + 1..16 × E; of a block, under 6; not 6 + E",
            Refusal::Range => "DT over 15 or count not 1..16 (sender); NSS 0 or over width (receiver)",
            Refusal::Empty => "sender's window empty; block with fewer than k ADUs",
            Refusal::Behind => "behind the window",
            Refusal::Ahead => "too far ahead",
            Refusal::Draws => "sixteen zero draws",
            Refusal::Contradiction => "contradiction",
            Refusal::Unknown => "not known, or past the window or block",
            Refusal::NoStart => "no start",
            Refusal::Padding => "ADUI needs more than the width, or padding not zero",
            Refusal::Unannounced => "flow not announced",
            Refusal::Grid => "rows or columns outside their values, or input that is not all of such a grid",
            Refusal::Block => {
                "k, total or block number outside its values; ADU past the k-th; another block, another k, or an ESI not of its kind"
            }
        })
    }
}

impl Error for Refusal {}
