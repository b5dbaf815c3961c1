use std::{error::Error, fmt};

/// Why a call was refused: the first of its questions that got a no, and the place that the no names (0 where it names none).
///
/// ```
/// let refusal = lomuveran::Permutation::from_list(&[0, 0]).unwrap_err();
/// assert_eq!((refusal.question, refusal.place), (6, 1));
/// assert_eq!(refusal.to_string(), "an entry is not below n, or is like an earlier one (question 6, at 1)");
/// ```
#[derive(Clone, Copy, Debug, PartialEq, Eq, Hash)]
pub struct Refusal {
    /// 1 to 18, but for 16, which is withdrawn.
    pub question: usize,
    /// An index, counted from 0.
    pub place: usize,
}

impl Refusal {
    /// What the no says.
    pub fn text(self) -> &'static str {
        match self.question {
            1 => "there are more than 1,024 places",
            2 => "the block width is not 1 to 256 bytes (for a gauge's report: not 6)",
            3 => "the blocks do not fill exactly n × width bytes",
            4 => "there are not as many bit bytes as switches",
            5 => "the log has less than 4 words for an entry due",
            6 => "an entry is not below n, or is like an earlier one",
            7 => "a bit byte is neither 0 nor 1",
            8 => "the input ends before the number's next byte",
            9 => "a number is not in its shortest form of at most two bytes",
            10 => "the form number is not 1",
            11 => "a fill bit is not 0",
            12 => "the input goes on after the sheet",
            13 => "the output is too short",
            14 => "an exchanged place is not below the length (of listed orders: none has so high a number)",
            15 => "the two orders have different lengths",
            17 => "there are more than 6 places, and the orders of so many are not listed",
            18 => "the words ran out before the last place was drawn",
            _ => "no such question",
        }
    }
}

impl fmt::Display for Refusal {
    fn fmt(&self, f: &mut fmt::Formatter<'_>) -> fmt::Result {
        write!(f, "{} (question {}, at {})", self.text(), self.question, self.place)
    }
}

impl Error for Refusal {}
