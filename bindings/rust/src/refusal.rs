use core::fmt;

/// Why a call was refused: nothing was written, and the number is that of the C header.
///
/// ```
/// use threshowl::Refusal;
/// assert_eq!(Refusal::ShortPlane.number(), 3);
/// assert_eq!(Refusal::ShortPlane.to_string(), "a plane has too few bytes for its stride (threshowl 3)");
/// ```
#[derive(Debug, Clone, Copy, PartialEq, Eq, Hash)]
#[non_exhaustive]
pub enum Refusal {
    /// 1: no columns or rows, or more than 1024 macroblocks (16384 samples of a YUV4MPEG2 frame).
    BadSize,
    /// 2: a stride below its plane's width, or above 32768.
    BadStride,
    /// 3: a plane with too few bytes for its stride.
    ShortPlane,
    /// 4: a position outside the picture.
    OutsidePicture,
    /// 5: a table that is neither of the two.
    BadFilter,
    /// 6: not sixteen vectors.
    BadVectors,
    /// 7: an output of the wrong size, or too small.
    BadOut,
    /// 8: a vector leaves a fraction of a pixel.
    FractionLeft,
    /// 9: orders of another length than the frame wants, or with a code that is none.
    BadOrders,
    /// 10: a version above 3.
    ReservedVersion,
    /// 11: another count of coefficients than there should be, or, not skipped, one beyond its range.
    BadCoefficients,
    /// 12: not a YUV4MPEG2 header that the format allows.
    BadHeader,
    /// 13: the first bytes are not the mark of a frame.
    NoMark,
    /// 14: a frame that is cut short.
    ShortFrame,
    /// 15: no IVF recording, or one that is too long.
    NotIvf,
    /// 16: a running total would leave 64 bits.
    FullTotals,
}

const ALL: [Refusal; 16] = [
    Refusal::BadSize,
    Refusal::BadStride,
    Refusal::ShortPlane,
    Refusal::OutsidePicture,
    Refusal::BadFilter,
    Refusal::BadVectors,
    Refusal::BadOut,
    Refusal::FractionLeft,
    Refusal::BadOrders,
    Refusal::ReservedVersion,
    Refusal::BadCoefficients,
    Refusal::BadHeader,
    Refusal::NoMark,
    Refusal::ShortFrame,
    Refusal::NotIvf,
    Refusal::FullTotals,
];

impl Refusal {
    /// The number in the C header.
    pub fn number(self) -> u32 {
        self.told().0
    }

    /// What is at fault.
    pub fn words(self) -> &'static str {
        self.told().1
    }

    fn told(self) -> (u32, &'static str) {
        match self {
            Refusal::BadSize => (1, "no columns or rows, or too many"),
            Refusal::BadStride => (2, "a stride is below its plane's width, or above 32768"),
            Refusal::ShortPlane => (3, "a plane has too few bytes for its stride"),
            Refusal::OutsidePicture => (4, "the position is outside the picture"),
            Refusal::BadFilter => (5, "the table of taps is neither six-tap nor bilinear"),
            Refusal::BadVectors => (6, "there are not sixteen vectors"),
            Refusal::BadOut => (7, "the output has the wrong size, or is too small"),
            Refusal::FractionLeft => (8, "the vector leaves a fraction of a pixel"),
            Refusal::BadOrders => (9, "the orders have another length than the frame wants, or a code that is none"),
            Refusal::ReservedVersion => (10, "the version is above 3"),
            Refusal::BadCoefficients => (11, "the count of coefficients is wrong, or one is beyond its range"),
            Refusal::BadHeader => (12, "not a YUV4MPEG2 header that the format allows"),
            Refusal::NoMark => (13, "the first bytes are not the mark of a frame"),
            Refusal::ShortFrame => (14, "the frame is cut short"),
            Refusal::NotIvf => (15, "not an IVF recording, or too long for one"),
            Refusal::FullTotals => (16, "a running total would leave 64 bits"),
        }
    }

    /// What a C function gave back: 0 is done.
    pub(crate) fn done(number: u32) -> Result<(), Refusal> {
        if number == 0 {
            return Ok(());
        }
        let refusal = ALL.into_iter().find(|refusal| refusal.number() == number);
        Err(refusal.unwrap_or_else(|| panic!("libthreshowl.a gave {number}, which its header has not")))
    }
}

impl fmt::Display for Refusal {
    fn fmt(&self, f: &mut fmt::Formatter<'_>) -> fmt::Result {
        write!(f, "{} (threshowl {})", self.words(), self.number())
    }
}

impl std::error::Error for Refusal {}
