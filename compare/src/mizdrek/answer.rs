//! What a call gives back: a number from 0 up is an answer, a number below is minus a refusal's.

/// Why a call was refused. The lowest number that applies is given; calls on a plane, the reader and the
/// report of records and the choice of a trial have orders of their own.
#[derive(Clone, Copy, Debug, PartialEq, Eq)]
pub enum Refusal {
    /// 1: a side, a width, a line count or a shift that there isn't.
    BadSize,
    /// 2: a kind that there isn't, or not at this size.
    BadKind,
    /// 3: a lent buffer is shorter than its documented part.
    ShortBuffer,
    /// 4: a residual outside -4095 to 4095.
    ResidualRange,
    /// 5: a batch of other than 1, 4 or 8 lines, misplaced, or past the last line.
    BatchRange,
    /// 6: a ticket's marks don't fit its lines, or a row before all columns.
    BatchOrder,
    /// 7: a quantizer setting outside its range.
    BadSetting,
    /// 8: a scan longer than 1,024, or a place past the coefficients; a choice by more than 1,024 levels.
    ScanRange,
    /// 9: a coefficient outside -1048576 to 1048576.
    CoefficientRange,
    /// 10: the bytes end inside a record.
    CutRecord,
    /// 11: a side byte with an upper bit, or a level that is zero or beyond 2^30 from it; in a choice, beyond.
    BadRecord,
    /// 12: a block number that isn't above the one before.
    RecordOrder,
    /// 13: a tile that has no place in the plane, a room that there isn't, or a record that breaks a rule.
    BadTile,
    /// 14: a tile that isn't open for the room.
    TileNotOpen,
    /// 16: records that are too long to be added up.
    BadFile,
    /// A number that no call gives.
    Unknown(i64),
}

impl Refusal {
    fn numbered(number: i64) -> Refusal {
        match number {
            1 => Refusal::BadSize,
            2 => Refusal::BadKind,
            3 => Refusal::ShortBuffer,
            4 => Refusal::ResidualRange,
            5 => Refusal::BatchRange,
            6 => Refusal::BatchOrder,
            7 => Refusal::BadSetting,
            8 => Refusal::ScanRange,
            9 => Refusal::CoefficientRange,
            10 => Refusal::CutRecord,
            11 => Refusal::BadRecord,
            12 => Refusal::RecordOrder,
            13 => Refusal::BadTile,
            14 => Refusal::TileNotOpen,
            16 => Refusal::BadFile,
            other => Refusal::Unknown(other),
        }
    }

    /// The refusal's number.
    pub fn number(self) -> i64 {
        match self {
            Refusal::BadSize => 1,
            Refusal::BadKind => 2,
            Refusal::ShortBuffer => 3,
            Refusal::ResidualRange => 4,
            Refusal::BatchRange => 5,
            Refusal::BatchOrder => 6,
            Refusal::BadSetting => 7,
            Refusal::ScanRange => 8,
            Refusal::CoefficientRange => 9,
            Refusal::CutRecord => 10,
            Refusal::BadRecord => 11,
            Refusal::RecordOrder => 12,
            Refusal::BadTile => 13,
            Refusal::TileNotOpen => 14,
            Refusal::BadFile => 16,
            Refusal::Unknown(other) => other,
        }
    }
}

/// Tells answers and refusals apart.
pub fn read(number: i64) -> Result<usize, Refusal> {
    usize::try_from(number).map_err(|_| Refusal::numbered(number.wrapping_neg()))
}
