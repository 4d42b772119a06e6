//! Why a call was refused.
use crate::calls::{Minimum, Outcome};
use std::error::Error;
use std::fmt;

/// Why a call was refused. Places are in the slice that is named, from 0.
#[derive(Clone, Copy, Debug, PartialEq, Eq, Hash)]
#[non_exhaustive]
pub enum Refusal {
    OutOfMemory,
    /// More than 1,048,576 sites, or 2,097,152 variables.
    TooManySites,
    /// No label, or more than 256.
    LabelCount,
    /// There is not one data cost for each label at each site.
    DataCount,
    /// There is not one smooth cost for each two labels, or there is a part of a table.
    SmoothCount,
    /// There is neither no label cost nor one for each label.
    LabelCostCount,
    /// A label of the move is not there.
    NoSuchMove,
    /// The bound takes more bytes than are allowed.
    TooLarge,
    /// A pair (a term) names a site (a variable) that is not there.
    NoSuchSite {
        place: usize,
    },
    /// A site starts with a label that is not there.
    NoSuchLabel {
        site: usize,
    },
    /// A pair (a term) names a site (a variable) twice.
    SameSite {
        place: usize,
    },
    /// More than 4,194,304 pairs, or 8,388,608 terms.
    TooManyPairs,
    /// The weight of a pair is above 1,000, or a number of a term beyond 1,000,000,000.
    WeightRange {
        place: usize,
    },
    /// A data cost is not from 0 to 10,000,000.
    DataRange {
        place: usize,
    },
    /// A smooth cost is not from 0 to 10,000, or an entry of a table not from 0 to 10,000,000.
    SmoothRange {
        place: usize,
    },
    /// A label cost is not from 0 to 10,000,000.
    LabelCostRange {
        label: usize,
    },
    /// The constant is beyond 1,000,000,000.
    ConstantRange,
    /// A term is not regular. Terms of one, two and three variables are one list, in this order. Of
    /// three variables `fixed` is the variable that is fixed where it is not regular, 0, 1 or 2,
    /// and its value.
    TermNotRegular {
        term: usize,
        fixed: Option<(usize, bool)>,
    },
    /// The term of a pair is not regular in the expansion of `alpha`, which `beta` is too, or in
    /// the swap of the two.
    NotRegular {
        pair: usize,
        alpha: u32,
        beta: u32,
    },
    /// A swap, where a label costs more than 0 by itself.
    LabelCostInSwap,
    /// There are numbers of tables, and not one for each pair.
    TableOfCount,
    /// The table of a pair is not there.
    NoSuchTable {
        pair: usize,
    },
    /// The weight of a pair times an entry of its table is above 10,000,000.
    PairCostRange {
        pair: usize,
    },
    /// A status that this crate does not know.
    Unknown {
        status: u32,
    },
}

impl Refusal {
    pub(crate) fn of_outcome(status: u32, told: &Outcome) -> Refusal {
        match status {
            8 => Refusal::NoSuchMove,
            24 => Refusal::NotRegular {
                pair: told.place as usize,
                alpha: told.alpha,
                beta: told.beta,
            },
            27 => Refusal::LabelCostInSwap,
            _ => Refusal::of_place(status, told.place as usize),
        }
    }

    pub(crate) fn of_minimum(status: u32, told: &Minimum) -> Refusal {
        match status {
            18 => Refusal::ConstantRange,
            20 => Refusal::TermNotRegular {
                term: told.place as usize,
                fixed: if told.fixed < 3 {
                    Some((told.fixed as usize, told.fixed_at != 0))
                } else {
                    None
                },
            },
            _ => Refusal::of_place(status, told.place as usize),
        }
    }

    pub(crate) fn of_place(status: u32, place: usize) -> Refusal {
        match status {
            1 => Refusal::OutOfMemory,
            2 => Refusal::TooManySites,
            3 => Refusal::LabelCount,
            4 => Refusal::DataCount,
            5 => Refusal::SmoothCount,
            7 => Refusal::LabelCostCount,
            9 => Refusal::TooLarge,
            10 => Refusal::NoSuchSite { place },
            11 => Refusal::NoSuchLabel { site: place },
            12 => Refusal::SameSite { place },
            13 => Refusal::TooManyPairs,
            14 => Refusal::WeightRange { place },
            15 => Refusal::DataRange { place },
            16 => Refusal::SmoothRange { place },
            17 => Refusal::LabelCostRange { label: place },
            30 => Refusal::TableOfCount,
            31 => Refusal::NoSuchTable { pair: place },
            32 => Refusal::PairCostRange { pair: place },
            _ => Refusal::Unknown { status },
        }
    }
}

impl fmt::Display for Refusal {
    fn fmt(&self, f: &mut fmt::Formatter<'_>) -> fmt::Result {
        match *self {
            Refusal::OutOfMemory => write!(f, "there is not enough memory"),
            Refusal::TooManySites => write!(f, "there are too many sites or variables"),
            Refusal::LabelCount => write!(f, "the number of labels is not from 1 to 256"),
            Refusal::DataCount => {
                write!(f, "there is not one data cost for each label at each site")
            }
            Refusal::SmoothCount => {
                write!(
                    f,
                    "there is not one smooth cost for each two labels of each table"
                )
            }
            Refusal::LabelCostCount => write!(f, "there is not one label cost for each label"),
            Refusal::NoSuchMove => write!(f, "a label of the move is not there"),
            Refusal::TooLarge => write!(f, "the bound takes more bytes than are allowed"),
            Refusal::NoSuchSite { place } => {
                write!(
                    f,
                    "pair or term {place} names a site or variable that is not there"
                )
            }
            Refusal::NoSuchLabel { site } => {
                write!(f, "site {site} starts with a label that is not there")
            }
            Refusal::SameSite { place } => {
                write!(f, "pair or term {place} names a site or variable twice")
            }
            Refusal::TooManyPairs => write!(f, "there are too many pairs or terms"),
            Refusal::WeightRange { place } => {
                write!(
                    f,
                    "the weight of pair {place} or a number of term {place} is out of its range"
                )
            }
            Refusal::DataRange { place } => {
                write!(f, "data cost {place} is not from 0 to 10,000,000")
            }
            Refusal::SmoothRange { place } => {
                write!(
                    f,
                    "smooth cost {place} is not from 0 to 10,000, or to 10,000,000 in tables of pairs"
                )
            }
            Refusal::LabelCostRange { label } => {
                write!(f, "the cost of label {label} is not from 0 to 10,000,000")
            }
            Refusal::ConstantRange => write!(f, "the constant is beyond 1,000,000,000"),
            Refusal::TermNotRegular { term, fixed: None } => {
                write!(f, "term {term} is not regular")
            }
            Refusal::TermNotRegular {
                term,
                fixed: Some((variable, value)),
            } => write!(
                f,
                "term {term} is not regular where its variable {variable} is {}",
                u8::from(value)
            ),
            Refusal::NotRegular { pair, alpha, beta } if alpha == beta => {
                write!(
                    f,
                    "the term of pair {pair} is not regular in the expansion of label {alpha}"
                )
            }
            Refusal::NotRegular { pair, alpha, beta } => {
                write!(
                    f,
                    "the term of pair {pair} is not regular in the swap of labels {alpha} and {beta}"
                )
            }
            Refusal::LabelCostInSwap => {
                write!(f, "a swap, and a label costs more than 0 by itself")
            }
            Refusal::TableOfCount => write!(f, "there is not one table's number for each pair"),
            Refusal::NoSuchTable { pair } => write!(f, "the table of pair {pair} is not there"),
            Refusal::PairCostRange { pair } => write!(
                f,
                "the weight of pair {pair} times an entry of its table is above 10,000,000"
            ),
            Refusal::Unknown { status } => write!(f, "refused {status}"),
        }
    }
}

impl Error for Refusal {}
