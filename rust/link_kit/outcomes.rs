//! The number and the values of each answer's cases, and the case of a number and its values. The numbers are document 01's, from 13 on document 02's.

use super::{Decoded, DecodedList, Listed, Merged, MergedRows, ReadBack, SameSection};

/// A list of returned numbers in their four places.
fn places(returned: &[usize]) -> [usize; 4] {
    let mut four = [0; 4];
    four[..returned.len()].copy_from_slice(returned);
    four
}

/// The archive is proved to return no other number.
fn no_outcome(number: u32) -> ! {
    panic!("{number} is no outcome of this call")
}

impl Merged {
    /// The case of a number and its values, as the archive gives them.
    pub fn of(number: u32, values: [u32; 4]) -> Merged {
        let [first, i, j, k] = values.map(|x| x as usize);
        match number {
            0 => Merged::Section(first),
            1 => Merged::Length(first),
            2 => Merged::Size(first),
            3 => Merged::Word(first),
            4 => Merged::Order(first),
            5 => Merged::ShortMap(first),
            6 => Merged::NotRectangular(first, i, j, k),
            7 => Merged::ShortSection(first),
            other => no_outcome(other),
        }
    }

    /// Document 01's number.
    pub fn number(self) -> u32 {
        match self {
            Merged::Section(_) => 0,
            Merged::Length(_) => 1,
            Merged::Size(_) => 2,
            Merged::Word(_) => 3,
            Merged::Order(_) => 4,
            Merged::ShortMap(_) => 5,
            Merged::NotRectangular(..) => 6,
            Merged::ShortSection(_) => 7,
        }
    }

    /// The numbers returned with it, 0 in the places not used.
    pub fn values(self) -> [usize; 4] {
        match self {
            Merged::NotRectangular(depth, i, j, k) => [depth, i, j, k],
            Merged::Section(x) | Merged::Length(x) | Merged::Size(x) | Merged::Word(x) => places(&[x]),
            Merged::Order(x) | Merged::ShortMap(x) | Merged::ShortSection(x) => places(&[x]),
        }
    }
}

impl MergedRows {
    /// The case of a number and its values, as the archive gives them.
    pub fn of(number: u32, values: [u32; 4]) -> MergedRows {
        let first = values[0] as usize;
        match number {
            0 => MergedRows::Section(first),
            5 => MergedRows::ShortMap(first),
            7 => MergedRows::ShortSection(first),
            10 => MergedRows::ShortFile(first),
            14 => MergedRows::Rows(first),
            15 => MergedRows::Dependent(first),
            other => no_outcome(other),
        }
    }

    /// Document 01's number; 14 and 15 are document 02's.
    pub fn number(self) -> u32 {
        match self {
            MergedRows::Section(_) => 0,
            MergedRows::ShortMap(_) => 5,
            MergedRows::ShortSection(_) => 7,
            MergedRows::ShortFile(_) => 10,
            MergedRows::Rows(_) => 14,
            MergedRows::Dependent(_) => 15,
        }
    }

    /// The numbers returned with it, 0 in the places not used.
    pub fn values(self) -> [usize; 4] {
        match self {
            MergedRows::Section(x) | MergedRows::Rows(x) | MergedRows::Dependent(x) => places(&[x]),
            MergedRows::ShortFile(x) | MergedRows::ShortMap(x) | MergedRows::ShortSection(x) => places(&[x]),
        }
    }
}

impl ReadBack {
    /// The case of a number and its values, as the archive gives them.
    pub fn of(number: u32, values: [u32; 4]) -> ReadBack {
        match number {
            0 => ReadBack::File(values[0] as usize),
            8 => ReadBack::Unusable,
            10 => ReadBack::Short(values[0] as usize),
            12 => ReadBack::TooMany,
            other => no_outcome(other),
        }
    }

    /// Document 01's number.
    pub fn number(self) -> u32 {
        match self {
            ReadBack::File(_) => 0,
            ReadBack::Unusable => 8,
            ReadBack::Short(_) => 10,
            ReadBack::TooMany => 12,
        }
    }

    /// The numbers returned with it, 0 in the places not used.
    pub fn values(self) -> [usize; 4] {
        match self {
            ReadBack::File(x) | ReadBack::Short(x) => places(&[x]),
            ReadBack::Unusable | ReadBack::TooMany => places(&[]),
        }
    }
}

impl SameSection {
    /// The case of a number and its values, as the archive gives them.
    pub fn of(number: u32, values: [u32; 4]) -> SameSection {
        match (number, values[0]) {
            (0, 0) => SameSection::Different,
            (0, _) => SameSection::Same,
            (8, which) => SameSection::Unusable(which as usize),
            (other, _) => no_outcome(other),
        }
    }

    /// Document 01's number.
    pub fn number(self) -> u32 {
        match self {
            SameSection::Same | SameSection::Different => 0,
            SameSection::Unusable(_) => 8,
        }
    }

    /// The numbers returned with it, 0 in the places not used.
    pub fn values(self) -> [usize; 4] {
        match self {
            SameSection::Same => places(&[1]),
            SameSection::Different => places(&[0]),
            SameSection::Unusable(which) => places(&[which]),
        }
    }
}

impl Decoded {
    /// The case of a number and its values, as the archive gives them.
    pub fn of(number: u32, values: [u32; 4]) -> Decoded {
        let first = values[0] as usize;
        match number {
            0 => Decoded::Distance(first),
            8 => Decoded::Section(first),
            9 => Decoded::Block(first),
            10 => Decoded::Short(first),
            11 => Decoded::NoPath,
            other => no_outcome(other),
        }
    }

    /// Document 01's number.
    pub fn number(self) -> u32 {
        match self {
            Decoded::Distance(_) => 0,
            Decoded::Section(_) => 8,
            Decoded::Block(_) => 9,
            Decoded::Short(_) => 10,
            Decoded::NoPath => 11,
        }
    }

    /// The numbers returned with it, 0 in the places not used.
    pub fn values(self) -> [usize; 4] {
        match self {
            Decoded::Distance(x) | Decoded::Section(x) | Decoded::Block(x) | Decoded::Short(x) => places(&[x]),
            Decoded::NoPath => places(&[]),
        }
    }
}

impl DecodedList {
    /// The case of a number and its values, as the archive gives them.
    pub fn of(number: u32, values: [u32; 4]) -> DecodedList {
        let first = values[0] as usize;
        match number {
            0 => DecodedList::Paths(first),
            8 => DecodedList::Section(first),
            9 => DecodedList::Block(first),
            10 => DecodedList::Short(first),
            11 => DecodedList::NoPath,
            13 => DecodedList::Count(first),
            other => no_outcome(other),
        }
    }

    /// Document 01's number; 13 is document 02's.
    pub fn number(self) -> u32 {
        match self {
            DecodedList::Paths(_) => 0,
            DecodedList::Section(_) => 8,
            DecodedList::Block(_) => 9,
            DecodedList::Short(_) => 10,
            DecodedList::NoPath => 11,
            DecodedList::Count(_) => 13,
        }
    }

    /// The numbers returned with it, 0 in the places not used.
    pub fn values(self) -> [usize; 4] {
        match self {
            DecodedList::Paths(x) | DecodedList::Section(x) | DecodedList::Block(x) => places(&[x]),
            DecodedList::Count(x) | DecodedList::Short(x) => places(&[x]),
            DecodedList::NoPath => places(&[]),
        }
    }
}

impl Listed {
    /// The case of a number and its values, as the archive gives them.
    pub fn of(number: u32, values: [u32; 4]) -> Listed {
        match number {
            0 => Listed::Text(values[0] as usize),
            10 => Listed::Short(values[0] as usize),
            other => no_outcome(other),
        }
    }

    /// Document 01's number.
    pub fn number(self) -> u32 {
        match self {
            Listed::Text(_) => 0,
            Listed::Short(_) => 10,
        }
    }

    /// The numbers returned with it, 0 in the places not used.
    pub fn values(self) -> [usize; 4] {
        let (Listed::Text(x) | Listed::Short(x)) = self;
        places(&[x])
    }
}
