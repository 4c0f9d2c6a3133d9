//! The answers as enums; `outcomes.rs` has the number and the values of each of their cases.

/// What merging answers.
#[derive(Clone, Copy, PartialEq, Eq, Debug)]
pub enum Merged {
    /// The section's length: the map and the section are written.
    Section(usize),
    /// The file's length: it is under 5 bytes, or not 5 + 4·W.
    Length(usize),
    /// Which of q, n, S, W (0 to 3) is the first outside its bounds.
    Size(usize),
    /// The first word with a state not below S, a label not below 4^n, or a symbol not below q.
    Word(usize),
    /// The first word that is not above the word before it.
    Order(usize),
    /// W·(n+1): the map is shorter.
    ShortMap(usize),
    /// A depth and words i, j, k that force a word which the table lacks. The first W·(n+1) places of the map are 0.
    NotRectangular(usize, usize, usize, usize),
    /// The section's length: its buffer is shorter. The map is written.
    ShortSection(usize),
}

/// What merging the sums of rows answers.
#[derive(Clone, Copy, PartialEq, Eq, Debug)]
pub enum MergedRows {
    /// The section's length: the file, the map and the section are written.
    Section(usize),
    /// How many rows there are, if state bits, n or their number is outside its bounds; else the first row with bits above its width.
    Rows(usize),
    /// The first row that is a sum of earlier ones, as a row of zeros is.
    Dependent(usize),
    /// The file's length, 5 + 4·2^rows: its buffer is shorter.
    ShortFile(usize),
    /// W·(n+1): the map is shorter.
    ShortMap(usize),
    /// The section's length: its buffer is shorter. The map is written.
    ShortSection(usize),
}

/// What reading back answers.
#[derive(Clone, Copy, PartialEq, Eq, Debug)]
pub enum ReadBack {
    /// The file's length: the file is written.
    File(usize),
    /// The section is not usable, or numbers are left over behind it.
    Unusable,
    /// The section has over 1,024 words.
    TooMany,
    /// The file's length: its buffer is shorter.
    Short(usize),
}

/// What comparing two sections answers.
#[derive(Clone, Copy, PartialEq, Eq, Debug)]
pub enum SameSection {
    /// Both have the same q, n, S and words: they differ at most in the numbers of inner vertices.
    Same,
    /// They have not.
    Different,
    /// 0 if the first section is not usable or numbers are left over behind it, else 1 if the second is so.
    Unusable(usize),
}

/// What decoding answers.
#[derive(Clone, Copy, PartialEq, Eq, Debug)]
pub enum Decoded {
    /// The path's distance: cost table, labels, goals and masks are written.
    Distance(usize),
    /// K if it is outside its bounds, else the first unusable section, else K for numbers left over.
    Section(usize),
    /// The first bad block, or B for a fault of lengths or states.
    Block(usize),
    /// The least length that the first short buffer needs: cost table, labels, goals, masks.
    Short(usize),
    /// No path leads from the start state to the end state. The cost table is written.
    NoPath,
}

/// What decoding to several paths answers.
#[derive(Clone, Copy, PartialEq, Eq, Debug)]
pub enum DecodedList {
    /// How many paths are listed: the cost table and their distances, labels and goals are written.
    Paths(usize),
    /// K if it is outside its bounds, else the first unusable section, else K for numbers left over.
    Section(usize),
    /// The first bad block, or B for a fault of lengths or states.
    Block(usize),
    /// How many paths were asked for: it is outside 1 to 16.
    Count(usize),
    /// The least length that the first short buffer needs: cost table, distances, labels, goals.
    Short(usize),
    /// No path leads from the start state to the end state. The cost table is written.
    NoPath,
}

/// What the listing and the block sheet answer.
#[derive(Clone, Copy, PartialEq, Eq, Debug)]
pub enum Listed {
    /// The text's length: the text is written.
    Text(usize),
    /// The text's length: its buffer is shorter.
    Short(usize),
}
