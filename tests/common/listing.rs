//! The printed sizes as document 01 says them: the text of any bytes, and what a buffer of some length holds after it.

use super::archive::Answer;
use super::merging::expected;
use super::sections::Section;

/// The text for a table file.
pub fn text_of(file: &[u8]) -> String {
    if file.len() > 65_535 {
        return "refused 1 65536\n".to_string();
    }
    let left = expected(file, 9 * 1024, 30_000);
    match left.answer.number {
        0 => sizes(file, &left.section),
        _ => refusal(&left.answer),
    }
}

/// The line of a refusal: 6 returns four numbers, every other one.
pub fn refusal(answer: &Answer) -> String {
    let count = if answer.number == 6 { 4 } else { 1 };
    let values: String = answer.values[..count].iter().map(|value| format!(" {value}")).collect();
    format!("refused {}{values}\n", answer.number)
}

/// What decoding by a section costs: its additions, E, and its selections, E - V + R.
pub fn costs(section: &Section) -> [usize; 2] {
    let edges: usize = section.steps.iter().map(Vec::len).sum();
    let vertices: usize = section.vertices.iter().map(|&count| count as usize).sum();
    let roots = section.vertices[0] as usize;
    [edges, edges + roots - vertices]
}

/// The sizes of an accepted table and its section.
fn sizes(file: &[u8], section: &[u16]) -> String {
    let (section, _) = Section::read(section).expect("a whole section");
    let words = u16::from_le_bytes([file[3], file[4]]);
    let Section { q, n, states, .. } = section;
    let mut text = format!("section {q} {n} {states} {words}\n");
    for (depth, vertices) in section.vertices.iter().enumerate() {
        let entering = depth.checked_sub(1).map_or(0, |step| section.steps[step].len());
        text += &format!("depth {depth} {vertices} {entering}\n");
    }
    let [additions, selections] = costs(&section);
    text + &format!("additions {additions}\nselections {selections}\n")
}

/// What the listing, or a block sheet, leaves of its text in a buffer, and its answer: 10 or success.
pub fn put(text: &str, buffer: &mut [u8]) -> Answer {
    if buffer.len() < text.len() {
        return Answer::new(10, &[text.len()]);
    }
    buffer[..text.len()].copy_from_slice(text.as_bytes());
    Answer::new(0, &[text.len()])
}
