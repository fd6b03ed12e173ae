// Appended to a copy of tools/oracle/main.rs by tools/linked.py, because its functions
// between images and programs, and its text of a report, are private there.
// Nothing above is changed.

/// The program of an accepted image.
pub fn program_of(image: &[u8]) -> CoreProgram {
    decode(image)
}

/// The image of a program, trailer included.
pub fn image_of(program: &CoreProgram) -> Vec<u8> {
    encode(program)
}

/// The text of a report, its last line as document 02 asks for it.
pub fn text_of(report: &CleanReport) -> String {
    report_text(report).0
}

/// The verdict (0 Disjoint, 1 Overlap, 2 Unknown) on two sentences, and the entries spent.
pub fn overlap_of(program: &CoreProgram, first: usize, second: usize) -> (u64, u64) {
    let patterns = own_patterns(program);
    let (verdict, spent) = oracle_overlap_spent(patterns[first], patterns[second]);
    (verdict_number(verdict) as u64, spent as u64)
}
