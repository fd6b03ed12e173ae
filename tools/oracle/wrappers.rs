
// Appended to a copy of refal-core's lib.rs by tools/oracle/build.sh, because the
// functions that give a verdict are private there. Nothing above is changed.

/// The verdict as the cleaner itself asks for it.
pub fn oracle_patterns_overlap(first: &[CoreTerm], second: &[CoreTerm]) -> PatternCompatibility {
    patterns_overlap(first, second)
}

/// The verdict and the entries spent by the outermost pair.
///
/// The search is made as `patterns_overlap` makes it, and kept, so that the fuel
/// left in it can be read afterwards.
pub fn oracle_overlap_spent(
    first: &[CoreTerm],
    second: &[CoreTerm],
) -> (PatternCompatibility, usize) {
    const OVERLAP_FUEL: usize = 4_096;
    let mut search = OverlapSearch { fuel: OVERLAP_FUEL };
    let verdict = search.sequence(first, second);
    (verdict, OVERLAP_FUEL - search.fuel)
}
