//! Calls with several causes of refusal at once.

/// A cause of refusal: its number, and how a good call gets it.
pub type Defect<Call> = (u8, fn(&mut Call));

/// Gives `check` the good call with each set of defects but the empty one, and
/// the number due: that of the first defect, since they stand in the order in
/// which document 01 tests them.
pub fn for_all_sets<Call: Clone>(
    good: &Call,
    defects: &[Defect<Call>],
    mut check: impl FnMut(Call, u8),
) {
    for set in 1_u32..1 << defects.len() {
        let chosen = |place: &usize| set & (1 << place) != 0;
        let places: Vec<usize> = (0..defects.len()).filter(chosen).collect();
        let mut call = good.clone();
        for &place in &places {
            defects[place].1(&mut call);
        }
        check(call, defects[places[0]].0);
    }
}
