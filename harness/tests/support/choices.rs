//! Choices: "A choice takes some of the links and stays in the book and gives
//! each of them one field, a link one of its outputs, a stay its own, no field
//! twice; loops are allowed."

use super::book::Member;

/// "Its count up to level L is the number of those taken whose level in the
/// book is at most L", for every L below `end`.
pub fn counts(levels: &[u8], end: usize) -> Vec<usize> {
    let up_to = |l: usize| levels.iter().filter(|&&level| level as usize <= l).count();
    (0..end).map(up_to).collect()
}

/// The first level above all members.
pub fn end_of_levels(members: &[Member]) -> usize {
    let ends = members.iter().map(|member| member.level as usize + 1);
    ends.max().unwrap_or(0)
}

/// For every level L the greatest count up to L, over all choices one by one.
pub fn best_counts(members: &[Member]) -> Vec<usize> {
    let end = end_of_levels(members);
    let mut best = vec![0; end];
    for_each_choice(members, &mut Vec::new(), &mut Vec::new(), &mut |levels| {
        for (best, count) in best.iter_mut().zip(counts(levels, end)) {
            *best = count.max(*best);
        }
    });
    best
}

/// Calls `see` with the levels of those taken, for every choice.
fn for_each_choice(
    members: &[Member],
    fields: &mut Vec<u8>,
    levels: &mut Vec<u8>,
    see: &mut impl FnMut(&[u8]),
) {
    let Some((member, rest)) = members.split_first() else {
        return see(levels);
    };
    for_each_choice(rest, fields, levels, see);
    for &output in &member.outputs {
        if !fields.contains(&output) {
            fields.push(output);
            levels.push(member.level);
            for_each_choice(rest, fields, levels, see);
            fields.pop();
            levels.pop();
        }
    }
}

/// Whether some choice holds all the members, by trying all.
pub fn all_can_hold(members: &[Member], fields: &mut Vec<u8>) -> bool {
    let Some((member, rest)) = members.split_first() else {
        return true;
    };
    member.outputs.iter().any(|output| {
        let free = !fields.contains(output);
        fields.push(*output);
        let can_hold = free && all_can_hold(rest, fields);
        fields.pop();
        can_hold
    })
}

/// For every level L the greatest count up to L, by augmenting paths (for
/// panels with too many choices to go through). Members are taken by rising
/// level, each if room can be made without giving up one taken before.
pub fn best_counts_by_paths(members: &[Member]) -> Vec<usize> {
    let mut rising: Vec<&Member> = members.iter().collect();
    rising.sort_by_key(|member| member.level);
    let mut holder = [None; 64];
    let mut levels = Vec::new();
    for (place, member) in rising.iter().enumerate() {
        if make_room(&rising, place, &mut holder, &mut [false; 64]) {
            levels.push(member.level);
        }
    }
    counts(&levels, end_of_levels(members))
}

/// Gives the member at a place one of its outputs, moving holders if needed.
fn make_room(
    members: &[&Member],
    place: usize,
    holder: &mut [Option<usize>; 64],
    seen: &mut [bool; 64],
) -> bool {
    for &output in &members[place].outputs {
        let field = output as usize;
        if std::mem::replace(&mut seen[field], true) {
            continue;
        }
        let other = holder[field];
        if other.is_none_or(|other| make_room(members, other, holder, seen)) {
            holder[field] = Some(place);
            return true;
        }
    }
    false
}
