//! Random frames of kind 06.

use super::frames::{body, draw_outputs, Mix};
use super::rng::Rng;

/// Changes the body of a link on a panel of so many fields: its level, its outputs
/// or both, one covered field, or all; now and then nothing. Or, as often as the mix
/// says, only the fields that it may not set.
pub fn change(rng: &mut Rng, mix: &Mix, fields: usize, link: &mut Vec<u8>) {
    if rng.chance(mix.reread_percent) {
        return read_others(rng, mix, fields, link);
    }
    match rng.below(12) {
        0 => {}
        1..=4 => link[0] = *rng.pick(mix.levels),
        5..=6 => draw_outputs(rng, mix, &mut link[1..]),
        7 => {
            link[0] = *rng.pick(mix.levels);
            draw_outputs(rng, mix, &mut link[1..]);
        }
        8 => cover_another(rng, mix, fields, link),
        _ => *link = body(rng, mix, fields),
    }
}

/// One covered field more or, where the drawn one is covered, one fewer; outputs
/// drawn anew. A link keeps one to eight fields.
fn cover_another(rng: &mut Rng, mix: &Mix, fields: usize, link: &mut Vec<u8>) {
    let field = rng.below(fields) as u8;
    let mut covered: Vec<u8> = link[1..].iter().map(|byte| byte % 128).collect();
    match covered.iter().position(|&other| other == field) {
        Some(place) if covered.len() > 1 => drop(covered.remove(place)),
        None if covered.len() < 8 => covered.push(field),
        _ => {}
    }
    covered.sort();
    draw_outputs(rng, mix, &mut covered);
    link.truncate(1);
    link.extend(covered);
}

/// Other fields that are merely read; level and outputs stay. A link keeps one to eight
/// fields.
fn read_others(rng: &mut Rng, mix: &Mix, fields: usize, link: &mut Vec<u8>) {
    let level = link[0];
    link.retain(|&byte| byte >= 0x80);
    let most = mix.covered.1.min(fields).max(link.len());
    let covered = rng.between(link.len(), most);
    while link.len() < covered {
        let field = rng.below(fields) as u8;
        if !link.iter().any(|byte| byte % 128 == field) {
            link.push(field);
        }
    }
    link.sort_by_key(|byte| byte % 128);
    link.insert(0, level);
}
