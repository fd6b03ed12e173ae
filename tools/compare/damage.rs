//! Images with random damage, mostly with a trailer to suit.

use crate::dice::Dice;
use crate::program::Trailer;
use crate::reader;

const MARKS: [u8; 15] = [1, 2, 3, 4, 5, 6, 7, 8, 9, 10, 11, 12, 15, 17, 18];

/// A copy of an image with one to three damages.
pub fn damaged(image: &[u8], dice: &mut Dice) -> Vec<u8> {
    if dice.chance(15) {
        return damage(image, dice);
    }
    let (body, last) = image.split_at(image.len() - Trailer::LENGTH);
    if dice.chance(15) {
        return [body, &damaged_trailer(last, dice)].concat();
    }
    let mut body = body.to_vec();
    for _ in 0..dice.between(1, 3) {
        body = damage(&body, dice);
    }
    if dice.chance(15) {
        return [&body, last].concat();
    }
    mend(body, reader::trailer_of(last))
}

/// One change of a byte, cut, insertion or repetition.
fn damage(data: &[u8], dice: &mut Dice) -> Vec<u8> {
    let start = dice.between(0, data.len().saturating_sub(1));
    let end = (start + dice.between(1, 16)).min(data.len());
    let (before, after) = (&data[..start], &data[start..]);
    match dice.between(1, 8) {
        1 => before.to_vec(),
        2 => [before, &data[end..]].concat(),
        3 => [before, &[random_byte(dice)], after].concat(),
        4 => [&data[..end], after].concat(),
        _ => [before, &[random_byte(dice)], after.get(1..).unwrap_or(&[])].concat(),
    }
}

/// Often a mark, because other bytes rarely stand for anything.
fn random_byte(dice: &mut Dice) -> u8 {
    match dice.chance(60) {
        true => dice.pick(&MARKS),
        false => dice.next() as u8,
    }
}

fn damaged_trailer(last: &[u8], dice: &mut Dice) -> Vec<u8> {
    let mut last = last.to_vec();
    let place = dice.between(0, last.len() - 1);
    last[place] = match dice.between(1, 3) {
        1 => last[place].wrapping_add(1),
        2 => last[place].wrapping_sub(1),
        _ => dice.next() as u8,
    };
    last
}

/// The true trailer of a readable body, else the old one with its length mended.
fn mend(mut body: Vec<u8>, old: Trailer) -> Vec<u8> {
    let length = body.len();
    let trailer = match reader::read_body(&body) {
        Ok((program, first)) => Trailer::of(&program, length, first),
        Err(_) => Trailer {
            body_length: length as u32,
            first_function: old.first_function.min(length as u32),
            ..old
        },
    };
    trailer.put(&mut body);
    body
}
