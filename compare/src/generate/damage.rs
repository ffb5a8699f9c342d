//! Damaged tickets: cut, changed, swapped or lengthened.

use super::draft::Draft;
use crate::random::Random;

/// One damage, now and then a second on top of it.
pub fn ticket(random: &mut Random, draft: &Draft) -> Vec<u8> {
    let mut bytes = if random.one_in(3) {
        bytewise(random, draft.bytes())
    } else {
        fieldwise(random, draft.fields())
    };
    if random.one_in(6) {
        bytes = bytewise(random, bytes);
    }
    bytes
}

/// Damage that knows no fields; also for whole inputs of the page program.
pub fn bytewise(random: &mut Random, mut bytes: Vec<u8>) -> Vec<u8> {
    let place = random.index(bytes.len() + 1);
    match random.below(6) {
        0 | 1 => bytes.truncate(place),
        2 if place < bytes.len() => bytes[place] ^= 1 << random.below(8),
        3 if place < bytes.len() => {
            bytes.remove(place);
        }
        4 => {
            let count = random.index(3) + 1;
            let inserted = random.bytes(count);
            bytes.splice(place..place, inserted);
        }
        _ => {
            let count = random.index(12) + 1;
            bytes.extend(random.bytes(count));
        }
    }
    bytes
}

/// No list has room for a ticket above 65,533 bytes. Boxes that go on are refused at the 65th.
pub fn lengthened(random: &mut Random, mut ticket: Vec<u8>) -> Vec<u8> {
    let length = random.pick(&[255, 256, 800, 801, 32767, 32768, 65533]);
    let a_box = [7, 0, 8, 0, 0, 0, 0, 0, 1, 0, 1];
    while ticket.len() < length {
        ticket.push(a_box[ticket.len().wrapping_sub(30) % a_box.len()]);
    }
    ticket
}

fn fieldwise(random: &mut Random, mut fields: Vec<Vec<u8>>) -> Vec<u8> {
    let one = random.index(fields.len());
    let other = random.index(fields.len());
    let field = fields[one].clone();
    match random.below(8) {
        0 => fields[one][0] = random.pick(&[0, field[0].wrapping_sub(1), field[0] + 1, 8, 255]),
        1 => fields[one][2] = random.pick(&[0, field[2] - 1, field[2] + 1, field[2] ^ 128]),
        2 => fields[one][1] = random.pick(&[1, 128, 255]),
        3 => fields.swap(one, other),
        4 => {
            fields.remove(one);
        }
        5 => fields.insert(other, field),
        6 => {
            // The ticket ends in this field, or just before or after it.
            fields.truncate(one + 1);
            let left = random.index(field.len() + 1);
            fields[one].truncate(left);
        }
        _ => {
            // The value cut short while later fields stand: they are read out of step.
            let left = random.index(field.len());
            fields[one].truncate(left);
        }
    }
    fields.concat()
}
