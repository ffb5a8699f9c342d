//! Standard inputs for the page program.

use super::{damage, draft, ticket_for, Make};
use crate::page_program::LONGEST_TICKET;
use crate::random::Random;

/// Header, ticket and pixels, put together with the true ticket length.
pub fn assemble(width: u16, height: u16, ticket: &[u8], pixels: &[u8]) -> Vec<u8> {
    let header = [width, height, ticket.len() as u16].map(u16::to_be_bytes);
    [&header.concat(), ticket, pixels].concat()
}

pub fn page_input(random: &mut Random) -> Vec<u8> {
    let make = Make::any(random);
    if make == Make::Damaged && random.one_in(2) {
        return damaged_around_the_ticket(random);
    }
    let (width, height) = draft::sides(random);
    let ticket = ticket_for(random, width, height, make);
    let count = usize::from(width) * usize::from(height);
    assemble(width, height, &ticket, &pixels(random, count))
}

/// Greys of every texture: noise, two levels, one dark or light spot, slopes.
pub fn pixels(random: &mut Random, count: usize) -> Vec<u8> {
    let (base, texture) = (random.byte(), random.below(6));
    let spot = random.index(count.max(1));
    let mut grey = |at: usize| match texture {
        0..=2 => random.byte(),
        3 => random.pick(&[0, 255]),
        4 if at == spot => !base,
        4 => base,
        _ => base.wrapping_add((at % 251) as u8),
    };
    (0..count).map(&mut grey).collect()
}

/// The header or the input's length is wrong, or the page is none that the program takes.
fn damaged_around_the_ticket(random: &mut Random) -> Vec<u8> {
    let (width, height) = draft::sides(random);
    let mut ticket = ticket_for(random, width, height, Make::Valid);
    let pixels = pixels(random, usize::from(width) * usize::from(height));
    let mut input = assemble(width, height, &ticket, &pixels);
    match random.below(9) {
        0 => {
            let wrong = ticket.len() as i64 + random.pick(&[-30, -1, 1, 11]);
            input[4..6].copy_from_slice(&(wrong as u16).to_be_bytes());
        }
        1 => input.truncate(random.index(7)),
        2 => {
            // 800 is still read as a ticket; above it the length wins over `too big`.
            ticket.resize(LONGEST_TICKET + random.index(3), 7);
            let (width, height) = random.pick(&[(width, height), (300, 300)]);
            return assemble(width, height, &ticket, &pixels);
        }
        3 => input[4..6].copy_from_slice(&random.pick(&[[255, 255], [128, 0]])),
        4 => return too_big(random, &ticket),
        5 => return zero_side(random),
        6 => input.truncate(input.len() - 1),
        7 => input.push(random.byte()),
        _ => return damage::bytewise(random, input),
    }
    input
}

/// Pages of 8193 pixels and more, some with a product that looks small in 16 or in 32 bits.
fn too_big(random: &mut Random, ticket: &[u8]) -> Vec<u8> {
    let just = [(8193, 1), (1, 8193), (91, 91), (4097, 2)];
    let far = [(256, 256), (257, 256), (32768, 2), (65535, 1), (65535, 65535)];
    let (width, height) = random.pick(&[&just[..], &far].concat());
    let all = usize::from(width) * usize::from(height);
    let count = random.pick(&[0, 1, all.min(9000)]);
    assemble(width, height, ticket, &pixels(random, count))
}

/// No pixels at all; the ticket is judged before the sides are.
fn zero_side(random: &mut Random) -> Vec<u8> {
    let (width, height) = random.pick(&[(0, 0), (0, 1), (1, 0), (0, 8193), (65535, 0)]);
    let make = random.pick(&[Make::Valid, Make::Valid, Make::Damaged]);
    let ticket = ticket_for(random, 8, 8, make);
    let count = random.pick(&[0, 0, 0, 1]);
    assemble(width, height, &ticket, &pixels(random, count))
}
