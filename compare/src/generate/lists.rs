//! Lists of tickets for the ticket program, and line samples for the number program.

use super::draft::{self, Draft};
use super::{boundary, damage, ticket, Make};
use crate::random::Random;
use crate::ticket::{CONNECTED, LARGEST_COMPONENT};
use crate::ticket_list::{entry, LONGEST_LIST};

/// Tickets laid end to end; a cut list ends in a piece of one more ticket.
#[derive(Clone, Debug, Default, PartialEq, Eq)]
pub struct TicketList {
    pub tickets: Vec<Vec<u8>>,
    pub bytes: Vec<u8>,
    pub cut: bool,
}

/// The tickets of a seed from the first one on, as many as fit and none from `end` on.
pub fn ticket_list(seed: u64, first: u64, end: u64) -> TicketList {
    let mut list = TicketList::default();
    for ticket in (first..end).map(|index| ticket(seed, index)) {
        if list.bytes.len() + entry(&ticket).len() > LONGEST_LIST {
            break;
        }
        list.bytes.extend(entry(&ticket));
        list.tickets.push(ticket);
    }
    let random = &mut Random::new(!seed, first);
    let one_more = entry(&ticket(seed, first + list.tickets.len() as u64));
    let most = (LONGEST_LIST - list.bytes.len()).min(one_more.len() - 1);
    if most > 0 && random.one_in(3) {
        let any = 1 + random.index(most);
        let piece = random.pick(&[1, most, most, any]);
        list.bytes.extend(&one_more[..piece]);
        list.cut = true;
    }
    list
}

/// A line sample in bytes: kind, dx, dy, phase, width, height.
pub fn number_input(random: &mut Random) -> Vec<u8> {
    let (mut width, mut height) = number_sides(random);
    let mut draft = Draft::valid(random, width, height);
    let most = LARGEST_COMPONENT as i16 / draft.dx.abs().max(draft.dy);
    if draft.line == CONNECTED && random.one_in(4) {
        // A ticket would refuse a common divisor; here it is allowed.
        let any = random.between(1, i64::from(most)) as i16;
        let factor = random.pick(&[most.min(2), most, any]);
        (draft.dx, draft.dy) = (draft.dx * factor, draft.dy * factor);
        draft.phase = draft::phase(random, draft.line, draft.dx, draft.dy);
    }
    // Bad inputs print little, so most samples are good ones.
    let any = Make::any(random);
    let make = random.pick(&[Make::Valid, any]);
    if make == Make::Boundary {
        match random.below(5) {
            0 => draft.line = random.pick(&[0, 3, 255]),
            1..=2 => boundary::vector(random, &mut draft),
            3 => boundary::phase(random, &mut draft),
            _ => (width, height) = sides_at_their_limits(random),
        }
    }
    let (dx, dy) = (draft.dx as u16, draft.dy as u16);
    let numbers = [dx, dy, draft.phase, width, height].map(u16::to_be_bytes);
    let bytes = [&[draft.line], &numbers.concat()[..]].concat();
    if make == Make::Damaged {
        return damage::bytewise(random, bytes);
    }
    bytes
}

/// Mostly small sides, now and then the largest pages the program takes.
fn number_sides(random: &mut Random) -> (u16, u16) {
    match random.below(40) {
        0 => random.pick(&[(4096, 1), (1, 4096), (64, 64), (1365, 3), (2, 2048), (128, 32)]),
        1..=4 => (random.between(1, 60) as u16, random.between(1, 60) as u16),
        _ => (random.between(1, 16) as u16, random.between(1, 16) as u16),
    }
}

/// 4096 pixels, more, or none; some products look small in 16 bits.
fn sides_at_their_limits(random: &mut Random) -> (u16, u16) {
    let within = [(4096, 1), (1, 4096), (64, 64)];
    let above = [(4097, 1), (1, 4097), (65, 64), (241, 17), (256, 256), (32768, 2), (65535, 65535)];
    let none = [(0, 0), (0, 1), (1, 0), (65535, 0)];
    random.pick(&[&within[..], &above, &none].concat())
}
