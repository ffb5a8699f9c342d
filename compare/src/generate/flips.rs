//! Jobs that finish, each with its flipped job.

use super::{draft, jobs, Draft};
use crate::flip;
use crate::job::Job;
use crate::random::Random;
use crate::ticket::{vector_allowed, CONNECTED};

/// The flipped job has placements, padding, neighbours and old contents of its own.
pub fn pair(random: &mut Random) -> [Job; 2] {
    let (ticket, width, height) = if random.one_in(400) {
        jobs::long_ticket(random)
    } else {
        let (width, height) = jobs::small_sides(random);
        let mut draft = Draft::valid(random, width, height);
        if random.one_in(3) {
            set_ties(random, &mut draft);
        }
        (draft.bytes(), width, height)
    };
    let job = jobs::lent(random, ticket, width, height);
    let elsewhere = jobs::lent(random, Vec::new(), width, height);
    let flipped = flip::flipped(&job, elsewhere);
    [job, flipped]
}

/// A connected line has ties if its major component is even, and small pages meet them if it is
/// small too.
pub fn set_ties(random: &mut Random, draft: &mut Draft) {
    let major = 2 * random.between(1, 12) as i16;
    let allowed = |minor: &i16| vector_allowed(CONNECTED, i64::from(major), i64::from(*minor));
    let minor = random.pick(&(1 - major..major).filter(allowed).collect::<Vec<i16>>());
    (draft.dx, draft.dy) = random.pick(&[(major, minor), (minor, major)]);
    draft.line = CONNECTED;
    draft.phase = draft::phase(random, CONNECTED, draft.dx, draft.dy);
}
