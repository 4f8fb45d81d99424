//! Lent bytes: what a function answers when it gets too few, just enough or more than enough, and
//! that it leaves alone what it has no business with.
use crate::probe::Written;
use crate::tally::Tally;

/// How many bytes on each side of the lent ones are watched as well.
const MARGIN: usize = 8;
/// How far the room and the places in it go past the end of the text.
const PAST: usize = 20;

/// What `write` answers, and what it leaves in the lent bytes and beside them.
pub fn lend<A>(room: usize, write: impl FnOnce(&mut [u8]) -> A) -> (A, Vec<u8>) {
    let mut bytes = untouched(room);
    let answer = write(&mut bytes[MARGIN..MARGIN + room]);
    (answer, bytes)
}

/// A pattern of bytes that no text has.
fn untouched(room: usize) -> Vec<u8> {
    (128..=255).cycle().take(MARGIN + room + MARGIN).collect()
}

/// Compares a writer with the text that it should write, `None` where that is beyond reach: in all
/// rooms, at all places in them and past them.
pub fn compare(
    tally: &mut Tally,
    what: &str,
    text: Option<&str>,
    write: impl Fn(&mut [u8], usize) -> Written,
) {
    let longest = text.map_or(0, str::len);
    for room in 0..=longest + PAST {
        for at in (0..=room + PAST).chain([usize::MAX - 5, usize::MAX]) {
            let (ours, bytes) = lend(room, |out| write(out, at));
            let (expected, kept) = lend(room, |out| written(out, at, text));
            tally.compare((ours, &bytes) == (expected, &kept), || {
                let place = format!("{what} at {at} of {room} bytes");
                format!("{place}: {ours:?} {bytes:02x?}, not {expected:?} {kept:02x?}")
            });
        }
    }
}

/// What a writer of the text should do.
fn written(out: &mut [u8], at: usize, text: Option<&str>) -> Written {
    let Some(text) = text else {
        return Written::BeyondReach;
    };
    match out.get_mut(at..).and_then(|out| out.get_mut(..text.len())) {
        None => Written::NoRoom(text.len()),
        Some(place) => {
            place.copy_from_slice(text.as_bytes());
            Written::Next(at + text.len())
        }
    }
}
