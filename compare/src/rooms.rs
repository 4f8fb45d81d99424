//! Rooms to read a text in, by what it needs: near that, far too few records, and sizes around which a
//! room may be used in another way.
use crate::random::Random;
use crate::records::Room;

/// How many entries are over at most.
const MOST_OVER: usize = 40;
/// How often some are over.
const TIMES_OVER: usize = 3;
/// Where records are kept in another way from some size of the room on, it is one of these.
const SIZES: [usize; 7] = [511, 512, 513, 520, 600, 1_024, 4_096];

/// Just enough, one record short in each kind and in several, and a few over.
pub fn near(random: &mut Random, needed: Room) -> Vec<Room> {
    let mut rooms: Vec<Room> = (0..8)
        .filter_map(|kinds| one_short(kinds, needed))
        .collect();
    for _ in 0..TIMES_OVER {
        rooms.push(each(needed, |count| count + random.place(MOST_OVER + 1)));
    }
    rooms
}

/// Far too few of one kind, where there are just enough of the others; and residues, atoms or both at
/// each of the sizes.
pub fn others(random: &mut Random, needed: Room) -> Vec<Room> {
    let fewer = each(needed, |count| random.place(count.max(1)));
    let mut rooms = vec![
        Room {
            chains: fewer.chains,
            ..needed
        },
        Room {
            residues: fewer.residues,
            ..needed
        },
        Room {
            atoms: fewer.atoms,
            ..needed
        },
    ];
    for size in SIZES {
        let chains = needed.chains;
        rooms.push(random.pick(&[
            Room {
                chains,
                residues: size,
                atoms: size,
            },
            Room {
                residues: size,
                ..needed
            },
            Room {
                atoms: size,
                ..needed
            },
        ]));
    }
    rooms
}

/// One record short of the kinds whose bits are set, where the text needs any.
fn one_short(kinds: usize, needed: Room) -> Option<Room> {
    Some(Room {
        chains: needed.chains.checked_sub(kinds & 1)?,
        residues: needed.residues.checked_sub(kinds >> 1 & 1)?,
        atoms: needed.atoms.checked_sub(kinds >> 2)?,
    })
}

fn each(room: Room, mut other: impl FnMut(usize) -> usize) -> Room {
    Room {
        chains: other(room.chains),
        residues: other(room.residues),
        atoms: other(room.atoms),
    }
}
