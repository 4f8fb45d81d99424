//! Sites by the thousand, in orders that are hard for what keeps records in order: few residues of many
//! atoms, many of one, many chains, and atoms that are told of again and again.
use crate::places::Order;
use crate::random::Random;
use crate::shapes::Shape;
use crate::sites::Site;

/// So many atoms, each told of so many times.
#[derive(Debug, Clone, Copy)]
pub struct Crowd {
    pub shape: Shape,
    pub atoms: usize,
    pub times: usize,
    pub order: Order,
}

/// More than there are: what has so many of them has all in one.
const ALL: usize = 1 << 20;

const SHAPES: [Shape; 5] = [
    shape(1, ALL),
    shape(ALL, 1),
    shape(3, 100),
    shape(20, 5),
    shape(2, 2),
];
const ORDERS: [Order; 7] = [
    Order::Ascending,
    Order::Backwards,
    Order::Shuffled,
    Order::Outwards,
    Order::Runs(5),
    Order::Runs(100),
    Order::RunsBothWays(8),
];
/// Around which a room that is just enough may be used in another way.
const ATOMS: [usize; 8] = [511, 512, 513, 520, 600, 1_024, 2_500, 4_096];
/// So many that a room for them is used in every way that there may be.
const MOST_ATOMS: usize = 20_000;
/// One of how many rows is skipped where atoms are told of again.
const SKIPPED: u64 = 32;

/// Of which the first row of a residue decides.
const RESIDUES: [(&str, &str); 5] = [
    ("ATOM", "ALA"),
    ("ATOM", "GLY"),
    ("ATOM", "DA"),
    ("HETATM", "HOH"),
    ("HETATM", "QQQ"),
];
const OCCUPANCIES: [&str; 9] = ["1.00", "0.50", "0.5", "0.3", ".7", "0", "-0", "2.0", "?"];
const CODES: [&str; 3] = ["?", "A", "B"];

const fn shape(residues: usize, atoms: usize) -> Shape {
    Shape { residues, atoms }
}

/// Every shape in every order at every size, at some of them each atom three times.
pub fn all() -> impl Iterator<Item = Crowd> {
    let sized = |(shape, order)| {
        ATOMS.iter().enumerate().map(move |(place, &atoms)| Crowd {
            shape,
            atoms,
            times: if place % 3 == 0 { 3 } else { 1 },
            order,
        })
    };
    let ordered = |shape| ORDERS.into_iter().map(move |order| (shape, order));
    SHAPES.into_iter().flat_map(ordered).flat_map(sized)
}

/// The largest, in the hardest orders.
pub fn largest() -> [Crowd; 3] {
    let orders = [Order::Shuffled, Order::Outwards, Order::RunsBothWays(64)];
    orders.map(|order| Crowd {
        shape: shape(ALL, 4),
        atoms: MOST_ATOMS,
        times: 1,
        order,
    })
}

impl Crowd {
    pub fn sites(&self, random: &mut Random) -> Vec<Site> {
        let tellings = self.order.places(self.atoms * self.times);
        let site = |telling: usize| {
            let mut site = site(random, self.shape.parts(telling % self.atoms));
            if self.times > 1 && random.below(SKIPPED) == 0 {
                site.axes[random.place(3)] = random.pick(&[".", "?"]).to_string();
            }
            site
        };
        tellings.into_iter().map(site).collect()
    }
}

/// A site of that atom. Keys and names ascend as the numbers do; all else is drawn.
fn site(random: &mut Random, [chain, residue, atom]: [usize; 3]) -> Site {
    let (group, name) = random.pick(&RESIDUES);
    Site {
        group: group.to_string(),
        atom: format!("{atom:05}"),
        residue: name.to_string(),
        chain: chain.to_string(),
        sequence: ((residue / CODES.len()) as i64 - 100).to_string(),
        code: CODES[residue % CODES.len()].to_string(),
        axes: [(); 3].map(|()| random.below(10_000).to_string()),
        occupancy: random.pick(&OCCUPANCIES).to_string(),
        symbol: random.pick(&["C", "N", "O", "?"]).to_string(),
    }
}
