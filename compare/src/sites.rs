//! Sites: what rows of atoms say, before they are put into columns. Chains, residues and atoms are
//! drawn from small stocks, so that they are met again.
use crate::random::Random;

/// The cells of a row, none of them quoted.
#[derive(Debug, Clone)]
pub struct Site {
    pub group: String,
    pub atom: String,
    pub residue: String,
    pub chain: String,
    pub sequence: String,
    pub code: String,
    pub axes: [String; 3],
    pub occupancy: String,
    pub symbol: String,
}

/// A kind of residue: its names, its atoms, and the symbols of those.
struct Kind {
    group: &'static str,
    residues: &'static [&'static str],
    atoms: &'static [(&'static str, &'static str)],
}

const PROTEIN: Kind = Kind {
    group: "ATOM",
    residues: &[
        "ALA", "GLY", "MET", "MSE", "HIS", "HID", "HSD", "SER", "SEP", "CYX", "ASH", "TRP",
    ],
    atoms: &[
        ("N", "N"),
        ("CA", "C"),
        ("C", "C"),
        ("O", "O"),
        ("CB", "C"),
        ("SD", "S"),
        ("1HB", "H"),
    ],
};
const NUCLEIC: Kind = Kind {
    group: "ATOM",
    residues: &["A", "C", "G", "U", "I", "DA", "DC", "DG", "DT", "DI"],
    atoms: &[
        ("P", "P"),
        ("O5'", "O"),
        ("C1'", "C"),
        ("H2\"", "H"),
        ("N9", "N"),
    ],
};
const WATER: Kind = Kind {
    group: "HETATM",
    residues: &["HOH", "WAT", "TIP3", "SOL"],
    atoms: &[("O", "O"), ("H1", "H"), ("H2", "H")],
};
const ION: Kind = Kind {
    group: "HETATM",
    residues: &["ZN", "NA", "CL", "MG"],
    atoms: &[("ZN", "Zn"), ("NA", "Na"), ("CL", "Cl"), ("MG", "Mg")],
};
const HETERO: Kind = Kind {
    group: "HETATM",
    residues: &["QQQ", "HEM", "ATP", "UNK", "his", "a b", "?"],
    atoms: &[("FE", "Fe"), ("C1A", "C"), ("PA", "P"), ("BR", "Br")],
};

/// The kinds that a chain may have; its residues are of one or of several.
const CHAINS: [&[Kind]; 7] = [
    &[PROTEIN],
    &[NUCLEIC],
    &[PROTEIN, WATER],
    &[PROTEIN, PROTEIN, HETERO, ION],
    &[WATER, ION],
    &[PROTEIN, NUCLEIC, WATER, ION, HETERO],
    &[HETERO],
];

const CHAIN_NAMES: &[&str] = &["A", "B", "C", "a", "AA", "1", ".", "?", "A B", "B-2"];
const STARTS: &[i64] = &[1, 1, 1, 5, 98, -2, 1_000, 2_147_483_640, -2_147_483_648];
const CODES: &[&str] = &["?", "?", "?", "?", "?", ".", "A", "B", "AB", "1", "??"];
const OCCUPANCIES: &[&str] = &[
    "1.00", "1.00", "0.50", "0.5", "0.30", "0.7", ".7", "1", "0", "-0", "0.00", "+1.0", "2.0",
    "-1", "?", ".", "0,5", "x", "",
];
const COORDINATES: &[&str] = &[
    "0",
    "-0",
    "-0.000",
    "5.",
    ".5",
    "+1",
    "00.125",
    "1000000",
    "-1000000.0",
    "123456.789012345",
    "0.1",
];
const SYMBOLS: &[&str] = &[
    "ZN", "c", "fe", "6", "+6", "006", " C ", "X", "?", ".", "D", "119",
];

/// How a list of sites is drawn.
pub struct Habits {
    pub most_chains: u64,
    pub most_residues: u64,
    pub most_atoms: u64,
    /// One of how many cells is other than files mostly have it.
    pub rarity: u64,
    /// One of how many rows is met again, with another occupancy.
    pub alternates: u64,
}

pub const USUAL: Habits = Habits {
    most_chains: 3,
    most_residues: 4,
    most_atoms: 4,
    rarity: 25,
    alternates: 12,
};
/// Few atoms, most of them several times.
pub const ALTERNATES: Habits = Habits {
    most_chains: 1,
    most_residues: 2,
    most_atoms: 3,
    rarity: 60,
    alternates: 1,
};
/// Many residues of one or two atoms, for what is told by their order.
pub const RESIDUES: Habits = Habits {
    most_chains: 3,
    most_residues: 9,
    most_atoms: 2,
    rarity: 300,
    alternates: 30,
};

/// Sites in the order of files, or in another.
pub fn sites(random: &mut Random, habits: &Habits) -> Vec<Site> {
    let mut sites = Vec::new();
    for _ in 0..=random.below(habits.most_chains) {
        chain(random, habits, &mut sites);
    }
    for place in (0..sites.len()).rev() {
        if random.below(habits.alternates) == 0 {
            alternates(random, &mut sites, place);
        }
    }
    match random.below(4) {
        0 => shuffle(random, &mut sites),
        1 => sites.reverse(),
        _ => {}
    }
    sites
}

fn chain(random: &mut Random, habits: &Habits, sites: &mut Vec<Site>) {
    let kinds = &CHAINS[random.place(CHAINS.len())];
    let name = if random.below(4) == 0 {
        random.pick(CHAIN_NAMES)
    } else {
        random.pick(&CHAIN_NAMES[..3])
    };
    let mut sequence = random.pick(STARTS);
    for _ in 0..=random.below(habits.most_residues) {
        let kind = &kinds[random.place(kinds.len())];
        let code = random.pick(CODES);
        let residue = random.pick(kind.residues);
        let group = if random.below(habits.rarity) == 0 {
            random.pick(&["ATOM", "HETATM", "hetatm", "HetAtm", "HETATMS", "?"])
        } else {
            kind.group
        };
        let first = random.place(kind.atoms.len());
        for place in 0..=random.below(habits.most_atoms) as usize {
            let (atom, symbol) = kind.atoms[(first + place) % kind.atoms.len()];
            sites.push(Site {
                group: group.to_string(),
                atom: atom.to_string(),
                residue: residue.to_string(),
                chain: name.to_string(),
                sequence: sequence.to_string(),
                code: code.to_string(),
                axes: [(); 3].map(|()| coordinate(random, habits)),
                occupancy: occupancy(random, habits),
                symbol: rarely(random, habits, SYMBOLS, symbol),
            });
        }
        sequence += random.pick(&[0, 1, 1, 1, 1, 2, -1, -3]);
    }
}

fn rarely(random: &mut Random, habits: &Habits, from: &[&str], mostly: &str) -> String {
    if random.below(habits.rarity) == 0 {
        random.pick(from).to_string()
    } else {
        mostly.to_string()
    }
}

fn coordinate(random: &mut Random, habits: &Habits) -> String {
    if random.below(8 * habits.rarity) == 0 {
        return random.pick(&[".", "?"]).to_string();
    }
    let usual = format!("{:.3}", random.below(2_000_000) as f64 / 1000.0 - 1000.0);
    rarely(random, habits, COORDINATES, &usual)
}

fn occupancy(random: &mut Random, habits: &Habits) -> String {
    rarely(random, habits, OCCUPANCIES, "1.00")
}

/// The same atom once to three times more, somewhere, elsewhere and with other occupancies.
fn alternates(random: &mut Random, sites: &mut Vec<Site>, place: usize) {
    for _ in 0..=random.below(3) {
        let mut site = sites[place].clone();
        site.occupancy = random.pick(OCCUPANCIES).to_string();
        site.axes[0] = random.below(100).to_string();
        if random.below(4) == 0 {
            site.residue = random.pick(&["ALA", "QQQ", "DA", "HOH"]).to_string();
            site.group = random.pick(&["ATOM", "HETATM"]).to_string();
        }
        if random.below(4) == 0 {
            site.symbol = random.pick(&["C", "N", "O", "S"]).to_string();
        }
        let at = place + random.place(sites.len() - place + 1);
        sites.insert(at, site);
    }
}

pub fn shuffle<T>(random: &mut Random, list: &mut [T]) {
    for end in (1..list.len()).rev() {
        list.swap(end, random.place(end + 1));
    }
}
