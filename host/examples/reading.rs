//! Takes in the file that is named, and prints its residues and atoms:
//! `cargo run --example reading -- FILE`.
use std::error::Error;
use std::{env, fs};
use structure_intake::{Atom, Chain, Room};

fn main() -> Result<(), Box<dyn Error>> {
    let file = env::args_os().nth(1).ok_or("usage: reading FILE")?;
    let text = fs::read(file)?;
    let mut room = Room::for_text(&text);
    let (report, _) = room.intake_whole(&text)?;
    println!("{report:?}");
    let chains: Vec<Chain> = room.chains().collect();
    for residue in room.residues() {
        let chain = chains[residue.key.chain].name;
        let (sequence, name) = (residue.key.sequence, residue.name);
        println!("{chain} {sequence} {name} {:?}", residue.category);
        for atom in room.atoms_of(&residue) {
            show(&atom);
        }
    }
    Ok(())
}

fn show(atom: &Atom) {
    let Atom {
        name,
        position: [x, y, z],
        occupancy,
        ..
    } = atom;
    println!("  {name} at {x} {y} {z}, occupancy {occupancy}");
}
