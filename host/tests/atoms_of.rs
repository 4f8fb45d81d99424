//! The atoms of a residue are those of the model that have its key, in the order of the model.
use structure_intake::{Atom, Residue, Room};

/// Two chains with residues of one to three atoms, told in no order.
const ROWS: &str = "\
O2 QQQ B 7 A
CB ALA A 7 ?
O1 QQQ B 7 ?
CA ALA A 7 ?
N  ALA A 7 ?
CA GLY A -2 ?
O3 QQQ B 7 A
O1 QQQ B 7 A
";

fn room() -> Room {
    let mut text = String::from("loop_\n_atom_site.group_PDB\n");
    for item in ["atom_id", "comp_id", "asym_id", "seq_id"] {
        text += &format!("_atom_site.label_{item}\n");
    }
    text += "_atom_site.pdbx_PDB_ins_code\n";
    text += "_atom_site.Cartn_x\n_atom_site.Cartn_y\n_atom_site.Cartn_z\n";
    for row in ROWS.lines() {
        text += &format!("HETATM {row} 0 0 0\n");
    }
    let mut room = Room::for_text(text.as_bytes());
    room.intake_whole(text.as_bytes()).unwrap();
    room
}

#[test]
fn each_residue_has_its_atoms() {
    let room = room();
    let told: Vec<String> = room
        .residues()
        .map(|residue| {
            let names: Vec<String> = room
                .atoms_of(&residue)
                .map(|atom| atom.name.to_string())
                .collect();
            format!("{}: {}", residue.key.sequence, names.join(" "))
        })
        .collect();
    assert_eq!(told, ["7: O1", "7: O1 O2 O3", "-2: CA", "7: CA CB N"]);
}

#[test]
fn the_residues_share_out_the_atoms() {
    let room = room();
    let residues: Vec<Residue> = room.residues().collect();
    let of_residues = residues.iter().flat_map(|residue| room.atoms_of(residue));
    assert_eq!(
        of_residues.collect::<Vec<Atom>>(),
        room.atoms().collect::<Vec<Atom>>()
    );
}

#[test]
fn a_residue_of_another_model_has_no_atoms() {
    let residue = room().residues().last().unwrap();
    assert_eq!(Room::new(1, 1, 1).atoms_of(&residue).len(), 0);
}
