//! Document 01's whole case, through both calls.
use structure_intake::{Atom, Category, Key, Position, Refusal, Report, Residue, Room, intake};

const TEXT: &[u8] = include_bytes!("../../examples/case.cif");
const WRITTEN: &[u8] = include_bytes!("../../examples/case.out.cif");
const REPORT: Report = Report {
    bytes_written: WRITTEN.len(),
    rows: 3,
    skipped: 0,
    outdone: 1,
    assumed: 1,
};

fn key(sequence: i32) -> Key {
    Key {
        chain: 0,
        sequence,
        insertion_code: None,
    }
}

#[test]
fn both_calls_write_the_case() {
    let mut room = Room::new(1, 2, 2);
    for length in [WRITTEN.len(), WRITTEN.len() + 9] {
        let mut out = vec![b'~'; length];
        assert_eq!(intake(TEXT, &mut out), Ok(REPORT));
        let (written, rest) = out.split_at(WRITTEN.len());
        assert_eq!(written, WRITTEN);
        assert!(rest.iter().all(|&byte| byte == b'~'));
        let mut again = vec![b'~'; length];
        assert_eq!(room.intake(TEXT, &mut again), Ok(REPORT));
        assert_eq!(again, out);
    }
    assert_eq!(room.intake_whole(TEXT), Ok((REPORT, WRITTEN.to_vec())));
}

#[test]
fn the_room_holds_the_model() {
    let mut room = Room::new(5, 5, 5);
    assert_eq!(
        (
            room.chains().len(),
            room.residues().len(),
            room.atoms().len()
        ),
        (0, 0, 0)
    );
    room.intake_whole(TEXT).unwrap();
    let chains: Vec<String> = room.chains().map(|chain| chain.name.to_string()).collect();
    assert_eq!(chains, ["A"]);

    let residues: Vec<Residue> = room.residues().collect();
    let names = residues.iter().map(|residue| residue.name.to_string());
    assert_eq!(names.collect::<Vec<String>>(), ["MET", "QQQ"]);
    assert_eq!(
        residues
            .iter()
            .map(|residue| residue.key)
            .collect::<Vec<Key>>(),
        [key(7), key(9)]
    );
    let [met, qqq] = residues[..] else {
        panic!("two residues")
    };
    assert_eq!(
        (met.standard, met.category, met.position),
        (Some("MET"), Category::Standard, Position::NTerminal)
    );
    assert_eq!(
        (qqq.standard, qqq.category, qqq.position),
        (None, Category::Ion, Position::None)
    );

    let atoms: Vec<Atom> = room.atoms().collect();
    let names = atoms.iter().map(|atom| atom.name.to_string());
    assert_eq!(names.collect::<Vec<String>>(), ["CA", "O'"]);
    let [carbon, oxygen] = atoms[..] else {
        panic!("two atoms")
    };
    assert_eq!(
        (carbon.residue, carbon.element, carbon.occupancy),
        (key(7), 6, 0.6)
    );
    assert_eq!(carbon.position, [1.5, -0.0004, 2.0]);
    assert_eq!(
        (oxygen.residue, oxygen.element, oxygen.occupancy),
        (key(9), 8, 1.0)
    );
    assert_eq!(oxygen.position, [0.25, 0.0, -3.0]);
}

/// The counts and the sizes, and none of the records.
#[test]
fn a_room_is_shown_in_short() {
    let mut room = Room::new(5, 6, 7);
    assert_eq!(
        format!("{room:?}"),
        "Room { chains: 0 of 5, residues: 0 of 6, atoms: 0 of 7 }"
    );
    room.intake_whole(TEXT).unwrap();
    assert_eq!(
        format!("{room:?}"),
        "Room { chains: 1 of 5, residues: 2 of 6, atoms: 2 of 7 }"
    );
}

#[test]
fn a_refusal_leaves_the_output_and_empties_the_room() {
    let mut room = Room::new(5, 5, 5);
    room.intake_whole(TEXT).unwrap();
    let mut out = vec![b'~'; WRITTEN.len() - 1];
    let refusal = room.intake(TEXT, &mut out).unwrap_err();
    assert_eq!(
        refusal,
        Refusal {
            number: Refusal::OUTPUT_TOO_SHORT,
            line: 0,
            detail: WRITTEN.len() as u32,
        }
    );
    assert!(out.iter().all(|&byte| byte == b'~'));
    assert_eq!(
        (
            room.chains().len(),
            room.residues().len(),
            room.atoms().len()
        ),
        (0, 0, 0)
    );
}

#[test]
fn a_room_that_is_too_small_refuses() {
    for (chains, residues, atoms, line, detail) in
        [(0, 2, 2, 12, 1), (1, 1, 2, 14, 2), (1, 2, 1, 14, 3)]
    {
        let refusal = Room::new(chains, residues, atoms).intake_whole(TEXT);
        let number = Refusal::NO_ROOM;
        assert_eq!(
            refusal,
            Err(Refusal {
                number,
                line,
                detail
            })
        );
    }
}

/// An output that is guessed too short is made longer, and the text taken in again.
#[test]
fn a_text_may_grow_when_written() {
    let mut text = String::from("loop_\n");
    for item in ["atom_id", "comp_id", "asym_id", "seq_id"] {
        text += &format!("_atom_site.label_{item}\n");
    }
    text += "_atom_site.Cartn_x\n_atom_site.Cartn_y\n_atom_site.Cartn_z\n";
    for sequence in 0..500 {
        text += &format!("O HOH A {sequence} 0 0 0\n");
    }
    let text = text.as_bytes();
    let (report, written) = Room::for_text(text).intake_whole(text).unwrap();
    assert!(written.len() > 2 * text.len() + 1024);
    assert_eq!((report.bytes_written, report.atoms()), (written.len(), 500));
    assert_eq!(report.assumed, 500);
}
