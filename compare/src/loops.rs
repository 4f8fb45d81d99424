//! Loops of atoms, as the lines of a file: the columns in many orders, and a row to a site.
use crate::answers::quoted;
use crate::random::Random;
use crate::sites::{self, Habits, Site};
use crate::texts::Text;
use crate::tokens::ITEMS;

/// The columns of the archive, in its order.
pub fn of_the_archive() -> Vec<String> {
    let names = "group_PDB id type_symbol label_atom_id label_alt_id label_comp_id label_asym_id \
        label_entity_id label_seq_id pdbx_PDB_ins_code Cartn_x Cartn_y Cartn_z occupancy \
        B_iso_or_equiv pdbx_formal_charge auth_seq_id auth_comp_id auth_asym_id auth_atom_id \
        pdbx_PDB_model_num";
    atom_items(names)
}

/// All that a row is asked for, once.
pub fn few() -> Vec<String> {
    let items = ITEMS.iter().filter(|item| !item.contains(".label_"));
    items.map(|item| item.to_string()).collect()
}

/// The seven columns without which no row is read.
pub fn fewest() -> Vec<String> {
    atom_items("auth_atom_id auth_comp_id auth_asym_id auth_seq_id Cartn_x Cartn_y Cartn_z")
}

/// The items of the loop of atoms that have these names.
pub fn atom_items(names: &str) -> Vec<String> {
    let names = names.split_whitespace();
    names.map(|name| format!("_atom_site.{name}")).collect()
}

/// The headers, and the cells of the rows as they are written.
pub struct Loop {
    pub headers: Vec<String>,
    pub rows: Vec<Vec<String>>,
}

impl Loop {
    /// A loop with complete columns.
    pub fn new(random: &mut Random, habits: &Habits) -> Self {
        let headers = headers(random);
        Self::with_headers(random, habits, headers)
    }

    pub fn with_headers(random: &mut Random, habits: &Habits, headers: Vec<String>) -> Self {
        let sites = sites::sites(random, habits);
        Self::of_sites(random, &sites, headers)
    }

    pub fn of_sites(random: &mut Random, sites: &[Site], headers: Vec<String>) -> Self {
        let mut row = |site: &Site| {
            let cells = headers
                .iter()
                .map(|header| cell(random, &headers, header, site));
            cells.map(|cell| quoted(cell.as_bytes())).collect()
        };
        let rows = sites.iter().map(&mut row).collect();
        Self { headers, rows }
    }

    /// The columns whose item ends in one of these ways.
    pub fn columns_of(&self, endings: &[&str]) -> Vec<usize> {
        let asked = |header: &String| endings.iter().any(|ending| header.ends_with(ending));
        let columns = 0..self.headers.len();
        columns
            .filter(|&column| asked(&self.headers[column]))
            .collect()
    }

    /// The line of the first row.
    pub fn first_line(&self) -> usize {
        self.headers.len() + 2
    }

    pub fn lines(&self, random: &mut Random) -> Vec<String> {
        let mut lines = vec!["loop_".to_string()];
        lines.extend_from_slice(&self.headers);
        let blank = random.pick(&[" ", " ", " ", "  ", "\t", " \t "]);
        lines.extend(self.rows.iter().map(|row| row.join(blank)));
        if random.below(2) == 0 {
            lines.push("#".to_string());
        }
        lines
    }

    pub fn text(&self, random: &mut Random) -> Text {
        let lines = self.lines(random);
        joined(random, &lines)
    }
}

/// Complete columns: those of the archive in their order, or some of them in another, or few.
pub fn headers(random: &mut Random) -> Vec<String> {
    match random.below(4) {
        0 => of_the_archive(),
        1 => few(),
        _ => {
            let mut headers = of_the_archive();
            for name in ["atom_id", "comp_id", "asym_id", "seq_id"] {
                match random.below(3) {
                    0 => headers.retain(|header| *header != format!("_atom_site.auth_{name}")),
                    1 => headers.retain(|header| *header != format!("_atom_site.label_{name}")),
                    _ => {}
                }
            }
            for item in [
                ".group_PDB",
                ".type_symbol",
                ".pdbx_PDB_ins_code",
                ".occupancy",
            ] {
                if random.below(8) == 0 {
                    headers.retain(|header| !header.ends_with(item));
                }
            }
            sites::shuffle(random, &mut headers);
            headers
        }
    }
}

/// What stands in the header's column. A label column beside the auth one mostly says the same,
/// and else what must not be taken.
fn cell(random: &mut Random, headers: &[String], header: &str, site: &Site) -> String {
    let name = header.strip_prefix("_atom_site.").unwrap_or(header);
    if let Some(label) = name.strip_prefix("label_") {
        let auth = format!("_atom_site.auth_{label}");
        if headers.contains(&auth) && random.below(3) == 0 {
            return random
                .pick(&[".", "?", "X", "7", "NOT THIS ONE"])
                .to_string();
        }
    }
    let told = match name {
        "group_PDB" => &site.group,
        "auth_atom_id" | "label_atom_id" => &site.atom,
        "auth_comp_id" | "label_comp_id" => &site.residue,
        "auth_asym_id" | "label_asym_id" => &site.chain,
        "auth_seq_id" | "label_seq_id" => &site.sequence,
        "pdbx_PDB_ins_code" => &site.code,
        "Cartn_x" => &site.axes[0],
        "Cartn_y" => &site.axes[1],
        "Cartn_z" => &site.axes[2],
        "occupancy" => &site.occupancy,
        "type_symbol" => &site.symbol,
        _ => return random.pick(&["1", "?", ".", "0.00", "a b"]).to_string(),
    };
    told.clone()
}

/// The lines with one ending or both; the last line has one or none.
pub fn joined(random: &mut Random, lines: &[String]) -> Text {
    let endings: &[&str] = random.pick(&[&["\n"][..], &["\n"], &["\r\n"], &["\n", "\r\n"]]);
    let mut text = String::new();
    for (place, line) in lines.iter().enumerate() {
        if place > 0 {
            text.push_str(random.pick(endings));
        }
        text.push_str(line);
    }
    if random.below(4) > 0 {
        text.push_str(random.pick(endings));
    }
    text.into_bytes()
}
