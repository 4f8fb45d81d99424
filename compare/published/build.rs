//! Writes the module tree that compiles the published files where they stand. Three of them are
//! compiled from copies with a few lines added at the end: a public way to what is private.
use std::path::{Path, PathBuf};
use std::{env, fs, process};

const MODULES: &str = r#"
pub mod io {
    #[path = "{copies}/context.rs"]
    pub mod context;
    #[path = "{published}/io/error.rs"]
    pub mod error;
    pub mod mmcif {
        #[path = "{copies}/reader.rs"]
        pub mod reader;
        #[path = "{copies}/writer.rs"]
        pub mod writer;
    }
}
pub mod model {
    #[path = "{published}/model/atom.rs"]
    pub mod atom;
    #[path = "{published}/model/chain.rs"]
    pub mod chain;
    use crate::grid;
    #[path = "{published}/model/residue.rs"]
    pub mod residue;
    #[path = "{published}/model/structure.rs"]
    pub mod structure;
    #[path = "{published}/model/topology.rs"]
    pub mod topology;
    #[path = "{published}/model/types.rs"]
    pub mod types;
}
"#;

const ADDED_TO_CONTEXT: &str = r#"
impl IoContext {
    pub fn names(&self) -> Vec<String> {
        self.alias_map.keys().cloned().collect()
    }
}
"#;

const ADDED_TO_READER: &str = r#"
pub fn coordinate(text: &str) -> Result<f64, Error> {
    parse_coordinate(text, "X", 1)
}

pub fn tokens(line: &str) -> Vec<String> {
    tokenize_mmcif_line(line)
}

pub fn columns(headers: &[String]) -> [Option<usize>; 15] {
    let indices = map_atom_site_indices(headers);
    [
        indices.group_pdb,
        indices.auth_atom_id,
        indices.label_atom_id,
        indices.auth_comp_id,
        indices.label_comp_id,
        indices.auth_asym_id,
        indices.label_asym_id,
        indices.auth_seq_id,
        indices.label_seq_id,
        indices.pdbx_pdb_ins_code,
        indices.cartn_x,
        indices.cartn_y,
        indices.cartn_z,
        indices.occupancy,
        indices.type_symbol,
    ]
}

#[derive(Default)]
pub struct Rows {
    chain_order: Vec<String>,
    chain_map: HashMap<String, BTreeMap<ResKey, TempResidue>>,
}

impl Rows {
    pub fn add(&mut self, tokens: &[String], headers: &[String], line: usize) -> Result<(), Error> {
        let indices = map_atom_site_indices(headers);
        let (order, map) = (&mut self.chain_order, &mut self.chain_map);
        process_atom_line(tokens, &indices, line, order, map)
    }

    pub fn chain_count(&self) -> usize {
        self.chain_order.len()
    }

    pub fn residue_count(&self) -> usize {
        self.chain_map.values().map(BTreeMap::len).sum()
    }

    pub fn atom_count(&self) -> usize {
        self.residues().map(|residue| residue.atoms.len()).sum()
    }

    pub fn first_unknown(&self, context: &IoContext) -> Option<usize> {
        let unknown = |residue: &TempResidue| {
            let (_, standard) = context.classify_residue(&residue.raw_name);
            determine_category(residue, standard).is_err()
        };
        self.residues().position(unknown)
    }

    pub fn occupancies(&self) -> Vec<f64> {
        let mut occupancies = Vec::new();
        for residue in self.residues() {
            let mut atoms: Vec<_> = residue.atoms.iter().collect();
            atoms.sort_by_key(|(name, _)| *name);
            occupancies.extend(atoms.iter().map(|(_, (occupancy, _))| *occupancy));
        }
        occupancies
    }

    pub fn structure(self, context: &IoContext) -> Result<Structure, Error> {
        build_structure(Structure::new(), self.chain_order, self.chain_map, context)
    }

    fn residues(&self) -> impl Iterator<Item = &TempResidue> {
        let chains = self.chain_order.iter();
        chains.flat_map(|chain| self.chain_map[chain].values())
    }
}
"#;

const ADDED_TO_WRITER: &str = r#"
pub fn quoted(name: &str) -> String {
    quote_string(name)
}
"#;

fn main() {
    let published = published_folder();
    let copies = PathBuf::from(env::var_os("OUT_DIR").expect("cargo names the folder for output"));
    copy_with(&published.join("io/context.rs"), ADDED_TO_CONTEXT, &copies);
    copy_with(
        &published.join("io/mmcif/reader.rs"),
        ADDED_TO_READER,
        &copies,
    );
    copy_with(
        &published.join("io/mmcif/writer.rs"),
        ADDED_TO_WRITER,
        &copies,
    );
    let modules = MODULES
        .replace("{published}", &published.display().to_string())
        .replace("{copies}", &copies.display().to_string());
    write(&copies.join("published.rs"), &modules);
}

/// The folder that has `io/` and `model/`; where it is missing, one sentence says what to set.
fn published_folder() -> PathBuf {
    println!("cargo::rerun-if-env-changed=BIO_FORGE_SRC");
    let beside_the_repository =
        Path::new(env!("CARGO_MANIFEST_DIR")).join("../../../shared/docs/src");
    let sources = env::var_os("BIO_FORGE_SRC").map_or(beside_the_repository, PathBuf::from);
    let folder = sources.join("crates/bio-forge/src");
    folder.canonicalize().unwrap_or_else(|_| {
        fail(&format!(
            "There is no folder {}: set BIO_FORGE_SRC to the full path of the folder that holds crates/bio-forge/src.",
            folder.display()
        ))
    })
}

fn copy_with(original: &Path, added: &str, copies: &Path) {
    println!("cargo::rerun-if-changed={}", original.display());
    let text = fs::read_to_string(original)
        .unwrap_or_else(|error| fail(&format!("{}: {error}.", original.display())));
    let file = original.file_name().expect("a file has a name");
    write(&copies.join(file), &(text + added));
}

fn write(file: &Path, text: &str) {
    fs::write(file, text).unwrap_or_else(|error| fail(&format!("{}: {error}.", file.display())));
}

fn fail(sentence: &str) -> ! {
    println!("cargo::error={sentence}");
    process::exit(0)
}
