//! Texts whose rows of one atom loop stand in another order, such as demand 3 speaks of: rows of one atom
//! keep their order, chains are first met in the same order, and each residue's first unskipped row
//! says the same name and mark. Whatever else stands among the rows moves as well.
use crate::answers;
use crate::random::Random;
use crate::texts::Text;
use published::io::mmcif::reader;
use std::collections::{HashMap, VecDeque};

/// Where `reader::columns` has the columns that are asked for here, auth before label.
const GROUP: usize = 0;
const ATOM: [usize; 2] = [1, 2];
const RESIDUE: [usize; 2] = [3, 4];
const CHAIN: [usize; 2] = [5, 6];
const SEQUENCE: [usize; 2] = [7, 8];
const CODE: usize = 9;
const AXES: [usize; 3] = [10, 11, 12];

/// What a row says of its atom; a skipped row says nothing.
struct Row {
    chain: String,
    /// Sequence and insertion code, as the rules read them.
    residue: (u32, Option<char>),
    atom: String,
    name_and_mark: (String, bool),
}

/// The text with the lines of its first atom loop in another order, a few of its endings changed; `None`
/// where there is no such loop.
pub fn reordered(random: &mut Random, text: &[u8]) -> Option<Text> {
    let text = str::from_utf8(text).ok()?;
    let lines: Vec<&str> = text.lines().collect();
    let (columns, rows) = first_loop(&lines)?;
    let order = order(random, &columns, &lines[rows.clone()])?;
    let mut reordered = lines[..rows.start].to_vec();
    reordered.extend(order.into_iter().map(|place| lines[rows.start + place]));
    reordered.extend(&lines[rows.end..]);
    let endings = ["\n", "\n", "\n", "\r\n"];
    let ended = reordered
        .into_iter()
        .flat_map(|line| [line, random.pick(&endings)]);
    Some(ended.collect::<String>().into_bytes())
}

/// The columns of the first atom loop, and its lines: rows, and what is passed over among them.
fn first_loop(lines: &[&str]) -> Option<([Option<usize>; 15], std::ops::Range<usize>)> {
    let first = |line: &str| answers::tokens(line.as_bytes()).into_iter().next();
    let mut headers: Option<Vec<String>> = None;
    for (place, line) in lines.iter().enumerate() {
        let Some(token) = first(line) else { continue };
        match &mut headers {
            _ if token == "loop_" => headers = Some(Vec::new()),
            _ if token.starts_with("_cell.") => {}
            Some(headers) if token.starts_with('_') => headers.push(token),
            Some(found) if found.iter().any(|header| header.starts_with("_atom_site.")) => {
                let ends = |line: &&str| {
                    first(line).is_some_and(|token| {
                        token == "loop_" || token.starts_with('_') && !token.starts_with("_cell.")
                    })
                };
                let length = lines[place..].iter().position(ends);
                let end = length.map_or(lines.len(), |length| place + length);
                return Some((reader::columns(found), place..end));
            }
            _ => headers = None,
        }
    }
    None
}

/// What a line of the loop says; `Err` where it is no row of which the model hears, `None` where it
/// would be refused.
fn row(columns: &[Option<usize>; 15], line: &str) -> Option<Result<Row, ()>> {
    let tokens = answers::tokens(line.as_bytes());
    if tokens.is_empty() || tokens[0].starts_with("_cell.") {
        return Some(Err(()));
    }
    let token = |column: usize| tokens.get(columns[column]?).map(String::as_str);
    let either =
        |[auth, label]: [usize; 2]| token(if columns[auth].is_some() { auth } else { label });
    for axis in AXES {
        if matches!(token(axis)?, "." | "?") {
            return Some(Err(()));
        }
    }
    let chain = either(CHAIN)?;
    let sequence = either(SEQUENCE)?;
    let code = token(CODE).filter(|code| !matches!(*code, "." | "?"));
    Some(Ok(Row {
        chain: if chain == "." { "?" } else { chain }.to_string(),
        residue: (
            crate::probe::sequence(sequence.as_bytes()),
            code.and_then(|code| code.chars().next()),
        ),
        atom: either(ATOM)?.to_string(),
        name_and_mark: (
            either(RESIDUE)?.to_string(),
            token(GROUP).is_some_and(|group| group.eq_ignore_ascii_case("HETATM")),
        ),
    }))
}

/// A queue of lines that keep their order, and the place of their chain among those of the loop.
struct Queue {
    chain: Option<usize>,
    lines: VecDeque<usize>,
}

/// Another order of the lines, as places in the old one.
fn order(random: &mut Random, columns: &[Option<usize>; 15], lines: &[&str]) -> Option<Vec<usize>> {
    let rows: Vec<Result<Row, ()>> = lines
        .iter()
        .map(|line| row(columns, line))
        .collect::<Option<_>>()?;
    let mut chains: Vec<&str> = Vec::new();
    let mut said: HashMap<(&str, (u32, Option<char>)), Vec<&(String, bool)>> = HashMap::new();
    for row in rows.iter().flatten() {
        if !chains.contains(&row.chain.as_str()) {
            chains.push(&row.chain);
        }
        let said = said.entry((&row.chain, row.residue)).or_default();
        if !said.contains(&&row.name_and_mark) {
            said.push(&row.name_and_mark);
        }
    }
    // A residue of which rows say different things keeps the order of all its rows.
    let mut queues: Vec<Queue> = Vec::new();
    let mut places: HashMap<(&str, (u32, Option<char>), &str), usize> = HashMap::new();
    for (place, row) in rows.iter().enumerate() {
        let Ok(row) = row else {
            queues.push(Queue {
                chain: None,
                lines: VecDeque::from([place]),
            });
            continue;
        };
        let one_name = said[&(row.chain.as_str(), row.residue)].len() == 1;
        let atom = if one_name { row.atom.as_str() } else { "" };
        let queue = *places
            .entry((&row.chain, row.residue, atom))
            .or_insert_with(|| {
                let chain = chains.iter().position(|chain| *chain == row.chain);
                queues.push(Queue {
                    chain,
                    lines: VecDeque::new(),
                });
                queues.len() - 1
            });
        queues[queue].lines.push_back(place);
    }
    Some(merged(random, queues))
}

/// The queues merged at random; a chain's first line comes after those of the chains before it.
fn merged(random: &mut Random, queues: Vec<Queue>) -> Vec<usize> {
    let mut order = Vec::new();
    let mut met = 0;
    let (mut waiting, mut open): (Vec<Queue>, Vec<Queue>) = queues
        .into_iter()
        .partition(|queue| queue.chain.is_some_and(|chain| chain > 0));
    while !open.is_empty() {
        let place = random.place(open.len());
        let chain = open[place].chain;
        order.extend(open[place].lines.pop_front());
        if open[place].lines.is_empty() {
            open.swap_remove(place);
        }
        if chain == Some(met) {
            met += 1;
            let (opened, still): (Vec<Queue>, Vec<Queue>) = waiting
                .into_iter()
                .partition(|queue| queue.chain == Some(met));
            open.extend(opened);
            waiting = still;
        }
    }
    order
}
