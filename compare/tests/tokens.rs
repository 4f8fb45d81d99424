//! Lines are split into tokens as the published Rust splits them, and tokens read as it reads them.
use compare::tally::Tally;
use compare::texts::Text;
use compare::{answers, lines, probe, room, tokens};

#[test]
fn lines_are_split_alike() {
    let mut tally = Tally::default();
    for line in lines::all() {
        let ours = split(&line);
        let published: Vec<Text> = answers::tokens(&line).into_iter().map(Text::from).collect();
        tally.compare(ours == published, || {
            let lists = [ours, published].map(|tokens| tokens.join(&b'|'));
            let [ours, published] = lists.map(|list| list.escape_ascii().to_string());
            format!(
                "`{}`: ours {ours}, published {published}",
                line.escape_ascii()
            )
        });
    }
    tally.finish("lines");
}

/// Our tokens, by a cell that has room for each. No line has more tokens than bytes.
fn split(line: &[u8]) -> Vec<Text> {
    let mut cell = vec![0; line.len()];
    let mut tokens = Vec::new();
    for k in 0..=line.len() {
        match probe::token(line, k, &mut cell) {
            0 => break,
            length => tokens.push(cell[..length].to_vec()),
        }
    }
    tokens
}

#[test]
fn cells_take_what_fits() {
    let mut tally = Tally::default();
    for line in lines::edges() {
        let tokens = answers::tokens(&line);
        for k in (0..tokens.len() + 2).chain([usize::MAX]) {
            let token = tokens.get(k).map_or("", String::as_str).as_bytes();
            for room in 0..=token.len() + 10 {
                let (length, bytes) = room::lend(room, |cell| probe::token(&line, k, cell));
                let (_, expected) = room::lend(room, |cell| {
                    let fitting = room.min(token.len());
                    cell[..fitting].copy_from_slice(&token[..fitting]);
                });
                tally.compare((length, &bytes) == (token.len(), &expected), || {
                    let place = format!("token {k} of `{}`, {room} bytes", line.escape_ascii());
                    format!("{place}: length {length} {bytes:02x?}, not {expected:02x?}")
                });
            }
        }
    }
    tally.finish("cells");
}

#[test]
fn items_are_found_alike() {
    let mut tally = Tally::default();
    for header in tokens::headers() {
        let ours = probe::item(&header);
        let published = answers::item(&header);
        tally.compare(ours == published, || {
            format!(
                "`{}`: ours {ours}, published {published}",
                header.escape_ascii()
            )
        });
    }
    tally.finish("headers");
}

#[test]
fn sequence_numbers_are_read_alike() {
    let mut tally = Tally::default();
    let tokens = tokens::sequences();
    for (token, published) in tokens.iter().zip(answers::sequences(&tokens)) {
        let ours = probe::sequence(token);
        tally.compare(ours == published, || {
            let moved = format!("ours {ours}, published {published}, moved up by 2^31");
            format!("`{}`: {moved}", token.escape_ascii())
        });
    }
    tally.finish("sequence numbers");
}
