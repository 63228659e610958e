//! Every stored output, laid out as in the repository.

use crate::card;
use crate::cases;
use crate::edge_cards;
use crate::edges;
use crate::orders;
use crate::samples;
use crate::vectors;
use std::fs;
use std::io;
use std::path::Path;

/// R67 and the edges: nothing is stored unless each has the answer that is written out beside it.
fn check_stated() -> io::Result<()> {
    let differs = |name: &str| Err(io::Error::other(format!("{name}: another answer")));
    for row in edges::stated() {
        if card::judge(&card::bytes(&row.table, &row.request)) != row.answer {
            return differs(row.name);
        }
    }
    let cards = [edge_cards::all(), edge_cards::leaving(), edge_cards::late()];
    for edge in cards.into_iter().flatten() {
        if card::answer(&edge.bytes) != edge.line {
            return differs(edge.name);
        }
    }
    for sample in samples::all() {
        if card::judge(&sample.bytes) != sample.answer {
            return differs(sample.name);
        }
    }
    Ok(())
}

/// A file and the folders it stands in; an error names it.
fn put(folder: &Path, name: &str, bytes: &[u8]) -> io::Result<()> {
    let path = folder.join(name);
    let parent = path.parent().unwrap_or(folder);
    fs::create_dir_all(parent)
        .and_then(|()| fs::write(&path, bytes))
        .map_err(|error| io::Error::other(format!("{}: {error}", path.display())))
}

/// Writes all files below a folder; how often the vectors reach each answer goes to standard error.
pub fn write(folder: &Path) -> io::Result<()> {
    check_stated()?;
    let (input, output) = vectors::set()?;
    let line = card::answer(&cases::CARD_A);
    put(folder, "crates/answer/stdin", &cases::CARD_A)?;
    put(folder, "crates/answer/stdout", line.as_bytes())?;
    put(folder, "crates/rewrite/stdin", &orders::old(&cases::CARD_A))?;
    put(folder, "crates/rewrite/stdout", &cases::CARD_A)?;
    put(folder, "crates/vectors/stdin", &input)?;
    put(folder, "crates/vectors/stdout", output.as_bytes())?;
    for sample in samples::all() {
        let name = format!("cards/{}.card", sample.name);
        put(folder, &name, &sample.bytes)?;
    }
    Ok(())
}

#[cfg(test)]
mod tests {
    use super::*;

    #[test]
    fn every_stated_answer() {
        assert!(check_stated().is_ok());
    }
}
