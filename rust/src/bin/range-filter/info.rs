//! `range-filter info`: what an image holds and what it takes.

use std::io::{self, Write};

use range_filter::Filter;

use crate::arguments::{Arguments, Shape};
use crate::command::Command;
use crate::ending::{Ending, Failure};
use crate::files::{open_filter, read_image};
use crate::records::{read_records, Header, HEADER_BYTES, RECORD_HEAD_BYTES};
use crate::text::grouped;

/// The subcommand.
pub const COMMAND: Command = Command {
    name: "info",
    summary: "show the sizes of an image and of its records",
    help: HELP,
    shape: Shape::IMAGE,
    run,
};

const HELP: &str = "\
usage: range-filter info IMAGE

Shows what an image holds: its bytes and bits a key, its settings, leaves,
levels and nodes, and for each record its mark, what it holds and its bytes, six
of which are the mark and the length.

Exit status: 0 done; 1 the image is refused; 2 the arguments are not as above,
or the file can't be read.
";

/// Reads the image and writes the two tables.
fn run(arguments: &Arguments, output: &mut dyn Write) -> Result<Ending, Failure> {
    let path = arguments.needed_operand(0);
    let image = read_image(path)?;
    let filter = open_filter(path, &image)?;
    write_summary(&filter, output)?;
    writeln!(output)?;
    write_records(&filter, output)?;
    Ok(Ending::Done)
}

/// Writes what the image holds.
fn write_summary(filter: &Filter, output: &mut dyn Write) -> io::Result<()> {
    let header = Header::read(filter.image()).expect("an accepted image has a header");
    let exact = filter.leaves().filter(|leaf| leaf.is_exact()).count();
    let open = filter.len() - exact;
    let (dense, sparse) = (header.dense_nodes as usize, header.sparse_nodes as usize);
    // A cut key goes by a node on each level before its last byte.
    let levels = filter.leaves().map(|leaf| leaf.cut().len()).max();
    let settings = filter.settings();
    let lines = [
        ("bytes", grouped(filter.image().len())),
        ("bits a key", bits_a_key(filter)),
        ("version", settings.version().to_string()),
        ("dense levels", settings.dense_levels().to_string()),
        ("real bits", settings.real_bits().to_string()),
        ("hash bits", settings.hash_bits().to_string()),
        ("leaves", sum((exact, "exact"), (open, "open"))),
        ("levels", levels.unwrap_or(0).to_string()),
        ("nodes", sum((dense, "dense"), (sparse, "sparse"))),
        ("sparse entries", grouped(header.sparse_entries as usize)),
    ];
    for (name, value) in lines {
        writeln!(output, "{name:16}{value}")?;
    }
    Ok(())
}

/// Gives a sum and its two parts in words.
fn sum((first, first_name): (usize, &str), (second, second_name): (usize, &str)) -> String {
    let all = grouped(first + second);
    let (first, second) = (grouped(first), grouped(second));
    format!("{all} ({first} {first_name}, {second} {second_name})")
}

/// Gives the bits of the image for each of its leaves.
pub fn bits_a_key(filter: &Filter) -> String {
    if filter.is_empty() {
        return "-".to_string();
    }
    let bits = 8.0 * filter.image().len() as f64;
    format!("{:.1}", bits / filter.len() as f64)
}

/// Writes the header and the records with their bytes, and the sum.
fn write_records(filter: &Filter, output: &mut dyn Write) -> io::Result<()> {
    let records = read_records(filter.image()).expect("an accepted image has its records");
    let mut write_row =
        |mark: &str, what: &str, bytes: &str| writeln!(output, "{mark:8}{what:56}{bytes:>12}");
    write_row("record", "what it holds", "bytes")?;
    let header = "header: version, settings and counts";
    write_row("HD", header, &HEADER_BYTES.to_string())?;
    for ((mark, what), length) in records {
        write_row(mark, what, &grouped(RECORD_HEAD_BYTES + length))?;
    }
    write_row("", "total", &grouped(filter.image().len()))
}
