//! Tools of sheets, their texts and values beside the Rust reference, and how their cost grows.

use crate::jobs::{nested_lists, numbers, pairs, LIMIT};
use crate::{median, ratio, times, Buffers};
use std::hint::black_box;

/// One call of a tool, on both sides.
struct Row {
    name: String,
    /// What the cost is held to: how many there are of the unit.
    size: usize,
    unit: &'static str,
    /// How many times the reference's time the archive may take, where a request says so.
    limit: Option<f64>,
    archive: Call,
    reference: Call,
}

type Call = Box<dyn Fn(&mut Buffers) -> u64>;

fn rows() -> Vec<Row> {
    let sheets = [50, 100, 200].map(numbered).into_iter().chain([24, 49, 99].map(joined));
    let sheets =
        sheets.chain([(50, 0), (100, 0), (200, 0), (200, 25), (200, 50), (200, 98)].map(|(nodes, splits)| typed(nodes, splits)));
    let values = [
        ("a list of 7 numbers", numbers(1000..1007)),
        ("a list of 21 numbers", numbers(1000..1021)),
        ("a list of 63 numbers", numbers(1000..1063)),
        ("21 pairs", pairs(0..21)),
        ("nested 48 deep", nested_lists(48)),
    ];
    let texts = [50, 100, 200].map(|nodes| text(nodes, "")).into_iter().flatten();
    let commented = COMMENTS.map(|comment| text(200, comment)).into_iter().flat_map(|[read, _]| [read]);
    sheets.chain(values.into_iter().flat_map(|(name, value)| json(name, value))).chain(texts).chain(commented).collect()
}

/// What stands behind each line of a text, to make it longer.
const COMMENTS: [&str; 2] = [
    "-- a row of seats, and its price",
    "-- a row of seats, and its price, and what the house says of it to those who ask for a seat that is free, in the stalls or in the circle",
];

/// The text of a sheet of so many nodes read, by its bytes; and its sheet printed, by the bytes of what is printed.
fn text(nodes: usize, comment: &str) -> [Row; 2] {
    let text = written(nodes, comment).into_bytes();
    let (mut sheet, mut printed) = (vec![0; lens::raw::SHEET_OUT], vec![0; lens::raw::TEXT_OUT]);
    let length = reference::read_sheet(&text, &mut sheet, &mut 0) >> 8;
    sheet.truncate(length as usize);
    let printed = (reference::print_sheet(&sheet, &mut printed) >> 8) as usize;
    let (size, text_too, sheet_too) = (text.len(), text.clone(), sheet.clone());
    let row = |way: &str, size: usize, archive: Call, reference: Call| Row {
        name: format!("text: {nodes} nodes, {size} bytes, {way}"),
        size,
        unit: "byte",
        limit: None,
        archive,
        reference,
    };
    [
        row(
            "read",
            size,
            Box::new(move |buffers| lens::raw::read_sheet(black_box(&text), &mut buffers.out, &mut 0).0),
            Box::new(move |buffers| reference::read_sheet(black_box(&text_too), &mut buffers.out, &mut 0)),
        ),
        row(
            "printed",
            printed,
            Box::new(move |buffers| lens::raw::print_sheet(black_box(&sheet), &mut buffers.out).0),
            Box::new(move |buffers| reference::print_sheet(black_box(&sheet_too), &mut buffers.out)),
        ),
    ]
}

/// A text of so many nodes, with a comment behind each line: a list of rows, each a case of nine nodes and a front, and sums before it.
fn written(nodes: usize, comment: &str) -> String {
    let row = "case row of
    []            -> [] with empty
    [seat | rest] -> [100 + seat | rest] with members
      default seat = 0, rest = []
  end";
    let rows = (nodes - 1) / 10;
    let text = format!("plan row\nlist = {}\n[ {} ]\n", "1 + ".repeat(nodes - 1 - 10 * rows), vec![row; rows].join("\n, "));
    text.replace('\n', &format!("{comment}\n"))
}

/// A value written as JSON, and its text read back; both by the bytes of the text.
fn json(name: &str, value: Vec<u8>) -> [Row; 2] {
    let mut out = vec![0; lens::raw::JSON_OUT];
    let length = reference::to_json(&value, &mut out) >> 8;
    out.truncate(length as usize);
    let text = out;
    let (size, value_too, text_too) = (text.len(), value.clone(), text.clone());
    let row = |way: &str, archive: Call, reference: Call| Row {
        name: format!("json: {name}, {way}"),
        size,
        unit: "byte",
        limit: Some(LIMIT),
        archive,
        reference,
    };
    [
        row(
            "written",
            Box::new(move |buffers| lens::raw::to_json(black_box(&value), &mut buffers.out).0),
            Box::new(move |buffers| reference::to_json(black_box(&value_too), &mut buffers.out)),
        ),
        row(
            "read",
            Box::new(move |buffers| lens::raw::from_json(black_box(&text), &mut buffers.out).0),
            Box::new(move |buffers| reference::from_json(black_box(&text_too), &mut buffers.out)),
        ),
    ]
}

/// A sheet numbered anew.
fn numbered(nodes: usize) -> Row {
    let (ours, theirs) = (drawn(nodes), drawn(nodes));
    Row {
        name: format!("number: a sheet of {nodes} nodes"),
        size: nodes,
        unit: "node",
        limit: None,
        archive: Box::new(move |buffers| lens::raw::number(black_box(&ours), &mut buffers.out).0),
        reference: Box::new(move |buffers| reference::number(black_box(&theirs), &mut buffers.out)),
    }
}

/// Two sheets of so many nodes joined.
fn joined(nodes: usize) -> Row {
    let (ours, theirs) = (drawn(nodes), drawn(nodes));
    Row {
        name: format!("join: two sheets of {nodes} nodes"),
        size: 2 * nodes,
        unit: "node",
        limit: None,
        archive: Box::new(move |buffers| lens::raw::join(black_box(&ours), black_box(&ours), &mut buffers.out).0),
        reference: Box::new(move |buffers| reference::join(black_box(&theirs), black_box(&theirs), &mut buffers.out)),
    }
}

/// A sheet checked by types; its widest scope has two variables, and two more for each split.
fn typed(nodes: usize, splits: usize) -> Row {
    let (sheet, types) = row_of_numbers(nodes, splits);
    let (sheet_too, types_too) = (sheet.clone(), types.clone());
    Row {
        name: format!("types: {nodes} nodes, scopes up to {}", 2 + 2 * splits),
        size: nodes,
        unit: "node",
        limit: None,
        archive: Box::new(move |_| lens::raw::check_types(black_box(&sheet), black_box(&types)).0),
        reference: Box::new(move |_| reference::check_types(black_box(&sheet_too), black_box(&types_too))),
    }
}

/// A sheet of so many nodes, an even number, that gives a list of numbers, and its types. Its nodes are a chain: first so many splits of
/// variable 0, each inside the one before, then fronts of the last variable in scope; at the end a front of an add, and the empty list.
fn row_of_numbers(nodes: usize, splits: usize) -> (Vec<u8>, Vec<u8>) {
    let (pair, number, list): (&[u8], &[u8], &[u8]) = (&[0x33, 0x31, 0x31], &[0x31], &[0x32, 0x31]);
    let last = 1 + 2 * splits as u8;
    let mut sheet = vec![0x01, 0x02, 0x00];
    // those of the plan's two variables, and the list's
    let mut types = [pair, number, list].concat();
    let end = nodes - 4;
    for link in (0..end).step_by(2) {
        let (kind, variable, part) = if link < 2 * splits { (0x19, 0, pair) } else { (0x15, last, number) };
        sheet.extend([kind, link as u8 + 1, link as u8 + 2, 0x10, variable]);
        types.extend([list, part].concat());
    }
    let end = end as u8;
    sheet.extend([0x15, end + 1, end + 3, 0x1B, end + 2, 0x00, 0x01, 0x10, last, 0x13]);
    types.extend([list, number, number, list].concat());
    (sheet, types)
}

/// A sheet of so many nodes, each used once: pairs, each the second part of the one before, and their leaves behind all of them; an even
/// number has an add on top. In the one numbering a leaf stands behind its pair.
fn drawn(nodes: usize) -> Vec<u8> {
    let first = 1 - nodes % 2;
    let pairs = (nodes - 1 - first) / 2;
    let mut sheet = vec![0x01, 0x01, 0x00];
    if first == 1 {
        sheet.extend([0x1B, 0x01, 0x00, 0x64]);
    }
    for pair in first..first + pairs {
        // The last pair's second part is the last leaf.
        let next = if pair + 1 < first + pairs { pair + 1 } else { nodes - 1 };
        sheet.extend([0x16, (pair + pairs) as u8, next as u8]);
    }
    for _ in 0..=pairs {
        sheet.extend([0x10, 0x00]);
    }
    sheet
}

/// The table, with an empty line before it: the rows whose names have the word, none where there is no such row.
pub fn lines(word: &str, buffers: &mut [Buffers; 2]) -> Result<Vec<String>, String> {
    let mut lines = Vec::new();
    for row in rows().iter().filter(|row| row.name.contains(word)) {
        crate::progress(&row.name);
        lines.push(line(row, buffers)?);
    }
    if !lines.is_empty() {
        let head = format!(
            "{:<46} {:>7} {:>12} {:>8} {:>12} {:>8} {:>6} {:>5}",
            "tool", "", "archive/call", "", "Rust/call", "", "ratio", "limit"
        );
        lines.splice(0..0, [String::new(), head]);
    }
    Ok(lines)
}

fn line(row: &Row, buffers: &mut [Buffers; 2]) -> Result<String, String> {
    let [ours, theirs] = buffers;
    let (answer, wanted) = ((row.archive)(ours), (row.reference)(theirs));
    let length = (wanted >> 8 & 0xFFFF) as usize;
    if answer != wanted || wanted & 0xFF != 0 || ours.out[..length] != theirs.out[..length] {
        return Err(format!("{}: the archive answers {answer:016X}, the reference {wanted:016X}, or other bytes", row.name));
    }
    let [ours, theirs] = times([
        &mut || {
            black_box((row.archive)(ours));
        },
        &mut || {
            black_box((row.reference)(theirs));
        },
    ]);
    let ratio = ratio(&ours, &theirs);
    let a_unit = |ns: f64| format!("{:.1}", ns / row.size as f64);
    let (ours, theirs) = (median(ours), median(theirs));
    let limit = row.limit.map_or("-".to_string(), |limit| format!("{limit:.1}"));
    Ok(format!(
        "{:<46} {:>7} {ours:>12.0} {:>8} {theirs:>12.0} {:>8} {ratio:>6.2} {limit:>5} {}",
        row.name,
        format!("/{}:", row.unit),
        a_unit(ours),
        a_unit(theirs),
        if row.limit.is_some_and(|limit| ratio > limit) { "over" } else { "" },
    ))
}
