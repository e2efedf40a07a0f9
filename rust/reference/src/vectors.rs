//! Files of test vectors: inputs of a program in hexadecimal, and what it prints for them.

use std::path::Path;

/// Bytes in upper-case hexadecimal.
pub fn hex(bytes: &[u8]) -> String {
    bytes.iter().map(|byte| format!("{byte:02X}")).collect()
}

/// Bytes from hexadecimal, spaces left out.
pub fn unhex(text: &str) -> Option<Vec<u8>> {
    let digits: Vec<u8> =
        text.chars().filter(|c| !c.is_whitespace()).map(|c| c.to_digit(16).map(|d| d as u8)).collect::<Option<_>>()?;
    if digits.len() % 2 == 1 {
        return None;
    }
    Some(digits.chunks(2).map(|pair| pair[0] << 4 | pair[1]).collect())
}

/// Those of the lines of vectors for which something else is printed: each has an input in hexadecimal (`-` for no byte), a space, and
/// what the program prints. Also how many lines there were.
pub fn wrong_lines(lines: &[&str], printed: impl Fn(&[u8]) -> String) -> (usize, Vec<String>) {
    let mut wrong = Vec::new();
    let mut count = 0;
    for line in lines {
        let Some((input, wanted)) = line.split_once(' ') else {
            wrong.push(format!("{line}: no such line"));
            continue;
        };
        count += 1;
        let bytes = if input == "-" { Some(Vec::new()) } else { unhex(input) };
        let got = bytes.map_or("no hexadecimal".to_string(), |bytes| printed(&bytes));
        if got != wanted {
            wrong.push(format!("{input}: expected {wanted}, got {got}"));
        }
    }
    (count, wrong)
}

/// The repository's own vectors, and the folder beside it that may have larger files.
const OWN: &str = concat!(env!("CARGO_MANIFEST_DIR"), "/../../vectors");
const BESIDE: &str = concat!(env!("CARGO_MANIFEST_DIR"), "/../../../shared/vectors");

/// Runs the jobs of the file that `LENS_VECTORS` names; or else those of `vectors/seats.txt`, and of `shared/vectors/full.txt` beside the
/// repository where that folder is there.
pub fn check_jobs(printed: impl Fn(&[u8]) -> String) {
    check_files("LENS_VECTORS", "seats.txt", "full.txt", printed);
}

/// Runs the inputs of `tools` of the file that `LENS_TOOL_VECTORS` names; or else those of `vectors/tools.txt`, and of
/// `shared/vectors/tools-full.txt`, `tools-text.txt` and `tools-next.txt` beside the repository where that folder is there: of the latter
/// those whose letter stands in `vectors/letters.txt`.
pub fn check_tools(printed: impl Fn(&[u8]) -> String) {
    check_files("LENS_TOOL_VECTORS", "tools.txt", "tools-full.txt", &printed);
    if std::env::var_os("LENS_TOOL_VECTORS").is_some() || !Path::new(BESIDE).exists() {
        return;
    }
    check_file(&Path::new(BESIDE).join("tools-text.txt"), &printed);
    let next = Path::new(BESIDE).join("tools-next.txt");
    let file = read(&next);
    let landed = |line: &str| LETTERS.lines().any(|letter| line.starts_with(letter));
    check_lines(&next, &file.lines().filter(|line| landed(line)).collect::<Vec<_>>(), printed);
}

/// The letters of `tools-next.txt` that the program has, in hexadecimal, one a line.
const LETTERS: &str = include_str!("../../../vectors/letters.txt");

fn check_files(variable: &str, own: &str, whole: &str, printed: impl Fn(&[u8]) -> String) {
    if let Some(named) = std::env::var_os(variable) {
        return check_file(Path::new(&named), printed);
    }
    check_file(&Path::new(OWN).join(own), &printed);
    if Path::new(BESIDE).exists() {
        check_file(&Path::new(BESIDE).join(whole), printed);
    } else {
        println!("no {BESIDE}: only the repository's own vectors are run");
    }
}

/// Panics where something else is printed for a line of a file, or where it has none.
fn check_file(path: &Path, printed: impl Fn(&[u8]) -> String) {
    check_lines(path, &read(path).lines().collect::<Vec<_>>(), printed);
}

fn read(path: &Path) -> String {
    std::fs::read_to_string(path).unwrap_or_else(|error| panic!("{}: {error}", path.display()))
}

/// Panics where something else is printed for one of these lines of a file, or where there is none.
fn check_lines(path: &Path, lines: &[&str], printed: impl Fn(&[u8]) -> String) {
    let (count, wrong) = wrong_lines(lines, printed);
    assert!(count > 0, "no line of {}", path.display());
    assert!(wrong.is_empty(), "{} of {count} lines of {} wrong:\n{}", wrong.len(), path.display(), wrong.join("\n"));
    println!("{count} lines of {}", path.display());
}
