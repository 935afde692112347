//! Holds the crate to the tables of answers. No row is left out: one whose command is not known here
//! fails. Names of leaves are those of docs/FORMAT.md, and `sha256sum` makes the sums.

mod common;

use std::collections::HashMap;
use std::fs;
use std::io::Write;
use std::process::{Command, Stdio};

use common::{content, root, settings};
use pdbmerge::{Change, Definition, Error, Member, Record};

/// A row of a table.
struct Row {
    names: String,
    files: Vec<Vec<u8>>,
    command: String,
    status: u32,
    answer: String,
}

/// The rows of a table of a folder.
fn rows(folder: &str, table: &str) -> Vec<Row> {
    let table = content(&format!("{folder}{table}"));
    let text = String::from_utf8(table).expect("a table is UTF-8");
    text.lines().skip(1).map(|line| row(folder, line)).collect()
}

fn row(folder: &str, line: &str) -> Row {
    let cells: Vec<&str> = line.split('\t').collect();
    let names = cells[0].split(' ');
    Row {
        names: String::from(cells[0]),
        files: names
            .map(|name| content(&format!("{folder}{name}")))
            .collect(),
        command: String::from(cells[1]),
        status: cells[2].parse().expect("a status"),
        answer: String::from(cells[3]),
    }
}

fn sha256(bytes: &[u8]) -> String {
    let mut started = Command::new("sha256sum")
        .stdin(Stdio::piped())
        .stdout(Stdio::piped())
        .spawn()
        .expect("sha256sum is there");
    let mut input = started.stdin.take().expect("a pipe");
    input.write_all(bytes).expect("sha256sum reads");
    drop(input);
    let ended = started.wait_with_output().expect("sha256sum ends");
    String::from_utf8_lossy(&ended.stdout[..64]).into_owned()
}

/// How the tables tell the lines that a command prints.
fn summed(lines: &[String]) -> String {
    let text: String = lines.iter().map(|line| format!("{line}\n")).collect();
    format!("{} lines, sha256 {}", lines.len(), sha256(text.as_bytes()))
}

/// A name as the program prints it.
fn quoted(name: &[u8]) -> String {
    let plain = |byte: u8| (0x20..0x7f).contains(&byte) && byte != b'"' && byte != b'\\';
    let shown = |byte: &u8| match *byte {
        byte if plain(byte) => String::from(char::from(byte)),
        byte => format!("\\x{byte:02x}"),
    };
    format!("\"{}\"", name.iter().map(shown).collect::<String>())
}

/// Bytes as hexadecimal digits.
fn hex(bytes: &[u8]) -> String {
    bytes.iter().map(|byte| format!("{byte:02x}")).collect()
}

/// The name of each kind of record.
fn leaf_names() -> HashMap<u16, String> {
    let page = fs::read_to_string(root().join("docs/FORMAT.md")).expect("docs/FORMAT.md");
    let mut names = HashMap::new();
    for line in page.lines().filter(|line| line.starts_with("| LF_")) {
        let cells: Vec<&str> = line.split('|').map(str::trim).collect();
        let kinds = cells[2]
            .split(", ")
            .filter_map(|kind| kind.strip_prefix("0x"));
        let kinds = kinds.filter_map(|kind| u16::from_str_radix(kind, 16).ok());
        names.extend(kinds.zip(cells[1].split(", ").map(String::from)));
    }
    names
}

/// The line of a type, as the commands `types` and `diff` print it.
fn type_line(record: Record, leaves: &HashMap<u16, String>) -> Result<String, Error> {
    let (index, size) = (record.index(), record.bytes().len());
    let leaf = leaves.get(&record.kind()).map_or("no leaf", String::as_str);
    let mut line = format!("{index:#x} {leaf} {size}");
    for named in record.references()? {
        line += &format!(" {:#x}", named.index);
    }
    if let Some(name) = record.name()? {
        line += &format!(" {}", quoted(&name));
    }
    Ok(line)
}

/// The line of a member.
fn member_line(member: &Member) -> String {
    let place = member
        .offset
        .map_or("-".into(), |offset| offset.to_string());
    let mut line = format!("  {place} {}", member.what);
    if let Some(name) = &member.name {
        line += &format!(" {}", quoted(name));
    }
    if let Some(ty) = &member.ty {
        line += &format!(" {ty}");
    }
    line
}

/// The head of a definition before its size, and its size or the type of its values.
fn head(definition: &Definition) -> (String, String) {
    let name = definition.name.as_ref();
    let name = name.map_or("?".into(), |name| quoted(name));
    let size = definition.size.map_or("?".into(), |size| size.to_string());
    let (joint, size) = match &definition.ty {
        Some(ty) => ("of", ty.clone()),
        None => ("size", size),
    };
    (format!("{} {name} {joint} ", definition.kind), size)
}

/// The lines of members, each after a sign.
fn signed<'a>(sign: &'a str, members: &'a [Member]) -> impl Iterator<Item = String> + 'a {
    let line = move |member| format!("{sign}{}", member_line(member));
    members.iter().map(line)
}

/// The lines of a definition, each after a sign.
fn definition_lines(sign: &str, definition: &Definition) -> Vec<String> {
    let (front, size) = head(definition);
    let end = if definition.declared {
        " declared only"
    } else {
        ""
    };
    let mut lines = vec![format!("{sign}{front}{size}{end}")];
    lines.extend(signed(sign, &definition.members));
    lines
}

/// The lines of a definition that changed.
fn changed_lines(old: &Definition, new: &Definition) -> Vec<String> {
    let ((front, size), (other_front, other_size)) = (head(old), head(new));
    assert_eq!(front, other_front, "both halves are of the first file");
    let mut line = format!("~ {front}{size}");
    if size != other_size {
        line += &format!(" -> {other_size}");
    }
    let mut lines = vec![line];
    lines.extend(signed("  - ", &old.members));
    lines.extend(signed("  + ", &new.members));
    lines
}

/// The lines of a change, as the command `diff --members` prints them.
fn change_lines(change: &Change) -> Vec<String> {
    match (&change.old, &change.new) {
        (Some(old), Some(new)) => changed_lines(old, new),
        (Some(old), None) => definition_lines("- ", old),
        (None, Some(new)) => definition_lines("+ ", new),
        (None, None) => panic!("a change has a definition"),
    }
}

fn members(file: &[u8]) -> Result<String, Error> {
    let found = pdbmerge::members(file)?;
    let lines = found.iter().flat_map(|each| definition_lines("", each));
    Ok(lines.collect::<Vec<_>>().join("\\n"))
}

fn changes(files: &[Vec<u8>]) -> Result<String, Error> {
    let found = pdbmerge::changes(&files[0], &files[1])?;
    let lines: Vec<_> = found.iter().flat_map(change_lines).collect();
    Ok(lines.join("\\n"))
}

fn check(file: &[u8]) -> Result<String, Error> {
    let counts = pdbmerge::check(file)?;
    let (records, bytes, levels) = (counts.records, counts.bytes, counts.levels);
    Ok(format!(
        "accepted records {records} bytes {bytes} levels {levels}"
    ))
}

fn merge(files: &[Vec<u8>]) -> Result<String, Error> {
    let merged = pdbmerge::merge(files, &settings())?;
    let (types, bytes, sum) = (merged.types, merged.bytes, sha256(&merged.file));
    Ok(format!(
        "types {types} bytes {bytes} file {} sha256 {sum}",
        merged.file.len()
    ))
}

fn records(file: &[u8]) -> Result<String, Error> {
    let line = |each: Record| {
        let (index, kind, size) = (each.index(), each.kind(), each.bytes().len());
        format!("{index:#x} {kind:#06x} {size}")
    };
    let lines: Vec<_> = pdbmerge::records(file)?.iter().map(line).collect();
    Ok(summed(&lines))
}

fn types(file: &[u8]) -> Result<String, Error> {
    let leaves = leaf_names();
    let records = pdbmerge::records(file)?;
    let lines: Result<Vec<_>, _> = records
        .iter()
        .map(|each| type_line(each, &leaves))
        .collect();
    Ok(summed(&lines?))
}

fn record(file: &[u8], index: &str) -> Result<String, Error> {
    let records = pdbmerge::records(file)?;
    let number = u32::from_str_radix(&index[2..], 16).expect("a type index");
    let record = records.find(number)?;
    let mut lines = vec![hex(record.bytes())];
    for named in record.references()? {
        lines.push(format!("{} {:#x}", named.place, named.index));
    }
    if let Some(name) = record.name()? {
        lines.push(format!("name {}", quoted(&name)));
    }
    Ok(lines.join("\\n"))
}

fn diff(files: &[Vec<u8>], origins: bool) -> Result<String, Error> {
    let leaves = leaf_names();
    let records = [pdbmerge::types(&files[0])?, pdbmerge::types(&files[1])?];
    let mut lines = Vec::new();
    for each in pdbmerge::diff(&files[0], &files[1])? {
        let record = records[each.input].get(each.index).expect("a record");
        if each.origin || !origins {
            let sign = ["-", "+"][each.input];
            lines.push(format!("{sign} {}", type_line(record, &leaves)?));
        }
    }
    Ok(lines.join("\\n"))
}

fn streams(file: &[u8]) -> Result<String, Error> {
    let layout = pdbmerge::layout(file)?;
    let mut lines = vec![
        format!("block-size {}", layout.block_size),
        format!("blocks {}", layout.blocks),
        format!("free {}", layout.free_blocks),
        format!("directory {}", layout.directory_bytes),
        format!("streams {}", layout.streams.len()),
    ];
    for (number, stream) in layout.streams.iter().enumerate() {
        let mut line = format!("{number} {}", stream.size);
        for block in &stream.blocks {
            line += &format!(" {block}");
        }
        lines.push(line);
    }
    Ok(summed(&lines))
}

/// A GUID as the program prints it.
fn guid_text(guid: [u8; 16]) -> String {
    let parts = [0..4, 4..6, 6..8, 8..10, 10..16].map(|part| hex(&guid[part]));
    parts.join("-")
}

fn info(file: &[u8]) -> Result<String, Error> {
    let (identity, stream) = (pdbmerge::identify(file)?, pdbmerge::stream(file, 1)?);
    let word = |at| u32::from_le_bytes(stream[at..at + 4].try_into().expect("four bytes"));
    let mut lines = vec![
        format!("version {}", word(0)),
        format!("signature {:#x}", word(4)),
        format!("age {}", identity.age),
        format!("guid {}", guid_text(identity.guid)),
    ];
    for each in pdbmerge::named_streams(file)? {
        lines.push(format!("name {} {}", quoted(&each.name), each.number));
    }
    for code in pdbmerge::features(file)? {
        lines.push(format!("feature {code}"));
    }
    Ok(summed(&lines))
}

/// What the calls give for a row.
fn given(row: &Row) -> Result<String, Error> {
    let words: Vec<&str> = row.command.split(' ').collect();
    match words[..] {
        ["check"] => check(&row.files[0]),
        ["merge"] => merge(&row.files),
        ["records"] => records(&row.files[0]),
        ["types"] => types(&row.files[0]),
        ["record", index] => record(&row.files[0], index),
        ["members"] => members(&row.files[0]),
        ["diff"] => diff(&row.files, false),
        ["diff", "--origins"] => diff(&row.files, true),
        ["diff", "--members"] => changes(&row.files),
        ["streams"] => streams(&row.files[0]),
        ["info"] => info(&row.files[0]),
        _ => panic!("{} is no command", row.command),
    }
}

/// The number and the position of the file that a refusal tells.
fn told(answer: &str) -> (u32, Option<usize>) {
    let text = answer.trim_start_matches("pdbmerge: ");
    let (input, text) = match text
        .strip_prefix("file ")
        .and_then(|rest| rest.split_once(": "))
    {
        Some((input, rest)) => (Some(input.parse().expect("a position")), rest),
        None => (None, text),
    };
    let text = match text.strip_prefix("index ") {
        Some(rest) => rest.split_once(": ").expect("a fault").1,
        None => text,
    };
    let number = text.split(' ').next().expect("a number");
    (number.parse().expect("a number"), input)
}

/// The status of the program after an answer. That of `diff` says whether the files differ.
fn status(command: &str, answer: &str) -> u32 {
    if command.starts_with("diff") && !answer.is_empty() {
        3
    } else {
        0
    }
}

/// Whether a row is as wanted; otherwise it is printed.
fn holds(row: &Row) -> bool {
    let got = match given(row) {
        Ok(answer) => (status(&row.command, &answer), answer, None),
        Err(error) => {
            let place = (error.number(), error.input());
            (1, format!("pdbmerge: {error}"), Some(place))
        }
    };
    let place = (row.status == 1).then(|| told(&row.answer));
    let wanted = (row.status, row.answer.clone(), place);
    if got != wanted {
        println!("{} {}", row.command, row.names);
        println!("  got    {got:?}\n  wanted {wanted:?}");
    }
    got == wanted
}

/// Holds the calls to each row of a table.
fn hold_table(folder: &str, table: &str) {
    let rows = rows(folder, table);
    let wrong = rows.iter().filter(|row| !holds(row)).count();
    println!(
        "{folder}{table}: {} rows, {wrong} not as wanted",
        rows.len()
    );
    assert!(!rows.is_empty() && wrong == 0);
}

#[test]
fn examples() {
    hold_table("", "EXPECTED.tsv");
}

#[test]
fn faults() {
    hold_table("faults/", "EXPECTED.tsv");
}

#[test]
fn differences() {
    hold_table("differences/", "EXPECTED.tsv");
}

#[test]
fn differences_in_members() {
    hold_table("differences/", "MEMBERS.tsv");
}
