//! Definitions and their members. The calls tell them in lines, whose forms are in docs/WORDS.md. They
//! write no line of another form: where one is met here, what can be read of it is taken.

use alloc::string::String;
use alloc::vec::Vec;
use core::fmt;

use pdbmerge_sys as sys;

use crate::call::{room_for, written};
use crate::{lent, Error, Seed};

/// A member of a definition, in the words of the program.
#[derive(Clone, Debug, PartialEq, Eq, Hash)]
pub struct Member {
    /// Its offset in bytes, of a new virtual method that in the virtual table; or the value of an
    /// enumerator. `None` where there is none, or none that can be read.
    pub offset: Option<i128>,
    /// What it is, as `member` or `private virtual method`.
    pub what: String,
    /// Its name. `None` where it has none, or none that can be read.
    pub name: Option<Vec<u8>>,
    /// Its type. `None` for an enumerator.
    pub ty: Option<String>,
}

/// What a definition is.
#[derive(Clone, Copy, Debug, PartialEq, Eq, Hash)]
pub enum DefinitionKind {
    /// A class.
    Class,
    /// A structure.
    Structure,
    /// A union.
    Union,
    /// An interface.
    Interface,
    /// An enumeration.
    Enumeration,
}

/// A class, a structure, a union, an interface or an enumeration.
#[derive(Clone, Debug, PartialEq, Eq, Hash)]
pub struct Definition {
    /// Which of them it is.
    pub kind: DefinitionKind,
    /// Its name. `None` where it has none that can be read.
    pub name: Option<Vec<u8>>,
    /// Its size in bytes. `None` where it can't be read, and for an enumeration. A hostile file can give
    /// a negative one.
    pub size: Option<i128>,
    /// The type of the values of an enumeration. `None` for any other definition.
    pub ty: Option<String>,
    /// Whether the file only declares it: a compiler gives it no members then.
    pub declared: bool,
    /// Its members, in their order.
    pub members: Vec<Member>,
}

/// What became of a definition between two files. Where it changed, both are there, each with the
/// members that only its file has; their kind and their name are those of the first file. Neither has
/// members where only the size changed, or the order of the members, how often one comes, or the name.
#[derive(Clone, Debug, PartialEq, Eq, Hash)]
pub struct Change {
    /// The definition of the first file. `None` where it came.
    pub old: Option<Definition>,
    /// The definition of the second file. `None` where it went.
    pub new: Option<Definition>,
}

/// The definitions of a file, in the order of their records.
pub fn members(file: &[u8]) -> Result<Vec<Definition>, Error> {
    asked(file, &[])
}

/// The definitions with a name. Where the file only declares it, the declaration; nothing where no type
/// has the name.
pub fn members_named(file: &[u8], name: &[u8]) -> Result<Vec<Definition>, Error> {
    asked(file, &[lent(name)])
}

/// The definitions with these names, or all where there are none.
fn asked(file: &[u8], names: &[sys::pdbmerge_slice]) -> Result<Vec<Definition>, Error> {
    // Most texts are shorter than the file.
    let room = file.len();
    // SAFETY: the file and the names are as long as said, and are lent for the call alone.
    let text = unsafe {
        written(room, |out, room, size, fault| {
            let (bytes, length) = (file.as_ptr(), file.len());
            let (names, count) = (names.as_ptr(), names.len());
            sys::pdbmerge_members(bytes, length, names, count, out, room, size, fault)
        })?
    };
    definitions(&String::from_utf8_lossy(&text))
}

/// The definitions that came, went or changed between two files, in the order in which `diff --members`
/// prints them. There are none exactly where both files have the same definitions.
#[cfg(feature = "std")]
pub fn changes(first: &[u8], second: &[u8]) -> Result<Vec<Change>, Error> {
    changes_with_seed(first, second, Seed::random())
}

/// As `changes`, with a seed of the caller.
pub fn changes_with_seed(first: &[u8], second: &[u8], seed: Seed) -> Result<Vec<Change>, Error> {
    let seed = seed.lent();
    // Most texts are shorter than the longer file.
    let room = first.len().max(second.len());
    // SAFETY: both files are as long as said, and are lent for the call alone.
    let text = unsafe {
        written(room, |out, room, size, fault| {
            sys::pdbmerge_changes(
                first.as_ptr(),
                first.len(),
                second.as_ptr(),
                second.len(),
                &seed,
                out,
                room,
                size,
                fault,
            )
        })?
    };
    changes_told(&String::from_utf8_lossy(&text))
}

impl DefinitionKind {
    const ALL: [Self; 5] = [
        DefinitionKind::Class,
        DefinitionKind::Structure,
        DefinitionKind::Union,
        DefinitionKind::Interface,
        DefinitionKind::Enumeration,
    ];

    fn word(self) -> &'static str {
        match self {
            DefinitionKind::Class => "class",
            DefinitionKind::Structure => "structure",
            DefinitionKind::Union => "union",
            DefinitionKind::Interface => "interface",
            DefinitionKind::Enumeration => "enumeration",
        }
    }

    /// What stands between the name and the size, or the type of the values.
    fn joint(self) -> &'static str {
        match self {
            DefinitionKind::Enumeration => " of ",
            _ => " size ",
        }
    }
}

impl fmt::Display for DefinitionKind {
    fn fmt(&self, f: &mut fmt::Formatter<'_>) -> fmt::Result {
        f.write_str(self.word())
    }
}

/// The definitions that the text of `members` tells.
fn definitions(text: &str) -> Result<Vec<Definition>, Error> {
    let mut found = Vec::new();
    for line in text.lines() {
        if let Some(line) = line.strip_prefix("  ") {
            add_member(found.last_mut(), line)?;
        } else if let Some(head) = Head::of(line) {
            push(&mut found, head.definition(head.size)?)?;
        }
    }
    Ok(found)
}

/// The changes that the text of `diff --members` tells.
fn changes_told(text: &str) -> Result<Vec<Change>, Error> {
    let mut found = Vec::new();
    for line in text.lines() {
        // The sign says enough: two spaces before it say only that a line with ~ is above.
        let line = line.strip_prefix("  ").unwrap_or(line);
        if let Some((sign, line)) = line.split_once(' ') {
            add_line(&mut found, sign, line)?;
        }
    }
    Ok(found)
}

/// Adds what the line behind a sign tells.
fn add_line(found: &mut Vec<Change>, sign: &str, line: &str) -> Result<(), Error> {
    if let Some(line) = line.strip_prefix("  ") {
        let half = found.last_mut().and_then(|change| change.half(sign));
        add_member(half, line)
    } else if let Some(head) = Head::of(line) {
        push(found, Change::of(sign, &head)?)
    } else {
        Ok(())
    }
}

impl Change {
    /// The change that a head behind a sign tells, without members.
    fn of(sign: &str, head: &Head<'_>) -> Result<Self, Error> {
        let (old, new) = both_sizes(head.size);
        let half = |there: bool, size| there.then(|| head.definition(size)).transpose();
        Ok(Change {
            old: half(sign != "+", old)?,
            new: half(sign != "-", new)?,
        })
    }

    /// The definition to which lines with a sign belong.
    fn half(&mut self, sign: &str) -> Option<&mut Definition> {
        match sign {
            "-" => self.old.as_mut(),
            _ => self.new.as_mut(),
        }
    }
}

/// Adds the member of a line. Each such line is below a head.
fn add_member(definition: Option<&mut Definition>, line: &str) -> Result<(), Error> {
    match definition {
        Some(definition) => push(&mut definition.members, Member::of(line)?),
        None => Ok(()),
    }
}

/// The parts of the head of a definition.
struct Head<'a> {
    kind: DefinitionKind,
    name: Option<&'a str>,
    /// The size, or the type of the values.
    size: &'a str,
    declared: bool,
}

impl<'a> Head<'a> {
    fn of(line: &'a str) -> Option<Self> {
        let (line, declared) = match line.strip_suffix(" declared only") {
            Some(line) => (line, true),
            None => (line, false),
        };
        let (word, line) = line.split_once(' ')?;
        let kind = DefinitionKind::ALL
            .into_iter()
            .find(|kind| kind.word() == word)?;
        let (name, line) = split_name(line);
        let size = line.strip_prefix(kind.joint())?;
        Some(Head {
            kind,
            name,
            size,
            declared,
        })
    }

    /// The definition without its members, with this size or type of the values.
    fn definition(&self, size: &str) -> Result<Definition, Error> {
        let (size, ty) = match self.kind {
            DefinitionKind::Enumeration => (None, Some(copied_words(size)?)),
            _ => (size.parse().ok(), None),
        };
        Ok(Definition {
            kind: self.kind,
            name: self.name.map(unquoted).transpose()?,
            size,
            ty,
            declared: self.declared,
            members: Vec::new(),
        })
    }
}

/// The sizes or types of a head in both files: the same one twice where it shows but one.
fn both_sizes(text: &str) -> (&str, &str) {
    const ARROW: &str = " -> ";
    // No arrow is in the words of a type, but for its quotes. One may be open where the words were cut.
    // They have 402 bytes then, and any others have fewer.
    const CUT: usize = 402;
    let outside = |front: &str| front.matches('"').count() % 2 == 0;
    let mut arrows = text.match_indices(ARROW).map(|(at, _)| text.split_at(at));
    let found = arrows.find(|(old, _)| old.len() == CUT || outside(old));
    found.map_or((text, text), |(old, rest)| (old, &rest[ARROW.len()..]))
}

/// What follows the words that say what a member is.
#[derive(Clone, Copy)]
enum Follows {
    Name,
    NameAndType,
    Type,
}

/// What a member is, behind who may use it; N is a number. Where one begins another, the longer one is
/// first.
const FORMS: [(&str, Follows); 16] = [
    ("member", Follows::NameAndType),
    ("value", Follows::Name),
    ("method", Follows::NameAndType),
    ("virtual method", Follows::NameAndType),
    ("static method", Follows::NameAndType),
    ("friend method", Follows::NameAndType),
    ("new virtual method", Follows::NameAndType),
    ("pure virtual method", Follows::NameAndType),
    ("new pure virtual method", Follows::NameAndType),
    ("N methods", Follows::NameAndType),
    ("static", Follows::NameAndType),
    ("nested", Follows::NameAndType),
    ("base", Follows::Type),
    ("virtual base N", Follows::Type),
    ("indirect virtual base N", Follows::Type),
    ("virtual functions", Follows::Type),
];

impl Member {
    /// The member of a line, without the two spaces before it.
    fn of(line: &str) -> Result<Self, Error> {
        let (place, line) = line.split_once(' ').unwrap_or((line, ""));
        let (what, follows, rest) = split_what(line);
        let (name, ty) = match follows {
            Follows::Name => (split_name(rest).0, None),
            Follows::NameAndType => split_type(rest),
            Follows::Type => (None, Some(rest)),
        };
        Ok(Member {
            offset: place.parse().ok(),
            what: copied_words(what)?,
            name: name.map(unquoted).transpose()?,
            ty: ty.map(copied_words).transpose()?,
        })
    }
}

/// What a member is, and what follows it.
fn split_what(line: &str) -> (&str, Follows, &str) {
    let words = ["private ", "protected "]
        .iter()
        .find_map(|who| line.strip_prefix(who))
        .unwrap_or(line);
    let found = FORMS
        .iter()
        .find_map(|(form, follows)| Some((behind(form, words)?, *follows)));
    let (rest, follows) = found.unwrap_or(("", Follows::Name));
    let what = &line[..line.len() - rest.len()];
    (what.trim_end(), follows, rest)
}

/// What follows a form and a space, where a line begins with the form.
fn behind<'a>(form: &str, line: &'a str) -> Option<&'a str> {
    let (mut words, mut length) = (line.split(' '), 0);
    for wanted in form.split(' ') {
        let word = words.next()?;
        if word != wanted && wanted != "N" {
            return None;
        }
        length += word.len() + 1;
    }
    // No space follows the last word of a line.
    Some(line.get(length..).unwrap_or(""))
}

/// A name without its quotes, and what follows it. Where no name is there, everything follows.
fn split_name(text: &str) -> (Option<&str>, &str) {
    if let Some(rest) = text.strip_prefix('?') {
        return (None, rest);
    }
    let found = text.strip_prefix('"').and_then(|name| name.split_once('"'));
    found.map_or((None, text), |(name, rest)| (Some(name), rest))
}

/// A name without its quotes, and the type behind it. Where no name is there, everything is the type.
fn split_type(text: &str) -> (Option<&str>, Option<&str>) {
    let (name, rest) = split_name(text);
    match rest.strip_prefix(' ') {
        Some(ty) => (name, Some(ty)),
        None => (None, Some(text)),
    }
}

/// The bytes of a name that stood in quotes.
fn unquoted(name: &str) -> Result<Vec<u8>, Error> {
    let mut bytes = room_for(name.len())?;
    let mut rest = name.as_bytes();
    loop {
        rest = match rest {
            [b'\\', b'x', high, low, rest @ ..] => {
                bytes.push(digit(*high) << 4 | digit(*low));
                rest
            }
            [byte, rest @ ..] => {
                bytes.push(*byte);
                rest
            }
            [] => return Ok(bytes),
        };
    }
}

/// The value of a hexadecimal digit.
fn digit(glyph: u8) -> u8 {
    char::from(glyph)
        .to_digit(16)
        .map_or(0, |value| value as u8)
}

/// A copy of some words.
fn copied_words(words: &str) -> Result<String, Error> {
    let mut copy = String::new();
    copy.try_reserve_exact(words.len())
        .map_err(|_| Error::memory())?;
    copy.push_str(words);
    Ok(copy)
}

/// Adds an item to a list.
fn push<T>(items: &mut Vec<T>, item: T) -> Result<(), Error> {
    items.try_reserve(1).map_err(|_| Error::memory())?;
    items.push(item);
    Ok(())
}

#[cfg(test)]
mod tests {
    use super::*;
    use alloc::format;
    use alloc::string::ToString;
    use alloc::vec;

    const WHO: [&str; 3] = ["", "private ", "protected "];

    fn member(offset: Option<i128>, what: &str, name: Option<&[u8]>, ty: Option<&str>) -> Member {
        Member {
            offset,
            what: what.into(),
            name: name.map(Vec::from),
            ty: ty.map(String::from),
        }
    }

    /// Holds the line of a member to what it tells.
    fn hold(line: &str, offset: Option<i128>, what: &str, name: Option<&[u8]>, ty: Option<&str>) {
        let wanted = member(offset, what, name, ty);
        assert_eq!(Member::of(line), Ok(wanted), "{line}");
    }

    #[test]
    fn members_with_a_name_and_a_type() {
        let used = [
            "member",
            "static",
            "method",
            "virtual method",
            "static method",
            "friend method",
            "new virtual method",
            "pure virtual method",
            "new pure virtual method",
        ];
        let used = WHO.map(|who| used.map(|what| format!("{who}{what}")));
        let others = ["nested", "0 methods", "65535 methods"].map(String::from);
        for what in used.iter().flatten().chain(&others) {
            let line = format!("8 {what} \"m\" pointer to \"S\"");
            hold(&line, Some(8), what, Some(b"m"), Some("pointer to \"S\""));
            let line = format!("- {what} \"method\" int");
            hold(&line, None, what, Some(b"method"), Some("int"));
        }
    }

    #[test]
    fn members_with_a_type_alone() {
        let used = [
            "base",
            "virtual base 1",
            "virtual base ?",
            "indirect virtual base -2",
            "indirect virtual base ?",
        ];
        let used = WHO.map(|who| used.map(|what| format!("{who}{what}")));
        for what in used.iter().flatten() {
            for ty in ["\"S\"", "\"S\" or \"T\"", "?", "? or int"] {
                hold(&format!("0 {what} {ty}"), Some(0), what, None, Some(ty));
            }
        }
        let (what, ty) = ("virtual functions", "\"S\" or \"T\"");
        hold(&format!("- {what} {ty}"), None, what, None, Some(ty));
        hold("- method int", None, "method", None, Some("int"));
        hold("- method \"S\"", None, "method", None, Some("\"S\""));
    }

    #[test]
    fn places_of_each_number() {
        let places = [
            ("-9223372036854775808", Some(-9223372036854775808)),
            ("-1", Some(-1)),
            ("0", Some(0)),
            ("18446744073709551615", Some(18446744073709551615)),
            ("?", None),
            ("-", None),
        ];
        for (text, place) in places {
            let line = format!("{text} value \"V\"");
            hold(&line, place, "value", Some(b"V"), None);
            let line = format!("{text} member \"m\" int");
            hold(&line, place, "member", Some(b"m"), Some("int"));
        }
        hold("7 value", Some(7), "value", None, None);
    }

    #[test]
    fn names_of_any_bytes() {
        let names: [(&str, Option<&[u8]>); 7] = [
            ("?", None),
            ("\"\"", Some(b"")),
            ("\"?\"", Some(b"?")),
            ("\"a b\"", Some(b"a b")),
            ("\"\\x22\"", Some(b"\x22")),
            ("\"\\x5cx41\\xff\"", Some(b"\\x41\xff")),
            ("\"\\x00 -> \\x0a\"", Some(b"\0 -> \n")),
        ];
        for (text, name) in names {
            hold(&format!("1 value {text}"), Some(1), "value", name, None);
            let line = format!("1 member {text} int");
            hold(&line, Some(1), "member", name, Some("int"));
            let found = definitions(&format!("union {text} size 2\nenumeration {text} of int"));
            let union = definition(DefinitionKind::Union, name, Some(2), None);
            let enumeration = definition(DefinitionKind::Enumeration, name, None, Some("int"));
            assert_eq!(found, Ok(vec![union, enumeration]), "{text}");
        }
    }

    /// Words of 402 bytes, which were cut: in a quote, and outside one.
    fn cut_types() -> [String; 2] {
        let (name, words) = ("S -> ".repeat(80), "\"S\" or ".repeat(58));
        [
            format!("\"{}..", &name[..399]),
            format!("{}..", &words[..400]),
        ]
    }

    #[test]
    fn types_of_any_words() {
        let [in_quote, outside] = cut_types();
        for ty in ["", "?", "\"S\"", "(int, \"a -> b\")", &in_quote, &outside] {
            let line = format!("0 member \"m\" {ty}");
            hold(&line, Some(0), "member", Some(b"m"), Some(ty));
            hold(&format!("0 base {ty}"), Some(0), "base", None, Some(ty));
            let kind = DefinitionKind::Enumeration;
            let defined = definition(kind, Some(b"E"), None, Some(ty));
            let declared = Definition {
                declared: true,
                ..defined.clone()
            };
            let found = definitions(&format!("enumeration \"E\" of {ty}"));
            assert_eq!(found, Ok(vec![defined]));
            let found = definitions(&format!("enumeration \"E\" of {ty} declared only"));
            assert_eq!(found, Ok(vec![declared]));
        }
    }

    /// A definition without members.
    fn definition(
        kind: DefinitionKind,
        name: Option<&[u8]>,
        size: Option<i128>,
        ty: Option<&str>,
    ) -> Definition {
        Definition {
            kind,
            name: name.map(Vec::from),
            size,
            ty: ty.map(String::from),
            declared: false,
            members: Vec::new(),
        }
    }

    #[test]
    fn heads_of_each_kind() {
        let kinds = [
            (DefinitionKind::Class, "class"),
            (DefinitionKind::Structure, "structure"),
            (DefinitionKind::Union, "union"),
            (DefinitionKind::Interface, "interface"),
        ];
        let sizes = [
            ("18446744073709551615", Some(18446744073709551615)),
            ("-9223372036854775808", Some(-9223372036854775808)),
            ("?", None),
        ];
        for (kind, word) in kinds {
            assert_eq!(kind.to_string(), word);
            for (text, size) in sizes {
                let defined = definition(kind, Some(b"S"), size, None);
                let declared = Definition {
                    declared: true,
                    ..defined.clone()
                };
                let head = format!("{word} \"S\" size {text}");
                let found = definitions(&format!("{head}\n{head} declared only\n"));
                assert_eq!(found, Ok(vec![defined, declared]), "{head}");
            }
        }
        assert_eq!(DefinitionKind::Enumeration.to_string(), "enumeration");
    }

    /// A class with fields of the type int.
    fn class(size: i128, fields: &[(i128, &[u8])]) -> Definition {
        let field = |&(offset, name)| member(Some(offset), "member", Some(name), Some("int"));
        Definition {
            members: fields.iter().map(field).collect(),
            ..definition(DefinitionKind::Class, Some(b"C"), Some(size), None)
        }
    }

    #[test]
    fn members_belong_to_the_head_above() {
        let lines = [
            "union \"U\" size 8",
            "  0 member \"a\" int",
            "  0 member \"b\" double",
            "class \"C\" size 1",
            "class \"C\" size 4 declared only",
            "  0 member \"m\" int",
            "enumeration \"E\" of int",
            "  0 value \"V\"",
        ];
        let mut union = definition(DefinitionKind::Union, Some(b"U"), Some(8), None);
        union.members = vec![
            member(Some(0), "member", Some(b"a"), Some("int")),
            member(Some(0), "member", Some(b"b"), Some("double")),
        ];
        let empty = definition(DefinitionKind::Class, Some(b"C"), Some(1), None);
        // No compiler writes such a declaration.
        let declared = Definition {
            declared: true,
            ..class(4, &[(0, b"m")])
        };
        let kind = DefinitionKind::Enumeration;
        let mut enumeration = definition(kind, Some(b"E"), None, Some("int"));
        enumeration.members = vec![member(Some(0), "value", Some(b"V"), None)];
        let wanted = vec![union, empty, declared, enumeration];
        assert_eq!(definitions(&lines.join("\n")), Ok(wanted));
        assert_eq!(definitions(""), Ok(vec![]));
    }

    #[test]
    fn changes_of_each_kind() {
        let lines = [
            "~ class \"C\" size 4 -> 8",
            "  -   0 member \"m\" int",
            "  +   4 member \"m\" int",
            "  +   0 member \"n\" int",
            "- class \"C\" size 4",
            "-   0 member \"m\" int",
            "+ class \"C\" size 8",
            "+   4 member \"m\" int",
            "+   0 member \"n\" int",
            "~ enumeration \"E -> F\" of \"a -> b\"",
            "~ enumeration \"E -> F\" of \"a -> b\" -> int",
        ];
        let old = Some(class(4, &[(0, b"m")]));
        let new = Some(class(8, &[(4, b"m"), (0, b"n")]));
        let kind = DefinitionKind::Enumeration;
        let of = |ty| Some(definition(kind, Some(b"E -> F"), None, Some(ty)));
        let wanted = [
            (old.clone(), new.clone()),
            (old, None),
            (None, new),
            (of("\"a -> b\""), of("\"a -> b\"")),
            (of("\"a -> b\""), of("int")),
        ];
        let wanted = wanted.map(|(old, new)| Change { old, new });
        assert_eq!(changes_told(&lines.join("\n")), Ok(wanted.to_vec()));
        assert_eq!(changes_told(""), Ok(vec![]));
    }

    #[test]
    fn sizes_and_types_are_parted_at_the_arrow() {
        // Behind `int -> ` the last name reads as if words were cut there.
        let (long, trap) = (format!("\"{:398}\"", ""), format!("\"{:392}.. -> \"", ""));
        assert_eq!((long.len(), trap.len()), (400, 400));
        let [in_quote, outside] = cut_types();
        assert_eq!((in_quote.len(), outside.len()), (402, 402));
        let quoted = "\"a -> b\", bits 0 to 1";
        let short = ["", "8", "-1", "?", "int", "\"S\"", quoted];
        let others = [&long[..], &trap, &in_quote, &outside];
        let all: Vec<_> = short.iter().chain(&others).copied().collect();
        for old in &all {
            assert_eq!(both_sizes(old), (*old, *old));
            for new in &all {
                let text = format!("{old} -> {new}");
                assert_eq!(both_sizes(&text), (*old, *new), "{text}");
            }
        }
    }

    #[test]
    fn lines_of_another_form_do_no_harm() {
        hold("", None, "", None, None);
        hold("8", Some(8), "", None, None);
        hold("8 odd \"m\" int", Some(8), "odd \"m\" int", None, None);
        let text = "  0 member \"m\" int\nrecord \"R\" size 4\nclass \"C size 4\nclass \"C\"\n";
        assert_eq!(definitions(text), Ok(vec![]));
        let text = "-   0 member \"m\" int\n\n+\n~ class\n";
        assert_eq!(changes_told(text), Ok(vec![]));
        let text = "~ class \"\\xff\" size 4 -> 8\n  -   0 virtual base 1 int\n- union ? size 8\n\
                    class \"\\xff\" size 4 declared only\n  0 private static method \"m\" \"S\"\n";
        for at in 0..text.len() {
            let odd = format!("{}\u{fffd}{}", &text[..at], &text[at + 1..]);
            for text in [&text[..at], &odd] {
                assert!(definitions(text).is_ok(), "{text}");
                assert!(changes_told(text).is_ok(), "{text}");
            }
        }
    }
}
