//! Holds the crate to what it promises beside the tables.

mod common;
mod container;

use std::fs;
use std::thread;

use common::{content, root, settings};
use container::{container, words, BLOCK};
use pdbmerge::{
    changes, changes_with_seed, check, diff, features, guid_of_types, guid_of_types_with_seed,
    identify, layout, members, members_named, merge, merge_by_types, merge_by_types_with_seed,
    merge_with_maps, merge_with_maps_and_seed, merge_with_seed, named_streams, records, references,
    stream, types, version, Change, Definition, DefinitionKind, Error, ErrorKind, Layout, Member,
    NamedStream, Record, Reference, Seed, Settings,
};

/// The number, the file and the kind of a refusal.
fn refusal<T>(answer: Result<T, Error>) -> (u32, Option<usize>, ErrorKind) {
    let error = answer.err().expect("a refusal");
    (error.number(), error.input(), error.kind())
}

#[test]
fn the_version_is_that_of_the_header() {
    let header = fs::read_to_string(root().join("include/pdbmerge.h")).expect("the header");
    let (major, minor, patch) = version();
    let line = format!("#define PDBMERGE_VERSION 0x{major:02x}{minor:02x}{patch:02x}\n");
    assert!(header.contains(&line), "{line}");
}

#[test]
fn no_bytes_are_refused() {
    let sound = content("sample.pdb");
    let short = (1, None, ErrorKind::Refused);
    assert_eq!(refusal(identify(b"")), short);
    assert_eq!(refusal(layout(b"")), short);
    assert_eq!(refusal(check(b"")), short);
    assert_eq!(refusal(stream(b"", 2)), short);
    assert_eq!(refusal(named_streams(b"")), short);
    assert_eq!(refusal(features(b"")), short);
    assert_eq!(refusal(records(b"")), short);
    assert_eq!(refusal(references(b"")), short);
    assert_eq!(refusal(types(b"")), short);
    assert_eq!(refusal(members(b"")), short);
    assert_eq!(refusal(members_named(b"", b"")), short);
    let second = (1, Some(1), ErrorKind::Refused);
    assert_eq!(refusal(merge(&[&sound[..], b""], &settings())), second);
    assert_eq!(refusal(diff(&sound, b"")), second);
    assert_eq!(refusal(changes(&sound, b"")), second);
    let first = (1, Some(0), ErrorKind::Refused);
    assert_eq!(refusal(diff(b"", &sound)), first);
    assert_eq!(refusal(changes(b"", &sound)), first);
}

#[test]
fn settings_are_checked_first() {
    let base = settings();
    let wrong = [
        Settings {
            limit: (1 << 30) + 1,
            ..base
        },
        Settings {
            block_size: 0,
            ..base
        },
        Settings {
            block_size: 4097,
            ..base
        },
        Settings {
            block_size: 65536,
            ..base
        },
    ];
    for settings in wrong {
        let refused = refusal(merge(&[b""], &settings));
        assert_eq!(refused, (101, None, ErrorKind::Settings), "{settings:?}");
    }
    let texts = [
        "limit 1073741825",
        "block_size 0",
        "block_size 4097",
        "block_size 65536",
    ];
    for (settings, text) in wrong.iter().zip(texts) {
        for refused in [merge(&[b""], settings), merge_by_types(&[b""], settings)] {
            let error = refused.expect_err("a refusal");
            assert_eq!(error.to_string(), format!("101 Settings {text}"));
        }
    }
}

#[test]
fn types_choose_the_guid() {
    let (one, other) = (content("chain-200.1.pdb"), content("chain-200.2.pdb"));
    let made = merge_by_types(&[&one, &other], &settings()).expect("a merge");
    let guid = guid_of_types(&[&other, &one, &one]).expect("a GUID");
    assert_eq!(identify(&made.file).map(|identity| identity.guid), Ok(guid));
    let given = Settings { guid, ..settings() };
    assert_eq!(merge(&[&one, &other], &given).as_ref(), Ok(&made));
    let seed = Seed([7; 16]);
    let seeded = merge_by_types_with_seed(&[&other, &one], &settings(), seed);
    assert_eq!(seeded, Ok(made));
    assert_eq!(guid_of_types_with_seed(&[&one, &other], seed), Ok(guid));
    // The first bytes of the SHA-256 of no bytes, with the version 8 and the variant.
    let nothing = 0xe3b0_c442_98fc_8c14_9afb_f4c8_996f_b924_u128;
    assert_eq!(guid_of_types::<&[u8]>(&[]), Ok(nothing.to_be_bytes()));
    let refused = (1, Some(1), ErrorKind::Refused);
    assert_eq!(refusal(guid_of_types(&[&one[..], b""])), refused);
    assert_eq!(
        refusal(merge_by_types(&[&one[..], b""], &settings())),
        refused
    );
}

#[test]
fn a_limit_holds() {
    // EXPECTED.tsv says that sample.pdb has 24 bytes of records.
    let (sample, plain) = (content("sample.pdb"), content("plain.pdb"));
    let at = |limit| Settings {
        limit,
        ..settings()
    };
    assert_eq!(
        merge(&[&sample], &at(24)).map(|merged| merged.bytes),
        Ok(24)
    );
    let refused = merge(&[&sample], &at(23)).expect_err("a refusal");
    assert_eq!(refused.to_string(), "file 0: 32 TooLarge bytes 24");
    let refused = refusal(merge(&[&sample, &plain], &at(24)));
    assert_eq!(refused, (32, Some(1), ErrorKind::TooLarge));
}

#[test]
fn a_file_keeps_its_settings() {
    let file = content("data.pdb");
    for block_size in [512, 1024, 2048, 4096, 8192, 16384, 32768] {
        let settings = Settings {
            guid: *b"0123456789abcdef",
            age: u32::MAX,
            block_size,
            ..settings()
        };
        let merged = merge(&[&file], &settings).expect("a merge");
        let identity = identify(&merged.file).expect("an identity");
        assert_eq!((identity.guid, identity.age), (settings.guid, settings.age));
        assert_eq!(identity.block_size, block_size);
    }
}

/// The kind, the name and the length of a record.
fn outline<'a>(record: &Record<'a>) -> (u16, Option<Vec<u8>>, usize) {
    let name = record.name().expect("a name or none");
    (record.kind(), name, record.bytes().len())
}

#[test]
fn maps_lead_to_the_same_types() {
    let (one, other) = (content("chain-200.1.pdb"), content("chain-200.2.pdb"));
    let files = [&one, &other, &one];
    let (merged, maps) = merge_with_maps(&files, &settings()).expect("a merge");
    assert_eq!(merge(&files, &settings()).as_ref(), Ok(&merged));
    let seeded = merge_with_maps_and_seed(&files, &settings(), Seed([7; 16]));
    assert_eq!(seeded, Ok((merged.clone(), maps.clone())));
    assert_eq!((maps.len(), &maps[0]), (3, &maps[2]));
    let written = types(&merged.file).expect("types");
    let outlines: Vec<_> = written.iter().map(|record| outline(&record)).collect();
    for (file, map) in files.iter().zip(&maps) {
        let records = types(file).expect("types");
        assert_eq!(map.len(), records.iter().count());
        for (record, index) in records.iter().zip(map) {
            assert_eq!(outlines[*index as usize - 0x1000], outline(&record));
        }
    }
}

#[test]
fn maps_of_what_was_merged() {
    let files = [content("chain-200.1.pdb"), content("chain-200.2.pdb")];
    let merged = merge(&files, &settings()).expect("a merge");
    let (again, maps) = merge_with_maps(&[&merged.file], &settings()).expect("a merge");
    assert_eq!(again, merged);
    assert_eq!(maps, [(0x1000..0x1000 + merged.types).collect::<Vec<_>>()]);
    let none = merge_with_maps::<&[u8]>(&[], &settings()).expect("a merge");
    assert_eq!((none.0.types, none.1.len()), (0, 0));
    let refused = merge_with_maps(&[&merged.file[..], b""], &settings());
    assert_eq!(refusal(refused), (1, Some(1), ErrorKind::Refused));
}

#[test]
fn order_repetition_and_seed_make_no_difference() {
    let (one, other) = (content("chain-200.1.pdb"), content("chain-200.2.pdb"));
    let merged = |files: &[&[u8]]| merge(files, &settings()).expect("a merge").file;
    let want = merged(&[&one, &other]);
    assert_eq!(merged(&[&other, &one]), want);
    assert_eq!(merged(&[&other, &one, &one, &other]), want);
    assert_eq!(merged(&[&want, &other]), want);
    assert_eq!(merged(&[&want]), want);
    let seeded = merge_with_seed(&[&one, &other], &settings(), Seed([7; 16]));
    assert_eq!(seeded.map(|merged| merged.file), Ok(want));
}

#[test]
fn no_files_have_no_types() {
    let merged = merge::<&[u8]>(&[], &settings()).expect("a merge");
    let counts = check(&merged.file).expect("an accepted file");
    assert_eq!((merged.types, merged.bytes), (0, 0));
    assert_eq!((counts.records, counts.bytes, counts.levels), (0, 0, 0));
}

#[test]
fn streams_have_numbers() {
    let sample = content("sample.pdb");
    // docs/COMMANDS.md shows the streams of this file.
    let sizes = [0, 1, 2, 3, 4].map(|number| stream(&sample, number).map(|bytes| bytes.len()));
    assert_eq!(sizes, [Ok(0), Ok(52), Ok(80), Ok(0), Ok(0)]);
    assert_eq!(refusal(stream(&sample, 5)), (11, None, ErrorKind::Refused));
}

/// The bytes of each stream, by the numbers of its blocks.
fn contents(file: &[u8], layout: &Layout) -> Vec<Vec<u8>> {
    let blocks: Vec<&[u8]> = file.chunks(layout.block_size as usize).collect();
    let content = |stream: &pdbmerge::Stream| {
        let own = stream.blocks.iter().map(|number| blocks[*number as usize]);
        own.collect::<Vec<_>>().concat()[..stream.size as usize].to_vec()
    };
    layout.streams.iter().map(content).collect()
}

#[test]
fn many_streams_fit() {
    let streams: Vec<Vec<u8>> = (0..400).map(|n| vec![n as u8; 7 * n % 1200]).collect();
    let file = container(&streams);
    let layout = layout(&file).expect("a layout");
    assert_eq!(contents(&file, &layout), streams);
    let blocks: usize = layout.streams.iter().map(|each| each.blocks.len()).sum();
    assert_eq!(layout.block_size as usize, BLOCK);
    assert_eq!(layout.blocks as usize, file.len() / BLOCK);
    assert_eq!(layout.directory_bytes as usize, 4 * (1 + 400 + blocks));
    assert_eq!(layout.free_blocks, 0);
}

/// An info stream with feature codes, and with names that share their bytes: of 31 letters the name of
/// stream n lacks the first n.
fn info_of_names(codes: &[u32]) -> Vec<u8> {
    let pairs: Vec<u32> = (0..32).flat_map(|n| [n, n]).collect();
    let fields = [
        vec![0; 28],
        words(&[32]),
        vec![b'x'; 31],
        vec![0],
        words(&[32, 32, 1, u32::MAX, 0]),
        words(&pairs),
        words(&[0]),
        words(codes),
    ];
    fields.concat()
}

#[test]
fn names_may_share_bytes() {
    let file = container(&[vec![], info_of_names(&[0, 1, 2])]);
    let named = |number| NamedStream {
        name: vec![b'x'; 31 - number as usize],
        number,
    };
    assert_eq!(named_streams(&file), Ok((0..32).map(named).collect()));
    assert_eq!(features(&file), Ok(vec![0, 1, 2]));
}

#[test]
fn records_are_found_by_index() {
    let file = content("plain.pdb");
    let records = types(&file).expect("an accepted file");
    assert_eq!((records.len(), records.is_empty()), (45, false));
    assert_eq!(records.iter().len(), 45);
    let forwards: Vec<_> = records.iter().collect();
    let mut backwards: Vec<_> = records.iter().rev().collect();
    backwards.reverse();
    assert_eq!(forwards, backwards);
    for (number, record) in forwards.iter().enumerate() {
        let index = 0x1000 + number as u32;
        assert_eq!((record.index(), records.get(index)), (index, Some(*record)));
        assert_eq!(records.find(index), Ok(*record));
    }
    for index in [0, 0xfff, 0x102d, u32::MAX] {
        assert_eq!(records.get(index), None);
        let refused = refusal(records.find(index));
        assert_eq!(refused, (39, None, ErrorKind::Refused), "{index:#x}");
    }
    // The records fill the stream behind its header.
    let together: Vec<u8> = records
        .iter()
        .flat_map(|record| record.bytes().to_vec())
        .collect();
    assert_eq!(
        stream(&file, 2).expect("a stream")[56..][..together.len()],
        together
    );
}

#[test]
fn types_are_checked_and_records_are_not() {
    // The numbers are those of examples/faults/EXPECTED.tsv.
    for (name, number) in [
        ("25-leaf.pdb", 25),
        ("31-ref.pdb", 31),
        ("12-info-short.pdb", 12),
    ] {
        let file = content(&format!("faults/{name}"));
        assert_eq!(refusal(types(&file)), (number, None, ErrorKind::Refused));
        assert!(records(&file).is_ok(), "{name}");
    }
}

#[test]
fn many_references_fit() {
    let mut bytes = vec![0xaa, 0x00, 0x01, 0x12, 41, 0, 0, 0];
    bytes.extend([0x74, 0, 0, 0].repeat(41));
    let record = Record::new(0x1000, &bytes).expect("a record");
    let want: Vec<_> = (0..41)
        .map(|n| Reference {
            place: 4 + 4 * n,
            index: 0x74,
        })
        .collect();
    assert_eq!(record.references(), Ok(want));
    assert_eq!((record.kind(), record.name()), (0x1201, Ok(None)));
}

#[test]
fn all_references_are_those_of_each_record() {
    for name in [
        "inherit.pdb",
        "memptr.pdb",
        "faults/31-ref.pdb",
        "nodebug.pdb",
    ] {
        let file = content(name);
        let (named, records) = (references(&file), records(&file).expect("records"));
        let named = named.expect("references");
        assert_eq!(
            (named.len(), named.is_empty()),
            (records.len(), records.is_empty())
        );
        let wanted: Vec<_> = records.iter().map(|record| record.references()).collect();
        let found: Vec<_> = named.iter().map(|own| Ok(own.to_vec())).collect();
        assert_eq!(found, wanted, "{name}");
        for (record, own) in records.iter().zip(named.iter()) {
            assert_eq!(named.get(record.index()), Some(own));
        }
        assert_eq!(named.all(), named.iter().collect::<Vec<_>>().concat());
        for index in [0, 0xfff, 0x1000 + records.len() as u32, u32::MAX] {
            assert_eq!(named.get(index), None);
        }
    }
    // Arguments have more references than the room holds at first.
    let arguments = record(0x1201, &words(&[&[41][..], &[0x74; 41]].concat()));
    let named = references(&file_of_records(&[arguments.clone(), arguments])).expect("references");
    assert_eq!(named.iter().map(<[_]>::len).collect::<Vec<_>>(), [41, 41]);
    // The number is that of examples/faults/EXPECTED.tsv.
    let refused = references(&content("faults/25-leaf.pdb")).expect_err("a refusal");
    assert_eq!(refused.number(), 25);
    assert!(
        refused.to_string().starts_with("index 0x1000: 25 Leaf"),
        "{refused}"
    );
}

#[test]
fn a_long_name_fits() {
    // A structure: no members, no property, three indices, a size of 0, its name.
    let mut bytes = vec![0xfe, 0x03, 0x05, 0x15];
    bytes.extend([0; 18]);
    bytes.extend([b'n'; 1001]);
    bytes.push(0);
    let record = Record::new(0x1000, &bytes).expect("a record");
    assert_eq!(record.name(), Ok(Some(vec![b'n'; 1001])));
}

#[test]
fn bytes_that_are_no_record_are_none() {
    let sound = [0x0a, 0, 0x02, 0x10, 0x74, 0, 0, 0, 0x0c, 0, 1, 0];
    assert!(Record::new(0x1000, &sound).is_some());
    for length in 0..sound.len() {
        assert_eq!(Record::new(0x1000, &sound[..length]), None);
    }
    assert_eq!(Record::new(0x1000, &[0; 12]), None);
    assert_eq!(Record::new(0x1000, &[1; 3]), None);
}

#[test]
fn many_differences_fit() {
    let (many, none) = (content("chain-200.1.pdb"), content("nodebug.pdb"));
    let found = diff(&none, &many).expect("two accepted files");
    // A merge counts each type once.
    let merged = merge(&[&many], &settings()).expect("a merge");
    assert!(merged.types > 256);
    assert_eq!(found.len(), merged.types as usize);
    assert!(found.iter().all(|each| each.input == 1));
    assert!(found.windows(2).all(|pair| pair[0].index < pair[1].index));
}

/// A member that has an offset or a value.
fn member(offset: i128, what: &str, name: Option<&str>, ty: Option<&str>) -> Member {
    Member {
        offset: Some(offset),
        what: what.into(),
        name: name.map(|name| name.into()),
        ty: ty.map(String::from),
    }
}

/// A member that has none.
fn placeless(what: &str, name: Option<&str>, ty: &str) -> Member {
    Member {
        offset: None,
        ..member(0, what, name, Some(ty))
    }
}

/// A field: a member in the sense of C.
fn field(offset: i128, name: &str, ty: &str) -> Member {
    member(offset, "member", Some(name), Some(ty))
}

fn structure(name: &str, size: i128, members: Vec<Member>) -> Definition {
    Definition {
        kind: DefinitionKind::Structure,
        name: Some(name.into()),
        size: Some(size),
        ty: None,
        declared: false,
        members,
    }
}

fn enumeration(name: &str, ty: &str, values: &[(&str, i128)]) -> Definition {
    let value = |&(name, value)| member(value, "value", Some(name), None);
    Definition {
        kind: DefinitionKind::Enumeration,
        size: None,
        ty: Some(ty.into()),
        ..structure(name, 0, values.iter().map(value).collect())
    }
}

/// Some definitions of edited-1.h and edited.cpp. A pointer has eight bytes.
fn edited() -> [Definition; 4] {
    let takes = r#"method (reference to "Connection", reference to const "Packet") of"#;
    let on_packet = |class| format!("{takes} \"{class}\" giving int");
    let on_close = r#"method (reference to "Connection") of "Handler" giving void"#;
    let tables = "pointer to virtual table of 2";
    let pure = "new pure virtual method";
    let handler = vec![
        placeless("virtual functions", None, tables),
        field(8, "refs", "int"),
        member(0, pure, Some("on_packet"), Some(&on_packet("Handler"))),
        member(8, "new virtual method", Some("on_close"), Some(on_close)),
    ];
    let echo = vec![
        member(0, "base", None, Some("\"Handler\"")),
        field(16, "seen", "unsigned int"),
        placeless("virtual method", Some("on_packet"), &on_packet("Echo")),
    ];
    let header = vec![
        field(0, "kind", "\"Kind\""),
        field(1, "version", "unsigned char"),
        field(2, "length", "unsigned short"),
        field(4, "sequence", "unsigned int"),
        field(8, "flags", "unsigned int, bits 0 to 3"),
        field(8, "window", "unsigned int, bits 4 to 15"),
    ];
    let kinds = [("Hello", 1), ("Data", 2), ("Bye", 3)];
    [
        structure("Handler", 16, handler),
        enumeration("Kind", "unsigned char", &kinds),
        structure("Header", 12, header),
        structure("Echo", 24, echo),
    ]
}

/// Whether a record is that of a definition: by its kind, and bit 7 of its properties is not set.
fn defines(record: &Record) -> bool {
    (0x1504..=0x1507).contains(&record.kind()) && record.bytes()[6] & 0x80 == 0
}

#[test]
fn definitions_are_those_of_the_source() {
    let file = content("differences/edited-1.pdb");
    let mut found = members(&file).expect("an accepted file");
    let records = types(&file).expect("an accepted file");
    let names: Vec<_> = found.iter().map(|each| each.name.clone()).collect();
    let recorded = records.iter().filter(defines).map(|each| each.name());
    assert_eq!(recorded.collect::<Result<_, _>>(), Ok(names));
    for each in &found {
        let name = each.name.as_ref().expect("a name");
        assert_eq!(members_named(&file, name), Ok(vec![each.clone()]));
    }
    let wanted = edited();
    found.retain(|each| wanted.iter().any(|one| one.name == each.name));
    assert_eq!(found, wanted);
    for name in ["", "kind", "Kin", "Kind\0", "0x1000"] {
        let found = members_named(&file, name.as_bytes());
        assert_eq!(found, Ok(vec![]), "{name:?}");
    }
}

#[test]
fn a_class_has_bases_of_each_kind() {
    // The class Both of inherit.cpp. Each of its two direct bases has its pointer to virtual bases at 8.
    let right = "method () of \"Both\" giving void or method (int, ...) of \"Both\" giving int \
                 or method (rvalue reference to \"Both\") of \"Both\" giving int";
    let both = vec![
        member(0, "base", None, Some("\"Left\"")),
        member(24, "protected base", None, Some("\"Right\"")),
        member(8, "indirect virtual base 1", None, Some("\"Root\"")),
        field(48, "b", "int"),
        member(52, "private member", Some("hidden"), Some("int")),
        placeless("3 methods", Some("right"), right),
    ];
    let class = Definition {
        kind: DefinitionKind::Class,
        ..structure("Both", 72, both)
    };
    let file = content("inherit.pdb");
    assert_eq!(members_named(&file, b"Both"), Ok(vec![class]));
}

/// The files of a pair of differences/.
fn pair(name: &str) -> [Vec<u8>; 2] {
    ["1", "2"].map(|number| content(&format!("differences/{name}-{number}.pdb")))
}

#[test]
fn declarations_are_shown_where_they_are_asked_for() {
    let [declared, defined] = pair("declared");
    assert_eq!(members(&declared), Ok(vec![]));
    let declaration = Definition {
        declared: true,
        ..structure("S", 0, vec![])
    };
    assert_eq!(members_named(&declared, b"S"), Ok(vec![declaration]));
    let definition = structure("S", 4, vec![field(0, "f", "int")]);
    assert_eq!(members_named(&defined, b"S"), Ok(vec![definition.clone()]));
    let came = Change {
        old: None,
        new: Some(definition),
    };
    assert_eq!(changes(&declared, &defined), Ok(vec![came]));
}

#[test]
fn no_seed_makes_a_difference_in_changes() {
    let [one, other] = pair("edited");
    let found = changes(&one, &other).expect("two accepted files");
    assert_eq!(found.len(), 8);
    for byte in [0, 7, 0xff] {
        let seeded = changes_with_seed(&one, &other, Seed([byte; 16]));
        assert_eq!(seeded.as_ref(), Ok(&found));
    }
}

/// A file of these type records.
fn file_of_records(records: &[Vec<u8>]) -> Vec<u8> {
    let body = records.concat();
    let (end, size) = (0x1000 + records.len() as u32, body.len() as u32);
    let mut stream = words(&[20040203, 56, 0x1000, end, size]);
    stream.resize(56, 0);
    stream.extend(body);
    container(&[vec![], vec![0; 28], stream])
}

/// A record, filled up to a multiple of four bytes.
fn record(kind: u16, body: &[u8]) -> Vec<u8> {
    let mut body = body.to_vec();
    body.resize((body.len() + 3) / 4 * 4, 0);
    let length = 2 + body.len() as u16;
    [&length.to_le_bytes(), &kind.to_le_bytes(), &body[..]].concat()
}

/// The record of an enumeration: of its name, the type of its values and its list of fields.
fn enumeration_record(name: &str, ty: u32, fields: u32) -> Vec<u8> {
    let body = [&words(&[0, ty, fields]), name.as_bytes(), &[0]].concat();
    record(0x1507, &body)
}

#[test]
fn many_members_fit() {
    // A list of one value, which all enumerations have: the text has far more bytes than the file.
    let long = "v".repeat(1001);
    let list = [&[0x02, 0x15, 3, 0, 7, 0], long.as_bytes(), &[0]].concat();
    let mut records = vec![record(0x1203, &list)];
    let names: Vec<_> = (10..99).map(|n| format!("E{n}")).collect();
    records.extend(
        names
            .iter()
            .map(|name| enumeration_record(name, 0x74, 0x1000)),
    );
    let file = file_of_records(&records);
    assert!(names.len() * long.len() > 2 * file.len());
    let told = |name: &String| enumeration(name, "int", &[(&long, 7)]);
    let wanted: Vec<_> = names.iter().map(told).collect();
    let gone = wanted.iter().map(|each| Change {
        old: Some(each.clone()),
        new: None,
    });
    assert_eq!(members(&file).as_ref(), Ok(&wanted));
    assert_eq!(changes(&file, &file_of_records(&[])), Ok(gone.collect()));
}

#[test]
fn a_name_can_look_like_a_change() {
    // The words of a type are cut after 400 bytes. Behind `"S" -> ` the trap reads as if they were cut
    // there.
    let (long, trap) = ("a -> ".repeat(100), "a".repeat(392) + ".. -> ");
    let cut = format!("\"{}..", &long[..399]);
    let types = ["S", &trap, &long].map(|name| {
        let body = [&[0; 18], name.as_bytes(), &[0]].concat();
        let records = [record(0x1505, &body), enumeration_record("E", 0x1000, 0)];
        file_of_records(&records)
    });
    let told = ["\"S\"", &format!("\"{trap}\""), &cut].map(|ty| Some(enumeration("E", ty, &[])));
    for (old, first) in told.iter().zip(&types) {
        for (new, second) in told.iter().zip(&types).filter(|(new, _)| *new != old) {
            let mut found = changes(first, second).expect("two accepted files");
            found.retain(|each| each.old.is_some() && each.new.is_some());
            let (old, new) = (old.clone(), new.clone());
            assert_eq!(found, [Change { old, new }]);
        }
    }
}

#[test]
fn threads_share_nothing() {
    let files = [content("chain-200.1.pdb"), content("chain-200.2.pdb")];
    let broken = content("faults/02-magic.pdb");
    let want = merge(&files, &settings()).expect("a merge");
    let work = || {
        for _ in 0..20 {
            assert_eq!(merge(&files, &settings()).as_ref(), Ok(&want));
            assert_eq!(refusal(check(&broken)).0, 2);
        }
    };
    thread::scope(|scope| {
        for _ in 0..8 {
            scope.spawn(work);
        }
    });
}

#[test]
fn errors_cross_threads() {
    fn crosses<T: std::error::Error + Send + Sync + Clone + 'static>() {}
    crosses::<Error>();
}
