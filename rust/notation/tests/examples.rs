//! The grammars of examples/: to a sheet and back, to text and back.

use std::fs;
use std::path::PathBuf;

use notation::{Grammar, Sheet, Style, parse, print};

fn each(mut see: impl FnMut(&str, &str)) {
    let folder = PathBuf::from(env!("CARGO_MANIFEST_DIR")).join("../../examples");
    let mut seen = 0;
    for entry in fs::read_dir(folder).expect("the folder") {
        let path = entry.expect("an entry").path();
        let name = path.file_name().and_then(|name| name.to_str()).unwrap();
        if name.ends_with(".grammar") || name.ends_with(".joined") {
            see(name, &fs::read_to_string(&path).expect("a text"));
            seen += 1;
        }
    }
    assert!(seen >= 6, "{seen} examples");
}

#[test]
fn bytes_and_texts_mean_the_same() {
    each(|name, text| {
        let grammar = parse(text).unwrap_or_else(|fault| panic!("{name}: {fault}"));
        let sheet = &grammar.sheet;
        assert_eq!(
            Sheet::of_bytes(&sheet.bytes()).as_ref(),
            Some(sheet),
            "{name}"
        );
        for style in [Style::Plain, Style::Full] {
            let again = parse(&print(&grammar, style)).expect("the notation");
            assert_eq!(&again.sheet, sheet, "{name}, {style:?}");
            assert!(
                again.names.all().eq(grammar.names.all()),
                "{name}, {style:?}"
            );
            assert_eq!(again.attributes, grammar.attributes, "{name}, {style:?}");
        }
    });
}

/// Without the table the same, by numbers.
#[test]
fn sheets_without_names_come_back() {
    each(|name, text| {
        let sheet = parse(text).expect("the notation").sheet;
        let bare = Grammar {
            sheet,
            ..Grammar::default()
        };
        let again = parse(&print(&bare, Style::Full)).expect("the notation");
        assert_eq!(again.sheet, bare.sheet, "{name}");
        assert!(again.names.is_empty(), "{name}");
    });
}
