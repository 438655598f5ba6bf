//! What the program is asked on its command line.

use std::ffi::{OsStr, OsString};
use std::os::unix::ffi::OsStrExt as _;
use std::path::PathBuf;

use mutual_recursion::Reading;

use crate::stop::{Status, Stop};

#[derive(Clone, Debug, Eq, PartialEq)]
pub enum Asked {
    Help,
    Version,
    Join(Options),
    Convert(Conversion),
}

/// `--convert OLD NEW`.
#[derive(Clone, Debug, Eq, PartialEq)]
pub struct Conversion {
    /// `-` is standard input.
    pub old: PathBuf,
    pub new: PathBuf,
    /// The words are looked at, and nothing is converted.
    pub check: bool,
}

#[derive(Clone, Debug, Default, Eq, PartialEq)]
pub struct Options {
    /// `-` is standard input.
    pub grammar: PathBuf,
    pub reading: Reading,
    pub listing: bool,
    pub strict: bool,
    /// Words and grammar are looked at, and nothing is joined.
    pub check: bool,
    pub sheet: Option<PathBuf>,
    pub trail: Option<PathBuf>,
    pub names: Option<PathBuf>,
}

impl Options {
    /// The options in force, without the files behind them.
    pub fn words(&self) -> Vec<&'static str> {
        let all = [
            (self.reading == Reading::Textbook, "--textbook"),
            (self.listing, "--listing"),
            (self.strict, "--strict"),
            (self.sheet.is_some(), "--sheet"),
            (self.trail.is_some(), "--trail"),
            (self.names.is_some(), "--names"),
        ];
        let asked = all.into_iter().filter(|(is_asked, _)| *is_asked);
        asked.map(|(_, word)| word).collect()
    }
}

pub fn asked(words: impl Iterator<Item = OsString>) -> Result<Asked, Stop> {
    let words: Vec<OsString> = words.collect();
    if words.iter().any(|word| word == "--help" || word == "-h") {
        return Ok(Asked::Help);
    }
    if words.iter().any(|word| word == "--version") {
        return Ok(Asked::Version);
    }
    if words.iter().any(|word| word == "--convert") {
        return conversion(words).map(Asked::Convert);
    }
    let mut words = words.into_iter();
    let mut options = Options::default();
    let mut grammar = None;
    while let Some(word) = words.next() {
        let (option, value) = parted(&word);
        match option.to_str().unwrap_or_default() {
            "--textbook" if value.is_none() => options.reading = Reading::Textbook,
            "--listing" if value.is_none() => options.listing = true,
            "--strict" if value.is_none() => options.strict = true,
            "--check" if value.is_none() => options.check = true,
            "--sheet" => file("--sheet", value, &mut words, &mut options.sheet)?,
            "--trail" => file("--trail", value, &mut words, &mut options.trail)?,
            "--names" => file("--names", value, &mut words, &mut options.names)?,
            _ if is_option(&word) => return Err(misused(&format!("no option {}", word.display()))),
            _ if grammar.is_some() => return Err(misused("more than one grammar")),
            _ => grammar = Some(PathBuf::from(word)),
        }
    }
    options.grammar = grammar.ok_or_else(|| misused("no grammar"))?;
    Ok(Asked::Join(options))
}

/// Of the options `--check` alone stands beside it.
fn conversion(words: Vec<OsString>) -> Result<Conversion, Stop> {
    let is_other = |word: &&OsString| is_option(word) && *word != "--convert" && *word != "--check";
    if let Some(word) = words.iter().find(is_other) {
        let what = format!("--convert takes no option {}", word.display());
        return Err(misused(&what));
    }
    let check = words.iter().any(|word| word == "--check");
    let files: Vec<OsString> = words.into_iter().filter(|word| !is_option(word)).collect();
    match <[OsString; 2]>::try_from(files) {
        Ok([old, new]) if !new.is_empty() && new != "-" => Ok(Conversion {
            old: old.into(),
            new: new.into(),
            check,
        }),
        _ => Err(misused(
            "--convert takes two files: an old sheet, and where the new one goes",
        )),
    }
}

/// An option, and what stands behind its `=`; anything else as it is.
fn parted(word: &OsStr) -> (&OsStr, Option<OsString>) {
    let bytes = word.as_bytes();
    let place = bytes.iter().position(|byte| *byte == b'=');
    match place.filter(|_| bytes.starts_with(b"--")) {
        Some(place) => {
            let value = OsStr::from_bytes(&bytes[place + 1..]).to_owned();
            (OsStr::from_bytes(&bytes[..place]), Some(value))
        }
        None => (word, None),
    }
}

/// The file of an option, which stands once: behind its `=`, or as the next word.
fn file(
    option: &str,
    value: Option<OsString>,
    words: &mut impl Iterator<Item = OsString>,
    place: &mut Option<PathBuf>,
) -> Result<(), Stop> {
    let named = value.or_else(|| words.next().filter(|word| !is_option(word)));
    let named = named.filter(|word| !word.is_empty() && word != "-");
    let named = named.ok_or_else(|| misused(&format!("{option} takes a file")))?;
    match place.replace(named.into()) {
        None => Ok(()),
        Some(_) => Err(misused(&format!("{option} stands twice"))),
    }
}

/// `-` alone is no option.
fn is_option(word: &OsString) -> bool {
    word.as_bytes().starts_with(b"-") && word != "-"
}

fn misused(what: &str) -> Stop {
    Stop {
        status: Status::File,
        text: format!("{what}; join --help tells how it is used"),
    }
}

#[cfg(test)]
mod tests {
    use super::*;

    fn of(line: &str) -> Result<Asked, Stop> {
        asked(line.split_whitespace().map(OsString::from))
    }

    #[test]
    fn all_at_once() {
        let options = Options {
            grammar: "g".into(),
            reading: Reading::Textbook,
            listing: true,
            strict: true,
            check: true,
            sheet: Some("s".into()),
            trail: Some("t".into()),
            names: Some("n=m".into()),
        };
        let words = options.words();
        let line = "--sheet s --textbook g --trail=t --names=n=m --listing --strict --check";
        assert_eq!(of(line), Ok(Asked::Join(options)));
        let all = "--textbook --listing --strict --sheet --trail --names";
        assert_eq!(words.join(" "), all);
        assert!(Options::default().words().is_empty());
    }

    #[test]
    fn standard_input() {
        let grammar = "-".into();
        let options = Options {
            grammar,
            ..Options::default()
        };
        assert_eq!(of("-"), Ok(Asked::Join(options)));
    }

    #[test]
    fn conversions() {
        let wanted = |old: &str, check| {
            Ok(Asked::Convert(Conversion {
                old: old.into(),
                new: "new".into(),
                check,
            }))
        };
        assert_eq!(of("--convert old new"), wanted("old", false));
        assert_eq!(of("old --convert new"), wanted("old", false));
        assert_eq!(of("--check --convert - new"), wanted("-", true));
    }

    #[test]
    fn help_before_all_else() {
        assert_eq!(of("--sheet --help --other"), Ok(Asked::Help));
        assert_eq!(of("-h --version"), Ok(Asked::Help));
        assert_eq!(of("--other --version"), Ok(Asked::Version));
    }

    #[test]
    fn misuse_is_named() {
        for (line, expected) in [
            ("", "no grammar"),
            ("--listing", "no grammar"),
            ("a b", "more than one grammar"),
            ("a -", "more than one grammar"),
            ("--other a", "no option --other"),
            ("--other=b a", "no option --other=b"),
            ("--strict=b a", "no option --strict=b"),
            ("-x", "no option -x"),
            ("a --sheet", "--sheet takes a file"),
            ("a --sheet=", "--sheet takes a file"),
            ("a --sheet -", "--sheet takes a file"),
            ("a --trail --listing", "--trail takes a file"),
            ("a --names n --names=n", "--names stands twice"),
            ("--convert=a b", "no option --convert=a"),
            (
                "--convert a b --listing",
                "--convert takes no option --listing",
            ),
            (
                "--convert a",
                "--convert takes two files: an old sheet, and where the new one goes",
            ),
            (
                "--convert a b c",
                "--convert takes two files: an old sheet, and where the new one goes",
            ),
            (
                "--convert a -",
                "--convert takes two files: an old sheet, and where the new one goes",
            ),
        ] {
            let stop = of(line).expect_err(line);
            assert_eq!(stop.status, Status::File);
            let text = format!("{expected}; join --help tells how it is used");
            assert_eq!(stop.text, text);
        }
    }
}
