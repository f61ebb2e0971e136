//! The crate's declarations are those of the headers: the same calls with the same arguments, the
//! same fields, the same numbers. The headers stand in ../include, in the repository and in a
//! release alike.

use std::collections::BTreeMap;
use std::fs;
use std::path::Path;

use draw_tracker::{
    deck_numbers, decks_numbers, desk_numbers, file_bytes, most_messages, DeskRecord, Refusal,
    CLASSES, MOST_CODES, MOST_DECKS, MOST_LISTED, MOST_SLOTS, TOP_CLASS,
};

fn read(name: &str) -> String {
    let path = Path::new(env!("CARGO_MANIFEST_DIR")).join(name);
    fs::read_to_string(&path).unwrap_or_else(|error| panic!("{}: {error}", path.display()))
}

/// Both headers without their comments, in one line.
fn headers() -> String {
    let text = read("../include/controller.h") + &read("../include/tracker.h");
    let mut kept = String::new();
    for (place, part) in text.split("/*").enumerate() {
        kept += if place == 0 { part } else { part.split_once("*/").expect("a comment ends").1 };
    }
    kept
}

fn one_line(text: &str) -> String {
    text.split_whitespace().collect::<Vec<_>>().join(" ")
}

/// Arguments as `name: type`, in Rust's words, for each call.
type Calls = BTreeMap<String, Vec<String>>;

/// A C argument such as `const tracker_deck *record`, in Rust's words.
fn in_rust(argument: &str) -> String {
    let number = |word: &str| match word {
        "uint8_t" => "u8".to_string(),
        "uint32_t" => "u32".to_string(),
        "uint64_t" => "u64".to_string(),
        "int64_t" => "i64".to_string(),
        "size_t" => "usize".to_string(),
        other => other.to_string(),
    };
    let (constant, rest) = match argument.trim().strip_prefix("const ") {
        Some(rest) => ("*const", rest),
        None => ("*mut", argument.trim()),
    };
    let (of, name) = rest.split_once(' ').expect("a type and a name");
    let array = name.split_once('[').map(|(name, _)| name);
    match array.or(name.strip_prefix('*')) {
        Some(name) => format!("{name}: {constant} {}", number(of)),
        None => format!("{name}: {}", number(of)),
    }
}

fn calls_of_headers() -> Calls {
    let text = one_line(&headers());
    let prototypes = text.split("uint32_t tracker_").skip(1);
    let call = |part: &str| {
        let (name, rest) = part.split_once('(')?;
        let (arguments, _) = rest.split_once(");")?;
        let is_name = name.chars().all(|letter| letter.is_ascii_lowercase() || letter == '_');
        let arguments = arguments.split(',').map(in_rust).collect();
        is_name.then(|| (format!("tracker_{name}"), arguments))
    };
    prototypes.filter_map(call).collect()
}

fn calls_of_crate() -> Calls {
    let text = read("src/raw.rs");
    let declarations = text.split("pub fn ").skip(1);
    let call = |part: &str| {
        let (name, rest) = part.split_once('(').expect("arguments");
        let (arguments, _) = rest.split_once(") -> u32;").expect("every call answers a number");
        let arguments = arguments.split(',').map(one_line).filter(|argument| !argument.is_empty());
        (name.to_string(), arguments.collect())
    };
    declarations.map(call).collect()
}

#[test]
fn calls_are_the_headers() {
    let calls = calls_of_headers();
    assert_eq!(calls.len(), 21);
    assert_eq!(calls, calls_of_crate());
}

/// The fields of the header's struct, in their order.
fn fields(structs: &str, name: &str) -> Vec<String> {
    let (before, _) = structs.split_once(&format!("}} {name};")).expect("the struct");
    let (_, body) = before.rsplit_once("typedef struct {").expect("its begin");
    let declarations = body.split(';').map(str::trim).filter(|part| !part.is_empty());
    let names = declarations.flat_map(|part| {
        let (_, names) = part.split_once(' ').expect("a type and names");
        names.split(',').map(|name| name.trim().to_string()).collect::<Vec<_>>()
    });
    names.collect()
}

/// The fields of the crate's struct, in their order, by the C names.
fn fields_of_crate(text: &str, name: &str) -> Vec<String> {
    let (_, rest) = text.split_once(&format!("pub struct {name} {{")).expect("the struct");
    let (body, _) = rest.split_once("\n}").expect("its end");
    let fields = body.lines().filter_map(|line| line.trim().strip_prefix("pub "));
    let names = fields.map(|field| match field.split_once(':').expect("a type").0 {
        // A word of C++.
        "class" => "volume_class".to_string(),
        name if field.contains("MOST_DECKS") => format!("{name}[TRACKER_MOST_DECKS]"),
        other => other.to_string(),
    });
    names.collect()
}

#[test]
fn fields_are_the_headers() {
    let header = one_line(&headers());
    let text = read("src/values.rs") + &read("src/records.rs");
    for (of_header, of_crate) in [
        ("tracker_settings", "Settings"),
        ("tracker_draw", "Draw"),
        ("tracker_message", "Message"),
        ("tracker_deck", "DeckRecord"),
        ("tracker_decks", "DecksRecord"),
        ("tracker_desk", "DeskRecord"),
        ("tracker_lengths", "Lengths"),
        ("tracker_delivery", "Delivery"),
        ("tracker_counts", "Counts"),
    ] {
        assert_eq!(fields(&header, of_header), fields_of_crate(&text, of_crate), "{of_header}");
    }
}

/// The number that the headers define under this name.
fn defined(name: &str) -> u64 {
    let text = headers();
    let defines = text.lines().filter_map(|line| line.strip_prefix("#define "));
    let mut numbers = defines.filter_map(|line| {
        let (defined, number) = line.split_once(' ')?;
        (defined == name).then(|| number.trim().parse().expect("a number"))
    });
    numbers.next().unwrap_or_else(|| panic!("{name} is not defined"))
}

/// `SettingOutOfRange` as `TRACKER_SETTING_OUT_OF_RANGE`.
fn name_of(refusal: Refusal) -> String {
    let mut name = String::from("TRACKER");
    for letter in format!("{refusal:?}").chars() {
        if letter.is_ascii_uppercase() {
            name.push('_');
        }
        name.push(letter.to_ascii_uppercase());
    }
    name
}

#[test]
fn numbers_are_the_headers() {
    for (number, refusal) in (1..).zip(Refusal::ALL) {
        assert_eq!(refusal.number(), number);
        assert_eq!(defined(&name_of(refusal)), u64::from(number));
    }
    for (name, number) in [
        ("TRACKER_ACCEPTED", 0),
        ("TRACKER_MOST_DECKS", MOST_DECKS as u64),
        ("TRACKER_MOST_SLOTS", u64::from(MOST_SLOTS)),
        ("TRACKER_MOST_CODES", u64::from(MOST_CODES)),
        ("TRACKER_TOP_CLASS", u64::from(TOP_CLASS)),
        ("TRACKER_CLASSES", CLASSES as u64),
        ("TRACKER_MOST_LISTED", MOST_LISTED as u64),
        ("TRACKER_IDLE", DeskRecord::IDLE),
        ("TRACKER_COLLECTING", DeskRecord::COLLECTING),
        ("TRACKER_PROBING", DeskRecord::PROBING),
        ("TRACKER_ANNOUNCING", DeskRecord::ANNOUNCING),
    ] {
        assert_eq!(defined(name), number, "{name}");
    }
    // The header's formulas for constant settings, with numbers put in by hand.
    assert_eq!((deck_numbers(100), decks_numbers(3, 100)), (1424, 4272));
    assert_eq!((desk_numbers(1000), most_messages(32)), (2024, 738));
    assert_eq!((file_bytes(1, 6, 10), file_bytes(32, 3000, 65536)), (12_632, 2_200_588));
    assert_eq!(file_bytes(2, 6, 10), 16_852);
}
