//! Settings, lengths, lines, refusals and the bytes on the wire.

use draw_tracker::{
    deck_numbers, decks_numbers, desk_numbers, file_bytes, most_messages, Draw, Message, Refusal,
    Settings, MOST_LISTED,
};

const A: Settings =
    Settings { decks: 1, leeway: 1000, share: 1000, rank: 500, slots: 6, codes: 10 };

#[test]
fn settings_are_tested() {
    assert_eq!(A.test(), Ok(()));
    for (settings, refusal) in [
        (Settings { decks: 0, ..A }, Refusal::SettingOutOfRange),
        (Settings { decks: 33, ..A }, Refusal::SettingOutOfRange),
        (Settings { leeway: 1001, ..A }, Refusal::SettingOutOfRange),
        (Settings { codes: u32::MAX, ..A }, Refusal::SettingOutOfRange),
        (Settings { share: 999, ..A }, Refusal::ShareBelowLeeway),
        (Settings { slots: 5, ..A }, Refusal::TooFewSlots),
    ] {
        assert_eq!(settings.test(), Err(refusal), "{settings:?}");
        assert_eq!(settings.lengths(), Err(refusal), "{settings:?}");
        assert_eq!(settings.allowance(6), Err(refusal), "{settings:?}");
        assert_eq!(settings.file_length(), Err(refusal), "{settings:?}");
    }
}

/// Document 01's P7: leeway 7 needs 858 slots.
#[test]
fn slots_of_p7() {
    let settings = Settings { leeway: 7, slots: 857, ..A };
    assert_eq!(settings.test(), Err(Refusal::TooFewSlots));
    assert_eq!(Settings { slots: 858, ..settings }.test(), Ok(()));
}

/// Document 01's P10: allowance 600 at n 6, 150 at n 0.
#[test]
fn allowance_of_p10() {
    assert_eq!((A.allowance(6), A.allowance(0)), (Ok(600), Ok(150)));
}

#[test]
fn lengths_are_the_formulas() {
    for (decks, leeway, share, slots, codes) in [
        (1, 1000, 1000, 6, 10),
        (3, 60, 300, 100, 1000),
        (4, 10, 30, 600, 65536),
        (32, 2, 2, 3000, 65536),
        (32, 2, 1000, 3000, 1),
        (2, 800, 800, 8, 3000),
    ] {
        let settings = Settings { decks, leeway, share, rank: 500, slots, codes };
        let lengths = settings.lengths().expect("settings that pass");
        assert_eq!(lengths.deck_numbers, deck_numbers(slots) as u64);
        assert_eq!(lengths.decks_numbers, decks_numbers(decks, slots) as u64);
        assert_eq!(lengths.desk_numbers, desk_numbers(codes) as u64);
        assert_eq!(lengths.log_numbers, 4 * most_messages(decks) as u64);
        assert_eq!(settings.file_length(), Ok(file_bytes(decks, slots, codes)));
        let (leeway, share) = (u64::from(leeway), u64::from(share));
        let most = 6_000_000 / ((2 * share - leeway) * (3000 - leeway));
        assert_eq!(lengths.list_places, most.min(u64::from(codes)));
        assert!(lengths.list_places <= MOST_LISTED as u64);
    }
}

#[test]
fn lines_are_read() {
    assert_eq!(Draw::parse(b"0;7;3\n"), Ok((Draw { deck: 0, code: 7, class: 3 }, 6)));
    let first = Draw { deck: 31, code: 65535, class: 1023 };
    assert_eq!(Draw::parse(b"31;65535;1023\n0;0"), Ok((first, 14)));
    for line in [&b""[..], b"\n", b"0;7;3", b"00;7;3\n", b"0;7\n", b"0;7;3\r\n", b"10000000;7;3\n"]
    {
        assert_eq!(Draw::parse(line), Err(Refusal::MalformedLine));
    }
}

#[test]
fn refusals_and_their_numbers() {
    assert!(Refusal::ALL.map(Refusal::number).into_iter().eq(1..=16));
    for refusal in Refusal::ALL {
        assert_eq!(Refusal::from_number(refusal.number()), Some(refusal));
        let error: &dyn std::error::Error = &refusal;
        assert_eq!(error.to_string(), format!("{} (refusal {})", refusal.text(), refusal.number()));
    }
    for number in [0, 17, 255, u32::MAX] {
        assert_eq!(Refusal::from_number(number), None);
    }
    let mut texts = Refusal::ALL.map(Refusal::text);
    texts.sort_unstable();
    assert!(texts.windows(2).all(|pair| pair[0] != pair[1]));
}

#[test]
fn messages_on_the_wire() {
    let message = Message { kind: 6, deck: 31, a: 0x0102_0304_0506_0708, b: u64::MAX - 1 };
    let bytes = message.to_bytes();
    assert_eq!(bytes[..8], [6, 0, 0, 0, 31, 0, 0, 0]);
    assert_eq!(bytes[8..16], [8, 7, 6, 5, 4, 3, 2, 1]);
    assert_eq!(bytes[16..], [254, 255, 255, 255, 255, 255, 255, 255]);
    assert_eq!(Message::from_bytes(&bytes), message);
    assert_eq!(Message::NONE.to_bytes(), [0; Message::BYTES]);
    // Any bytes are a message, and the same bytes again.
    let bytes: [u8; Message::BYTES] = std::array::from_fn(|place| 200 + place as u8);
    assert_eq!(Message::from_bytes(&bytes).to_bytes(), bytes);
    // What four bytes don't hold stays what no call takes.
    let wide = Message { kind: (1 << 32) + 1, deck: 1 << 40, a: 0, b: 0 };
    let most = u64::from(u32::MAX);
    let sent = Message { kind: most, deck: most, a: 0, b: 0 };
    assert_eq!(Message::from_bytes(&wide.to_bytes()), sent);
}

#[test]
fn where_messages_go() {
    let to_deck = |kind: u64| Message { kind, ..Message::NONE }.is_for_deck();
    assert_eq!((0..9).filter(|&kind| to_deck(kind)).collect::<Vec<_>>(), [3, 5, 7]);
    assert!(!to_deck((1 << 32) + 3));
}
