//! The files of `tests/files`, which the separate implementation made: each is what it makes now,
//! and reading it gives the network it was made of. Those of the older layout are read if they are
//! of one site, and refused if they are of more.

mod support;

use std::fs;

use reference::refusal::MALFORMED_FILE;
use support::files::{files, older_files, path};
use support::saved::{enough, load, load_beside_plain};

#[test]
fn files_are_what_is_made_now() {
    for (name, network) in files() {
        let bytes = fs::read(path(name)).expect(name);
        assert!(bytes == network.file(), "{name}");
        assert!(load_beside_plain(&bytes, enough(&network.settings)) == Ok(network), "{name}");
    }
}

/// The older layout has the sum of the counts alone.
#[test]
fn files_of_the_older_layout() {
    for (name, network) in files() {
        let older = network.older_file(network.all_messages());
        assert_eq!(older == network.file(), network.settings.sites == 1, "{name}");
    }
    for (name, network) in older_files() {
        let bytes = fs::read(path(name)).expect(name);
        assert!(bytes == network.older_file(network.all_messages()), "{name}");
        let places = enough(&network.settings);
        assert_eq!(load_beside_plain(&bytes, places), Err(MALFORMED_FILE), "{name}");
        assert_eq!(load(&bytes, (0, 0)), Err(MALFORMED_FILE), "{name}");
    }
}

/// Makes the files anew, but for those of the older layout: tests/files/README.md says when.
#[test]
#[ignore = "writes to tests/files"]
fn make_files() {
    for (name, network) in files() {
        fs::write(path(name), network.file()).expect(name);
    }
}
