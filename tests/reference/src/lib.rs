//! A separate implementation of document 01: sites that watch a stream of
//! arrivals, a coordinator that knows its heavy hitters and one quantile, and
//! the messages between them. Of the requests it has N1, what a site has
//! forgotten; N2: an arrival of value 0 is no draw; N3, saving all of it to a
//! file and reading it back; and N5, the messages of each site.
//!
//! Every public call takes its numbers as any bits. What does not pass is
//! refused by its number, and a refused call changes nothing.

pub mod coordinator;
pub mod drawtrack;
pub mod message;
pub mod network;
pub mod refusal;
pub mod settings;
pub mod site;
pub mod snapshot;
pub mod worklist;
