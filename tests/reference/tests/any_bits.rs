//! Records and memory that never arose: no call panics, refused calls change
//! nothing, and inside a batch no message is ever refused.

mod support;

use reference::coordinator::{CoordinatorRecord, Phase};
use reference::message::Message;
use reference::network::Sites;
use reference::refusal::*;
use reference::settings::{allowance, settings_refusal, Settings};
use reference::site::{self, SiteRecord, SITES_NUMBERS, SITE_NUMBERS};
use support::counts::counted_up;
use support::never_arose::{any, any_network, any_phase, spoil};
use support::{arrival, message, Random, TestNetwork};

/// Makes every call on clones of the network; a refused one changes nothing.
fn call_all(network: &TestNetwork, random: &mut Random) {
    let next = arrival(any(random) as u32, any(random) as u32, any(random) as u32);
    let near = arrival(next.site % 4, next.item % 8, next.value % 1030);
    let sent = message(random.below32(9), random.below32(4), any(random), any(random));
    let calls: [&dyn Fn(&mut TestNetwork) -> u8; 7] = [
        &|network| network.observe(next).0,
        &|network| network.observe(near).0,
        &|network| network.tell_site(sent).0,
        &|network| network.tell_coordinator(sent).0,
        &|network| network.next_announcement().0,
        &|network| network.margin(near.item).err().unwrap_or(ACCEPTED),
        &|network| {
            let mut log = vec![Message::default(); 200];
            let answer = network.run_batch(&[next], &mut log);
            assert!(answer.refusal == ACCEPTED || answer.written == 0);
            answer.refusal
        },
    ];
    for call in calls {
        let mut called = network.clone();
        let refusal = call(&mut called);
        assert!(refusal == ACCEPTED || called == *network, "refusal {refusal}");
    }
}

#[test]
fn spoilt_networks() {
    let mut random = Random::new(801);
    let mut start = TestNetwork::start([3, 1000, 1000, 400, 6, 8]);
    for round in 0..60 {
        for _ in 0..300 {
            let mut network = start.clone();
            spoil(&mut network, &mut random);
            call_all(&network, &mut random);
        }
        start.take(&[arrival(round % 3, round % 8, 1 + round)]);
    }
}

/// Settings of any bits: every call tests them before anything else.
#[test]
fn any_settings() {
    let mut random = Random::new(802);
    let start = TestNetwork::start([3, 1000, 1000, 400, 6, 8]);
    let choices = [0, 1, 2, 3, 6, 7, 32, 999, 1000, 3000, 3001, 65_536, 65_537, u32::MAX];
    let mut refusals = [0; 15];
    for _ in 0..20_000 {
        let mut network = start.clone();
        network.settings = Settings::from_numbers([0; 6].map(|_| random.pick(&choices)));
        let first = settings_refusal(&network.settings);
        let settings = network.settings;
        let (mut record, mut memory) = (SiteRecord::FRESH, network.site_memory.clone());
        let answers = [
            network.refusal(),
            network.next_announcement().0,
            network.tell_coordinator(message(1, 0, 0, 1)).0,
            network.margin(0).err().unwrap_or(ACCEPTED),
            site::observe(&settings, arrival(0, 0, 1), &mut record, &mut memory).refusal,
            site::receive(&settings, 0, message(3, 0, 0, 0), &mut record, &memory).refusal,
            allowance(&settings, u64::MAX).err().unwrap_or(ACCEPTED),
        ];
        if first != ACCEPTED {
            assert_eq!(answers, [first; 7]);
        }
        refusals[usize::from(first)] += 1;
    }
    assert!(refusals[..4].iter().all(|&times| times > 10), "{refusals:?}");
}

/// The batch call asserts by itself that no message is refused in it, and the
/// queue asserts the same of the single calls. Both do the same.
#[test]
fn networks_that_never_arose() {
    let mut random = Random::new(803);
    let mut refusals = [0; 15];
    for _ in 0..5000 {
        let mut network = any_network(&mut random);
        assert_eq!(network.refusal(), ACCEPTED);
        let sites = network.settings.sites;
        let mut log = vec![Message::default(); network.settings.messages_per_arrival()];
        for _ in 0..30 {
            let (site, item) = (random.below32(sites), random.below32(8));
            let value = random.between(1, 1023);
            let next = arrival(site, item, random.value_or_touch(value));
            let mut single = network.clone();
            let answer = network.run_batch(&[next], &mut log);
            refusals[usize::from(answer.refusal)] += 1;
            if answer.refusal != ACCEPTED {
                // An estimate or what a site forgot passed its limit in the call before, or a
                // site is full.
                assert!([SITE_FULL, INCONSISTENT].contains(&answer.refusal));
                assert_eq!(network, single);
                continue;
            }
            if network.refusal() == ACCEPTED {
                let sent = single.observe_and_deliver(next, &mut random, |_, _| {});
                assert_eq!(sent, log[..answer.written]);
                single.sites.messages = counted_up(single.sites.messages, &sent);
                assert_eq!(single, network);
            }
        }
    }
    for number in [ACCEPTED, SITE_FULL, INCONSISTENT] {
        assert!(refusals[usize::from(number)] > 100, "{refusals:?}");
    }
}

/// Plain numbers and back.
#[test]
fn records_as_plain_numbers() {
    let mut random = Random::new(804);
    for _ in 0..1000 {
        let numbers = [0; SITE_NUMBERS].map(|_| any(&mut random));
        assert_eq!(SiteRecord::from_numbers(numbers).to_numbers(), numbers);
        let numbers = [0; SITES_NUMBERS].map(|_| any(&mut random));
        assert_eq!(Sites::from_numbers(&numbers).to_numbers(), numbers);
        let record = CoordinatorRecord {
            total: any(&mut random),
            base: any(&mut random),
            threshold: any(&mut random),
            signals: any(&mut random),
            quantile: any(&mut random),
            phase: any_phase(&mut random),
        };
        assert_eq!(CoordinatorRecord::from_numbers(record.to_numbers()), Some(record));
    }
    assert_eq!(Phase::from_numbers([4, 0, 0, 0, 0]), None);
    assert_eq!(Phase::Collecting { site: 3 }.to_numbers(), [1, 3, 0, 0, 0]);
    assert_eq!(Sites::FRESH.records[31].to_numbers(), [0, 0, 1, 0, 0]);
    // All records, then one count for each site.
    let sites = Sites::from_numbers(&std::array::from_fn(|place| place as u64));
    assert_eq!(sites.records[31].to_numbers(), [155, 156, 157, 158, 159]);
    assert_eq!((sites.messages[0], sites.messages[31], SITES_NUMBERS), (160, 191, 192));
    assert_eq!(CoordinatorRecord::FRESH.to_numbers(), [0, 0, 1, 0, 0, 0, 0, 0, 0, 0]);
}
