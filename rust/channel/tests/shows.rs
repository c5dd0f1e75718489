//! What the paper says of a whole show is so of the model: it hands out exactly the groups all of whose packets it accepted, in
//! order, and its missed total is the number of packets that it never accepted. Behind a relay a unit's top bit is set exactly where a
//! fragment's is.

use std::collections::BTreeSet;

use channel::joiner::{Joined, Joiner};
use channel::random::Random;
use channel::runs::{foreign, mixed, order, two_encoders};
use channel::sender::{Group, Show, Stamp};

/// The indices that are above every index that arrived before them.
fn accepted(order: &[usize]) -> Vec<usize> {
    let mut accepted: Vec<usize> = vec![];
    for i in order {
        if accepted.iter().all(|before| before < i) {
            accepted.push(*i);
        }
    }
    accepted
}

/// The groups all of whose packets are among these.
fn whole<'a>(show: &'a Show, accepted: &[usize]) -> Vec<&'a Group> {
    let (mut whole, mut first) = (vec![], 0);
    for group in &show.groups {
        let behind = first + group.payloads.len();
        if (first..behind).all(|i| accepted.contains(&i)) {
            whole.push(group);
        }
        first = behind;
    }
    whole
}

/// Which fragments of a unit of three are marked, if it is one.
fn marks(group: &Group) -> Option<[bool; 3]> {
    let marks: Vec<bool> = group.payloads.iter().map(|payload| payload[0] & 0x80 != 0).collect();
    marks.try_into().ok()
}

#[test]
fn exactly_the_whole_groups_in_order() {
    let mut random = Random::new(7);
    let mut seen = BTreeSet::new();
    for _ in 0..3_000 {
        let groups = random.within(1..=8);
        let show = Show::new(&mut random, groups);
        let order = order(&mut random, show.packets.len());
        let (mut gather, room) = (vec![0; show.longest()], show.largest());
        let mut joiner = Joiner::open(show.first.source, show.first.number);
        let (mut taken, mut handed) = (vec![], vec![]);
        for i in &order {
            if random.one_in(8) {
                let refused = joiner.join(&foreign(&mut random, &show), &mut gather, room);
                assert_eq!(refused.unwrap_err().number, 20);
            }
            match joiner.join(&show.packets[*i], &mut gather, room).unwrap() {
                Joined::Accepted { out, .. } => {
                    taken.push(*i);
                    handed.extend((!out.is_empty()).then_some(out));
                }
                Joined::Late => {}
            }
        }
        joiner.close(show.end()).unwrap();
        assert_eq!(taken, accepted(&order));
        let whole = whole(&show, &taken);
        let sent: Vec<Vec<u8>> = whole.iter().map(|group| group.handed.clone()).collect();
        assert_eq!(handed, sent);
        assert_eq!(joiner.missed as usize, show.packets.len() - taken.len());
        seen.extend(whole.iter().filter_map(|group| marks(group)));
    }
    assert_eq!(seen.len(), 8, "units of three fragments, each marked or not");
}

#[test]
fn a_group_is_marked_where_a_fragment_is() {
    let mut random = Random::new(7);
    for _ in 0..1_000 {
        for group in Show::new(&mut random, 8).groups {
            let marked = |byte: u8| byte & 0x80 != 0;
            let any = group.payloads.iter().any(|payload| marked(payload[0]));
            match group.payloads[0][0] & 0x1F {
                // the first unit's own first byte
                24 => assert_eq!(group.handed[4], group.payloads[0][3]),
                28 => assert_eq!(marked(group.handed[4]), any),
                _ => assert_eq!(group.handed[4..], group.payloads[0]),
            }
        }
    }
}

/// The timestamps of these packets.
fn times(packets: &[Vec<u8>]) -> BTreeSet<[u8; 4]> {
    packets.iter().map(|packet| packet[4..8].try_into().unwrap()).collect()
}

// E4: "all packets of one unit carry one timestamp."
#[test]
fn a_group_has_one_time() {
    let mut random = Random::new(7);
    let (mut shared, mut wrapped) = (0, 0);
    for _ in 0..1_000 {
        let show = Show::new(&mut random, 8);
        let (mut rest, mut before) = (&show.packets[..], None);
        for group in &show.groups {
            let (packets, behind) = rest.split_at(group.payloads.len());
            let time = times(packets).pop_first();
            assert_eq!(times(packets).len(), 1);
            shared += usize::from(time == before);
            wrapped += usize::from(time < before);
            (rest, before) = (behind, time);
        }
        assert!(rest.is_empty());
    }
    assert!(shared > 1_000 && wrapped > 100, "{shared} {wrapped}");
}

// E4: "Two encoders sharing a failover SSRC once continued each other's unit." Of two that have no time in common each unit handed out
// is one of them's, though a fragment of the other often would go on with it.
#[test]
fn no_unit_is_of_two_encoders() {
    let mut random = Random::new(7);
    let (mut handed, mut refused) = (0, 0);
    for _ in 0..3_000 {
        let first = Stamp::first(&mut random, 3);
        let [one, other] = two_encoders(&mut random, first);
        if !times(&one.packets).is_disjoint(&times(&other.packets)) {
            continue;
        }
        let (mut joiner, mut gather) = (Joiner::open(3, first.number), [0; 64]);
        for packet in mixed(&mut random, &one, &other) {
            match joiner.join(&packet, &mut gather, 64) {
                Ok(Joined::Accepted { out, .. }) if !out.is_empty() => {
                    let mut groups = one.groups.iter().chain(&other.groups);
                    assert!(groups.any(|group| group.handed == out));
                    handed += 1;
                }
                Ok(_) => {}
                Err(refusal) => {
                    assert_eq!(refusal.number, 25);
                    refused += 1;
                }
            }
        }
    }
    assert!(handed > 1_000 && refused > 1_000, "{handed} {refused}");
}
