//! Tests of sessions with more than eight servers, and with as many as there can be.

use super::exporter::{Exporter, ServerState, Settings, MAX_SERVERS};
use super::tests_support::{blob, settings, Bench};

/// The number of the last server that a session can have.
const LAST: u8 = MAX_SERVERS as u8 - 1;

/// The states of the servers from one to another, both included, are all the given one.
fn are_all(exporter: &Exporter, servers: std::ops::RangeInclusive<u8>, state: ServerState) -> bool {
    servers.into_iter().all(|server| exporter.state(server) == state)
}

#[test]
fn sixteen_servers_and_no_more() {
    assert_eq!(MAX_SERVERS, 16);
    let mut bench = Bench::new(settings(&[0; MAX_SERVERS]), 1_024);
    for server in 0..=LAST {
        assert_eq!((bench.start(server).answer, bench.offer(server).answer), (0, 0));
    }
    for server in [16, 17, 31, 32, 255] {
        assert_eq!((bench.start(server).answer, bench.offer(server).answer, bench.down(server).answer), (2, 2, 2));
    }
    let mut bench = Bench::new(settings(&[0; 9]), 1_024);
    assert_eq!((bench.start(8).answer, bench.start(9).answer, bench.down(LAST).answer), (0, 2, 2));
}

#[test]
fn one_record_goes_to_all_sixteen() {
    let priorities: Vec<u8> = (0..=LAST).collect();
    let mut bench = Bench::new(settings(&priorities), 1_024);
    bench.put(&blob(5, 1));
    for server in 0..=LAST {
        bench.agree(server);
        assert_eq!(bench.exporter.active, Some(server));
        let d = if server == 0 { 0 } else { 2 };
        assert_eq!(bench.next_flags(), (1 + d, 0), "{server}");
        assert_eq!(bench.exporter.queue[0].sent_to, (0..=server).collect());
    }
    for server in (1..=LAST).rev() {
        assert_eq!(bench.down(server).answer, 0);
        assert_eq!((bench.exporter.active, bench.next_flags()), (Some(server - 1), (3, 0)));
    }
    assert_eq!((bench.ack(LAST, 0), bench.ack(0, 0), bench.exporter.queue.len()), (9, 0, 0));
}

#[test]
fn each_of_sixteen_is_active_in_turn_by_priority() {
    let priorities = [7, 3, 255, 0, 12, 9, 1, 200, 8, 14, 2, 100, 6, 13, 5, 128];
    let mut bench = Bench::new(settings(&priorities), 1_024);
    (0..=LAST).for_each(|server| bench.agree(server));
    for server in [2, 7, 15, 11, 9, 13, 4, 5, 8, 0, 12, 14, 1, 10, 6, 3] {
        assert_eq!(bench.exporter.active, Some(server));
        bench.stop(server);
    }
    assert_eq!(bench.exporter.active, None);
}

#[test]
fn d_on_a_resend_to_the_last_server() {
    let mut bench = Bench::new(settings(&[0; MAX_SERVERS]), 1_024);
    bench.put(&blob(5, 1));
    bench.put(&blob(5, 2));
    bench.agree(LAST);
    assert_eq!(bench.next_flags(), (1, 0));
    assert_eq!(bench.ack(LAST, u32::MAX), 0);
    assert_eq!((bench.next_flags(), bench.next_flags()), ((1, 0), (0, 1)));
    bench.down(LAST);
    bench.agree(7);
    assert_eq!((bench.next_flags(), bench.next_flags()), ((3, 0), (2, 1)));
}

#[test]
fn ties_go_to_the_lowest_number() {
    let mut priorities = [1; MAX_SERVERS];
    [9, 12].into_iter().for_each(|server| priorities[server] = 5);
    let mut bench = Bench::new(settings(&priorities), 1_024);
    for (server, active) in [(15, 15), (12, 12), (9, 9), (3, 9)] {
        bench.agree(server);
        assert_eq!(bench.exporter.active, Some(active));
    }
    for (server, active) in [(9, Some(12)), (12, Some(3)), (3, Some(15)), (15, None)] {
        bench.down(server);
        assert_eq!(bench.exporter.active, active);
    }
}

#[test]
fn the_last_server_turns_late_while_another_is_agreed() {
    let mut priorities = [0; MAX_SERVERS];
    priorities[usize::from(LAST)] = 1;
    let mut bench = Bench::new(settings(&priorities), 1_024);
    bench.agree(3);
    bench.agree(LAST);
    bench.put(&blob(5, 1));
    assert_eq!(bench.next_flags(), (1, 0));
    assert_eq!((bench.exporter.tick(), bench.exporter.tick()), (0, 0));
    assert_eq!((bench.exporter.state(LAST), bench.exporter.active), (ServerState::Late, Some(3)));
    assert_eq!(bench.next_flags(), (3, 0));
    assert_eq!((bench.exporter.tick(), bench.exporter.tick()), (0, 0));
    assert_eq!((bench.exporter.active, bench.exporter.sent, bench.exporter.reached), (Some(3), 0, 1));
}

#[test]
fn a_server_turns_late_while_only_the_last_is_agreed() {
    let mut bench = Bench::new(settings(&[0; MAX_SERVERS]), 1_024);
    bench.agree(0);
    bench.agree(LAST);
    bench.put(&blob(5, 1));
    bench.next();
    assert_eq!((bench.exporter.tick(), bench.exporter.tick()), (0, 0));
    assert_eq!((bench.exporter.state(0), bench.exporter.active), (ServerState::Late, Some(LAST)));
}

#[test]
fn negotiation_with_all_sixteen_up() {
    for sender in 0..=LAST {
        let mut bench = Bench::new(Settings { threshold: 2, ..settings(&[0; MAX_SERVERS]) }, 1_024);
        (0..=LAST).for_each(|server| bench.agree(server));
        assert!(are_all(&bench.exporter, 0..=LAST, ServerState::Agreed));
        assert_eq!(bench.negotiate(sender).answer, 0);
        assert!(are_all(&bench.exporter, 0..=LAST, ServerState::Started));
        assert_eq!(bench.exporter.active, None);
    }
    let mut bench = Bench::new(settings(&[0; MAX_SERVERS]), 1_024);
    (9..=LAST).for_each(|server| bench.agree(server));
    assert_eq!((bench.negotiate(8).answer, bench.negotiate(12).answer), (9, 0));
    assert!(are_all(&bench.exporter, 0..=8, ServerState::Closed));
    assert!(are_all(&bench.exporter, 9..=LAST, ServerState::Started));
}
