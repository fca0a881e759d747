//! The calls, made from Rust as C makes them: what they refuse, and that no panic leaves them.

use crate::config::*;
use crate::info::muoswyld_group_version;
use crate::machine::muoswyld_records_add;
use crate::member::*;
use crate::service::*;
use crate::state::*;
use crate::status::{muoswyld_end, muoswyld_status, muoswyld_status_text};
use crate::types::*;
use std::cell::Cell;
use std::collections::BTreeSet;
use std::ffi::{c_char, CStr};
use std::ptr::{null, null_mut};

thread_local! {
    static PLANTED: Cell<bool> = const { Cell::new(false) };
}

/// Panics in each call of a thread that asked for it.
pub(crate) fn panic_if_planted() {
    if PLANTED.get() {
        panic!("planted");
    }
}

const NAME: &[u8] = b"0\0";

fn text_of(bytes: &'static [u8]) -> *const c_char {
    assert_eq!(bytes.last(), Some(&0));
    bytes.as_ptr().cast()
}

/// The settings of a group of one, which has no address yet.
fn config() -> *mut muoswyld_config {
    let mut made = null_mut();
    // SAFETY: two texts and room for a handle
    let status = unsafe { muoswyld_config_new(text_of(NAME), text_of(NAME), &mut made) };
    assert_eq!(status, muoswyld_status::Ok);
    made
}

fn read(text: *const c_char) -> String {
    // SAFETY: a text of the library, which ends with a zero
    unsafe { CStr::from_ptr(text) }
        .to_str()
        .expect("UTF-8")
        .into()
}

/// A group of one on this machine, with its settings.
fn alone(port: u32, resilience: u8) -> (*mut muoswyld_config, *mut muoswyld_group) {
    let made = config();
    let id = std::process::id();
    let address = format!(
        "127.{}.{}.3:{}\0",
        1 + id / 256 % 254,
        id % 256,
        21_000 + port
    );
    let mut group = null_mut();
    // SAFETY: a config's handle, texts and room
    unsafe {
        let status = muoswyld_config_address(made, 0, address.as_ptr().cast());
        assert_eq!(
            status,
            muoswyld_status::Ok,
            "{}",
            read(muoswyld_config_error(made))
        );
        assert_eq!(
            muoswyld_config_key(made, [7; 32].as_ptr(), 32),
            muoswyld_status::Ok
        );
        let status = muoswyld_config_resilience(made, resilience);
        assert_eq!(status, muoswyld_status::Ok);
        let status = muoswyld_group_create(made, &mut group);
        assert_eq!(
            status,
            muoswyld_status::Ok,
            "{}",
            read(muoswyld_config_error(made))
        );
    }
    (made, group)
}

/// Calls everything that answers a status with these handles, by its name.
fn statuses(
    config: *mut muoswyld_config,
    group: *mut muoswyld_group,
    ticket: *mut muoswyld_ticket,
) -> Vec<(&'static str, muoswyld_status)> {
    let name = muoswyld_name { place: 1, life: 1 };
    // SAFETY: each handle is null or open, and everything else is null
    unsafe {
        vec![
            (
                "muoswyld_config_new",
                muoswyld_config_new(null(), null(), null_mut()),
            ),
            (
                "muoswyld_config_resilience",
                muoswyld_config_resilience(config, 0),
            ),
            ("muoswyld_config_window", muoswyld_config_window(config, 9)),
            (
                "muoswyld_config_pb_up_to",
                muoswyld_config_pb_up_to(config, 9),
            ),
            (
                "muoswyld_config_address",
                muoswyld_config_address(config, 1, null()),
            ),
            ("muoswyld_config_bind", muoswyld_config_bind(config, null())),
            (
                "muoswyld_config_key",
                muoswyld_config_key(config, null(), 32),
            ),
            ("muoswyld_config_insecure", muoswyld_config_insecure(config)),
            ("muoswyld_config_least", muoswyld_config_least(config, 1)),
            (
                "muoswyld_config_most_waiting",
                muoswyld_config_most_waiting(config, 9),
            ),
            (
                "muoswyld_config_most_unreceived",
                muoswyld_config_most_unreceived(config, 9),
            ),
            (
                "muoswyld_config_datagram",
                muoswyld_config_datagram(config, 9),
            ),
            ("muoswyld_config_spin", muoswyld_config_spin(config, 9)),
            ("muoswyld_config_tick", muoswyld_config_tick(config, 9)),
            (
                "muoswyld_config_journal",
                muoswyld_config_journal(config, null()),
            ),
            (
                "muoswyld_config_start_within",
                muoswyld_config_start_within(config, 9),
            ),
            (
                "muoswyld_config_state",
                muoswyld_config_state(config, null()),
            ),
            (
                "muoswyld_config_voters",
                muoswyld_config_voters(config, null()),
            ),
            ("muoswyld_config_told", muoswyld_config_told(config)),
            ("muoswyld_config_echo", muoswyld_config_echo(config)),
            (
                "muoswyld_config_lease",
                muoswyld_config_lease(config, 1000, 100),
            ),
            (
                "muoswyld_config_command",
                muoswyld_config_command(config, null(), 9),
            ),
            (
                "muoswyld_config_succeed_at",
                muoswyld_config_succeed_at(config, 1, 9),
            ),
            (
                "muoswyld_config_next_life",
                muoswyld_config_next_life(config, 0),
            ),
            ("muoswyld_group_found", muoswyld_group_found(config)),
            (
                "muoswyld_group_start",
                muoswyld_group_start(config, null_mut()),
            ),
            ("muoswyld_key_random", muoswyld_key_random(null_mut(), 32)),
            (
                "muoswyld_group_create",
                muoswyld_group_create(config, null_mut()),
            ),
            (
                "muoswyld_group_join",
                muoswyld_group_join(config, null_mut()),
            ),
            (
                "muoswyld_group_send",
                muoswyld_group_send(group, null(), 1, 0, null_mut()),
            ),
            (
                "muoswyld_group_submit",
                muoswyld_group_submit(group, null(), 1, 0, null_mut()),
            ),
            (
                "muoswyld_ticket_wait",
                muoswyld_ticket_wait(ticket, 0, null_mut()),
            ),
            (
                "muoswyld_group_receive",
                muoswyld_group_receive(group, 0, null_mut()),
            ),
            (
                "muoswyld_group_reset",
                muoswyld_group_reset(group, 1, 0, null_mut()),
            ),
            (
                "muoswyld_group_succeed",
                muoswyld_group_succeed(group, null(), 0, null_mut()),
            ),
            (
                "muoswyld_group_stopped",
                muoswyld_group_stopped(group, name),
            ),
            ("muoswyld_group_leave", muoswyld_group_leave(group, 0)),
            (
                "muoswyld_group_info",
                muoswyld_group_info(group, null_mut()),
            ),
            ("muoswyld_group_stop", muoswyld_group_stop(group)),
            (
                "muoswyld_group_notice",
                muoswyld_group_notice(group, null_mut(), 9),
            ),
            (
                "muoswyld_records_add",
                muoswyld_records_add(null_mut(), null(), 1),
            ),
            (
                "muoswyld_service_new",
                muoswyld_service_new(group, null(), null_mut()),
            ),
            (
                "muoswyld_service_submit",
                muoswyld_service_submit(null_mut(), 0, null(), 1),
            ),
            (
                "muoswyld_service_barrier",
                muoswyld_service_barrier(null_mut(), 0),
            ),
            (
                "muoswyld_service_next",
                muoswyld_service_next(null_mut(), 0, null_mut()),
            ),
            (
                "muoswyld_service_status",
                muoswyld_service_status(null(), null_mut()),
            ),
        ]
    }
}

/// The calls that answer something else than a status.
const OTHERS: [&str; 13] = [
    "muoswyld_group_version",
    "muoswyld_service_free",
    "muoswyld_service_end_text",
    "muoswyld_answer_clear",
    "muoswyld_config_free",
    "muoswyld_config_error",
    "muoswyld_group_free",
    "muoswyld_ticket_free",
    "muoswyld_delivery_clear",
    "muoswyld_group_descriptor",
    "muoswyld_group_ended",
    "muoswyld_group_end_text",
    "muoswyld_status_text",
];

#[test]
fn all_calls_are_tried_here() {
    let sources = [
        include_str!("config.rs"),
        include_str!("info.rs"),
        include_str!("machine.rs"),
        include_str!("member.rs"),
        include_str!("service.rs"),
        include_str!("state.rs"),
        include_str!("status.rs"),
        include_str!("types.rs"),
    ];
    let exported: BTreeSet<&str> = sources
        .iter()
        .flat_map(|source| source.split("extern \"C\" fn ").skip(1))
        .filter_map(|rest| rest.split('(').next())
        .collect();
    let tried = statuses(null_mut(), null_mut(), null_mut()).into_iter();
    let tried: BTreeSet<&str> = tried.map(|(name, _)| name).chain(OTHERS).collect();
    assert_eq!(exported, tried);
}

#[test]
fn the_version_says_whether_the_node_is_proved() {
    let said = read(muoswyld_group_version());
    let words: Vec<&str> = said.split(' ').collect();
    let is_unproved = std::env::var_os("MUOSWYLD_UNPROVED").is_some_and(|wish| wish == "1");
    assert_eq!(words[0], if is_unproved { "unproved" } else { "proved" });
    assert!(words.len() >= 3, "{said}");
}

#[test]
fn null_pointers_are_refused() {
    for (name, status) in statuses(null_mut(), null_mut(), null_mut()) {
        assert_eq!(status, muoswyld_status::NullPointer, "{name}");
    }
    // SAFETY: null may be given to each of these
    unsafe {
        muoswyld_config_free(null_mut());
        muoswyld_group_free(null_mut());
        muoswyld_ticket_free(null_mut());
        muoswyld_delivery_clear(null_mut());
        muoswyld_service_free(null_mut());
        muoswyld_answer_clear(null_mut());
        assert!(muoswyld_service_end_text(null()).is_null());
        assert_eq!(read(muoswyld_config_error(null())), "");
        assert_eq!(muoswyld_group_descriptor(null()), -1);
        assert_eq!(muoswyld_group_ended(null(), 0), muoswyld_end::Running);
        assert!(muoswyld_group_end_text(null()).is_null());
    }
}

#[test]
fn a_panic_is_answered() {
    let (config, group) = alone(0, 0);
    let mut ticket = null_mut();
    let mut delivery = muoswyld_delivery::nothing();
    // SAFETY: open handles, a message and room
    unsafe {
        let status = muoswyld_group_submit(group, b"hello".as_ptr(), 5, -1, &mut ticket);
        assert_eq!(status, muoswyld_status::Ok);
        PLANTED.set(true);
        for (name, status) in statuses(config, group, ticket) {
            assert_eq!(status, muoswyld_status::Panicked, "{name}");
        }
        assert_eq!(read(muoswyld_config_error(config)), "");
        assert_eq!(read(muoswyld_status_text(0)), "");
        assert_eq!(read(muoswyld_group_version()), "");
        assert_eq!(muoswyld_group_descriptor(group), -1);
        assert_eq!(muoswyld_group_ended(group, 0), muoswyld_end::Running);
        assert!(muoswyld_group_end_text(group).is_null());
        muoswyld_delivery_clear(&mut delivery);
        muoswyld_answer_clear(null_mut());
        muoswyld_service_free(null_mut());
        assert!(muoswyld_service_end_text(null()).is_null());
        muoswyld_ticket_free(ticket);
        muoswyld_group_free(group);
        muoswyld_config_free(config);
        // nothing of that was done: all of it is still there
        PLANTED.set(false);
        assert_eq!(
            muoswyld_ticket_wait(ticket, -1, null_mut()),
            muoswyld_status::Ok
        );
        muoswyld_ticket_free(ticket);
        muoswyld_group_free(group);
        muoswyld_config_free(config);
    }
}

#[test]
fn settings_are_refused_in_words() {
    let made = config();
    let mut group = null_mut();
    let mut none = null_mut();
    // SAFETY: an open handle, texts that end with a zero, and room
    unsafe {
        for bad in [b"16\0".as_slice(), b"\0", b"0/1\0", b"\xff\0"] {
            let status = muoswyld_config_new(text_of(bad), text_of(NAME), &mut none);
            assert_eq!((status, none), (muoswyld_status::BadName, null_mut()));
        }
        let refused = |status: muoswyld_status, wanted: muoswyld_status, text: &str| {
            assert_eq!(status, wanted);
            assert_eq!(read(muoswyld_config_error(made)), text);
        };
        let create = |group: &mut *mut muoswyld_group| muoswyld_group_create(made, group);
        refused(
            create(&mut group),
            muoswyld_status::NoAddress,
            "place 0 has no address",
        );
        let bad = muoswyld_config_address(made, 0, text_of(b"somewhere\0"));
        let said = "somewhere is no address: one is as 127.0.0.1:7000, or as [::1]:7000";
        refused(bad, muoswyld_status::BadAddress, said);
        let bad = muoswyld_config_address(made, 16, text_of(b"127.0.0.1:7000\0"));
        let said = "there is no place 16: places are 0 to 15";
        refused(bad, muoswyld_status::BadAddress, said);
        let good = muoswyld_config_address(made, 0, text_of(b"127.0.0.1:1\0"));
        assert_eq!(good, muoswyld_status::Ok);
        assert_eq!(create(&mut group), muoswyld_status::NoKey);
        let bad = muoswyld_config_key(made, [1; 31].as_ptr(), 31);
        refused(
            bad,
            muoswyld_status::BadValue,
            "a key has 32 bytes, and this has 31",
        );
        assert_eq!(muoswyld_config_insecure(made), muoswyld_status::Ok);
        assert_eq!(muoswyld_config_window(made, 0), muoswyld_status::Ok);
        refused(
            create(&mut group),
            muoswyld_status::BadValue,
            "a window is 1 to 1,008",
        );
        assert_eq!(
            muoswyld_group_join(made, &mut group),
            muoswyld_status::Founder
        );
        assert!(group.is_null());
        muoswyld_config_free(made);
    }
}

#[test]
fn a_notice_needs_its_room() {
    let (made, group) = alone(1, 1);
    let said = "the group has fewer founders than twice its resilience and one more: a join while a member stops can stand still";
    let mut text: [c_char; 512] = [0; 512];
    // SAFETY: open handles and room
    unsafe {
        let next =
            |text: &mut [c_char], room| muoswyld_group_notice(group, text.as_mut_ptr(), room);
        assert_eq!(next(&mut text, said.len()), muoswyld_status::NoRoom);
        assert_eq!(text, [0; 512]);
        assert_eq!(next(&mut text, said.len() + 1), muoswyld_status::Ok);
        assert_eq!(read(text.as_ptr()), said);
        assert_eq!(next(&mut text, 512), muoswyld_status::Empty);
        muoswyld_group_free(group);
        muoswyld_config_free(made);
    }
}
