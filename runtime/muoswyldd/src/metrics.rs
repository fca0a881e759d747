//! Metrics for Prometheus, over HTTP.

use crate::exit::{Fault, SYSTEM};
use muoswyld_group::{End, FailuresInfo, Group, Info};
use prometheus::{Encoder, IntGauge, Registry, TextEncoder};
use std::net::SocketAddr;
use std::sync::Arc;
use std::time::Duration;
use tiny_http::{Header, Response, Server};

/// A metric: its name, what it is, and its value.
pub type Value = (&'static str, &'static str, u64);

/// Serves metrics at an address: those of the member, and more.
pub fn serve(
    address: SocketAddr,
    group: &Arc<Group>,
    more: impl Fn() -> Vec<Value> + Send + 'static,
) -> Result<(), Fault> {
    let cannot =
        |error: &dyn std::fmt::Display| Fault::of(SYSTEM, format_args!("{address}: {error}"));
    let server = Server::http(address).map_err(|error| cannot(&error))?;
    let group = group.clone();
    std::thread::Builder::new()
        .name("metrics".into())
        .spawn(move || {
            for request in server.incoming_requests() {
                let is_known = matches!(request.url(), "/metrics" | "/");
                let (status, text) = match (is_known, all_of(&group)) {
                    (false, _) => (404, "metrics are at /metrics\n".into()),
                    (true, Ok(values)) => (200, text_of(values, more()).unwrap_or_default()),
                    (true, Err(end)) => (503, format!("{end}\n")),
                };
                let mut response = Response::from_string(text).with_status_code(status);
                if let Ok(header) = Header::from_bytes("Content-Type", "text/plain; version=0.0.4")
                {
                    response.add_header(header);
                }
                // who asked may be gone
                let _sent = request.respond(response);
            }
        })
        .map_err(|error| cannot(&error))?;
    Ok(())
}

/// What is told of a member: the metric, what it is, and its value.
fn values(info: &Info) -> Vec<Value> {
    let (standing, counts) = (&info.standing, &info.counts);
    let is_in = standing.members.has(info.name);
    vec![
        (
            "muoswyld_in_group",
            "1 if the member is in its view, else 0",
            u64::from(is_in),
        ),
        (
            "muoswyld_generation",
            "how many lists of the group came before the latest one",
            u64::from(info.generation),
        ),
        (
            "muoswyld_members",
            "members of the view",
            standing.members.len() as u64,
        ),
        (
            "muoswyld_view_number",
            "number of the view's entry",
            u64::from(standing.view_number),
        ),
        (
            "muoswyld_top",
            "number of the last entry",
            u64::from(standing.top),
        ),
        (
            "muoswyld_accepted",
            "number up to which entries are accepted",
            u64::from(standing.accepted),
        ),
        (
            "muoswyld_taken",
            "number up to which entries are delivered",
            u64::from(standing.taken),
        ),
        (
            "muoswyld_base",
            "number up to which entries are trimmed",
            u64::from(standing.base),
        ),
        (
            "muoswyld_unsettled_messages",
            "messages that wait or are under way",
            info.unsettled as u64,
        ),
        (
            "muoswyld_waiting_bytes",
            "bytes of messages that wait",
            info.waiting as u64,
        ),
        (
            "muoswyld_silent_members",
            "members that nothing was heard of for a while",
            info.silent.len() as u64,
        ),
        (
            "muoswyld_slow_members",
            "members that hold the window, as far as this one knows",
            info.slow.len() as u64,
        ),
        (
            "muoswyld_round_trip_microseconds",
            "measured round trip",
            info.round_trip.unwrap_or(0),
        ),
        (
            "muoswyld_datagrams_heard_total",
            "datagrams that came",
            counts.datagrams_heard,
        ),
        (
            "muoswyld_datagrams_sent_total",
            "datagrams that went out",
            counts.datagrams_sent,
        ),
        (
            "muoswyld_datagrams_malformed_total",
            "datagrams that are none by their form",
            counts.malformed,
        ),
        (
            "muoswyld_datagrams_dropped_total",
            "datagrams that aren't sealed by the key, come of no member's address, or are too long",
            counts.dropped,
        ),
        (
            "muoswyld_datagrams_other_group_total",
            "datagrams of another group",
            counts.other_group,
        ),
        (
            "muoswyld_letters_heard_total",
            "letters that the node heard",
            counts.letters_heard,
        ),
        (
            "muoswyld_letters_sent_total",
            "letters that the node sent",
            counts.letters_sent,
        ),
        (
            "muoswyld_messages_sent_total",
            "messages that were given to be sent",
            counts.messages_sent,
        ),
        (
            "muoswyld_deliveries_total",
            "deliveries to the application",
            counts.deliveries,
        ),
        (
            "muoswyld_resets_total",
            "resets that the member began by itself",
            counts.resets,
        ),
        (
            "muoswyld_streamed_bytes_total",
            "bytes of contents that went out beside the list",
            counts.bytes_streamed,
        ),
        (
            "muoswyld_asked_bytes_total",
            "bytes of contents that hadn't come, and were asked for",
            counts.bytes_asked,
        ),
        (
            "muoswyld_answered_bytes_total",
            "bytes of contents that others asked for, and that were sent",
            counts.bytes_answered,
        ),
        (
            "muoswyld_held_letters",
            "letters that wait for contents",
            info.held as u64,
        ),
    ]
}

/// What is told of who has stopped.
fn failure_values(info: &FailuresInfo) -> Vec<Value> {
    let milliseconds = |time: Option<Duration>| time.map_or(0, |time| time.as_millis() as u64);
    vec![
        (
            "muoswyld_suspected_members",
            "members that weren't heard for too long",
            info.suspects.len() as u64,
        ),
        (
            "muoswyld_refused_names",
            "names that this place has refused",
            info.refused.len() as u64,
        ),
        (
            "muoswyld_refused_members",
            "members that any voter has refused, which hold off the end of the list",
            info.refused_members.len() as u64,
        ),
        (
            "muoswyld_stopped_names",
            "names that have stopped for certain",
            info.stopped.len() as u64,
        ),
        (
            "muoswyld_blocked_names",
            "frozen names that too few voters have refused to give them up",
            info.blocked.len() as u64,
        ),
        (
            "muoswyld_ended_lists",
            "lists that have ended, and that this member serves still",
            info.ended_lists.len() as u64,
        ),
        (
            "muoswyld_awaited_members",
            "founders that haven't come from an ended list to the next one",
            info.ended_lists
                .iter()
                .map(|list| list.awaited.len() as u64)
                .sum(),
        ),
        (
            "muoswyld_votes",
            "1 if this place votes who has stopped, else 0",
            u64::from(info.votes),
        ),
        (
            "muoswyld_frozen",
            "1 if the member may not act until a majority of the voters echoes, else 0",
            u64::from(info.frozen_for.is_some()),
        ),
        (
            "muoswyld_frozen_milliseconds",
            "for how long it has been frozen",
            milliseconds(info.frozen_for),
        ),
        (
            "muoswyld_may_act_milliseconds",
            "for how long it may still act by what was echoed",
            milliseconds(info.may_act_for),
        ),
    ]
}

/// All that is told of a member that runs.
fn all_of(group: &Group) -> Result<Vec<Value>, End> {
    let mut all = values(&group.info()?);
    all.extend(failure_values(&group.failures()?));
    Ok(all)
}

/// The metrics as text.
fn text_of(values: Vec<Value>, more: Vec<Value>) -> prometheus::Result<String> {
    let registry = Registry::new();
    for (name, help, value) in values.into_iter().chain(more) {
        let gauge = IntGauge::new(name, help)?;
        gauge.set(i64::try_from(value).unwrap_or(i64::MAX));
        registry.register(Box::new(gauge))?;
    }
    let mut text = Vec::new();
    TextEncoder::new().encode(&registry.gather(), &mut text)?;
    Ok(String::from_utf8_lossy(&text).into_owned())
}
