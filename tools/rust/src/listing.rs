//! Both listings of a tape: `replay` as document 01 has it, and `trace`, which adds the packets,
//! the events and the whole client after each call's line.
use crate::calls::{nowhere, open, Answer, Call};
use crate::native::turn::{TurnClient, TurnEvent};
use crate::tape::{Field, Next, Reader};
use crate::time::Instant;
use std::fmt::Write;
use std::net::{IpAddr, SocketAddr};

pub const FIRST_LINE: &str = "turn-replay 1\n";

/// The listing of a whole tape but for its first line.
pub fn listing(tape: &[u8], whole: bool) -> String {
    let mut out = String::new();
    let mut reader = Reader::new(tape);
    let (mut username, mut password): (&[u8], &[u8]) = (&[], &[]);
    let mut client = None;
    let mut ids = Vec::new();
    let mut count = 0;
    loop {
        match reader.next() {
            Next::End => break,
            Next::Bad(place) => {
                writeln!(out, "bad {place}").unwrap();
                break;
            }
            Next::Field(Field::Username(text)) => username = text,
            Next::Field(Field::Password(text)) => password = text,
            Next::Field(Field::Reliable(reliable)) => {
                let (number, opened) = open(username, password, reliable);
                if number != 0 {
                    writeln!(out, "0 open {number} 0 0 0 -").unwrap();
                    if whole {
                        out += &opened.lines();
                    }
                    break;
                }
                client = Some(opened);
            }
            Next::Field(Field::Ids(lent)) => ids = lent,
            Next::Field(Field::Call(call)) => {
                let client = client.as_mut().expect("the reader opens first");
                count += 1;
                let answer = call.run(client, &std::mem::take(&mut ids));
                out += &line(count, &call, &answer, client);
                if whole {
                    out += &details(&call, &answer);
                    out += &client.lines();
                }
            }
        }
    }
    out
}

fn line(count: usize, call: &Call, answer: &Answer, client: &TurnClient) -> String {
    let bytes: usize = answer.packets.iter().map(|p| p.len()).sum();
    let (name, number) = (call.name(), answer.number);
    let (events, packets) = (answer.events.len(), answer.packets.len());
    let deadline = time_or_dash(client.next_deadline());
    format!("{count} {name} {number} {events} {packets} {bytes} {deadline}\n")
}

fn details(call: &Call, answer: &Answer) -> String {
    let mut s = String::new();
    for p in &answer.packets {
        writeln!(s, "  packet {}", hex(p)).unwrap();
    }
    for e in &answer.events {
        let text = match e {
            TurnEvent::Allocated { relay, mapped } => {
                let mapped = mapped.map_or("-".into(), address);
                format!("allocated {} mapped {mapped}", address(*relay))
            }
            TurnEvent::Failed(why) => format!("failed {}", reason(why)),
            TurnEvent::Data { peer, data } => {
                format!("data {} {} {}", address(*peer), call.data_start(data), data.len())
            }
        };
        writeln!(s, "  event {text}").unwrap();
    }
    s
}

/// The reason behind the source's wording of a failure.
fn reason(why: &str) -> String {
    let head = format!("TURN {}", nowhere());
    match why.strip_prefix(&head) {
        Some(": lost") => "lost".into(),
        Some(" allocate: timeout") => "timeout".into(),
        Some(" allocate: no relayed address") => "no-relayed-address".into(),
        Some(rest) if rest.starts_with(" allocate: error ") => format!("code {}", &rest[17..]),
        _ => panic!("another wording: {why}"),
    }
}

pub fn hex(bytes: &[u8]) -> String {
    bytes.iter().map(|b| format!("{b:02x}")).collect()
}

/// Family and IP.
pub fn host(ip: IpAddr) -> String {
    match ip {
        IpAddr::V4(ip) => format!("1 {}", hex(&ip.octets())),
        IpAddr::V6(ip) => format!("2 {}", hex(&ip.octets())),
    }
}

/// Family, IP and port.
pub fn address(a: SocketAddr) -> String {
    format!("{} {}", host(a.ip()), a.port())
}

pub fn time_or_dash(t: Option<Instant>) -> String {
    t.map_or("-".into(), |t| t.0.to_string())
}
