//! One call of the client with document 01's numbers. The source's method runs on a clone, without
//! limits; the number comes from what that run used, and only a call that answers 0 keeps the clone.
use crate::lent;
use crate::native::stun::{Message, TransId, ATTR_DATA};
use crate::native::turn::{TurnClient, TurnEvent};
use crate::time::Instant;
use std::net::SocketAddr;

const LAST_TIME: u64 = 9_007_199_254_740_991;
const MOST_DATA: usize = 2_048;
const MOST_TEXT: usize = 763;
const MOST_BODY: usize = 65_535;
const OUTPUT_ROOM: usize = 65_536;

pub enum Call<'a> {
    Start(Instant),
    Data(Instant, &'a [u8]),
    Send(Instant, SocketAddr, &'a [u8]),
    Poll(Instant),
    Lost,
    Close,
}

pub struct Answer {
    pub number: u8,
    pub events: Vec<TurnEvent>,
    pub packets: Vec<Vec<u8>>,
}

/// The source wants a server's address; it shows in the text of its failures only.
pub fn nowhere() -> SocketAddr {
    SocketAddr::from(([0, 0, 0, 0], 0))
}

/// A client, or the number of a refused opening and the client that is handed back then.
pub fn open(username: &[u8], password: &[u8], reliable: bool) -> (u8, TurnClient) {
    let new = |u: &str, p: &str, r| TurnClient::new(nowhere(), 0, u.into(), p.into(), r);
    if username.len() > 508 || password.len() > 256 {
        return (2, new("", "", false));
    }
    match (std::str::from_utf8(username), std::str::from_utf8(password)) {
        (Ok(u), Ok(p)) => (0, new(u, p, reliable)),
        _ => (3, new("", "", false)),
    }
}

impl Call<'_> {
    pub fn name(&self) -> &'static str {
        match self {
            Call::Start(_) => "start",
            Call::Data(..) => "data",
            Call::Send(..) => "send",
            Call::Poll(_) => "poll",
            Call::Lost => "lost",
            Call::Close => "close",
        }
    }

    fn now(&self) -> Option<Instant> {
        match *self {
            Call::Start(now) | Call::Data(now, _) | Call::Send(now, ..) | Call::Poll(now) => Some(now),
            Call::Lost | Call::Close => None,
        }
    }

    pub fn run(&self, client: &mut TurnClient, ids: &[TransId]) -> Answer {
        let refused = |number| Answer { number, events: Vec::new(), packets: Vec::new() };
        if self.now().is_some_and(|now| now.0 > LAST_TIME) {
            return refused(1);
        }
        if matches!(self, Call::Send(_, _, data) if data.len() > MOST_DATA) {
            return refused(4);
        }
        let pending = client.pending();
        lent::lend(ids, &pending);
        let mut after = client.clone();
        after.begin();
        let (events, packets) = self.method(&mut after);
        match number(&after, &packets, ids, &pending) {
            0 => {
                *client = after;
                Answer { number: 0, events, packets }
            }
            number => refused(number),
        }
    }

    fn method(&self, client: &mut TurnClient) -> (Vec<TurnEvent>, Vec<Vec<u8>>) {
        match *self {
            Call::Start(now) => (Vec::new(), client.start(now)),
            Call::Data(now, datagram) => client.handle(now, datagram),
            Call::Send(now, peer, data) => (Vec::new(), client.send(now, peer, data)),
            Call::Poll(now) => client.poll(now),
            Call::Lost => (client.transport_failed("lost"), Vec::new()),
            Call::Close => (Vec::new(), client.close()),
        }
    }

    /// Where the data of a Data event starts in the datagram: behind the head of ChannelData, or
    /// at the value of the first DATA attribute.
    pub fn data_start(&self, data: &[u8]) -> usize {
        let Call::Data(_, datagram) = *self else { unreachable!("data comes by datagrams") };
        let mut p = 4;
        if let Some(msg) = Message::decode(datagram) {
            p = 24;
            for (_, v) in msg.attrs.iter().take_while(|(t, _)| *t != ATTR_DATA) {
                p += 4 + v.len().div_ceil(4) * 4;
            }
        }
        assert_eq!(&datagram[p..p + data.len()], data);
        p
    }
}

/// The lowest number whose condition holds for what a run used, or 0. A client never holds a text
/// over the limit, so one that is too long after the run was taken over by it.
fn number(after: &TurnClient, packets: &[Vec<u8>], ids: &[TransId], pending: &[TransId]) -> u8 {
    let used = lent::used();
    let clash = |i: usize| pending.contains(&used[i]) || used[..i].contains(&used[i]);
    let size: usize = packets.iter().map(|p| 3 + p.len()).sum();
    let conditions = [
        (2, after.longest_text() > MOST_TEXT),
        (4, packets.iter().any(|p| p.len() > 20 + MOST_BODY)),
        (5, after.met_full_table()),
        (6, used.len() > ids.len()),
        (7, (0..used.len()).any(clash)),
        (8, size > OUTPUT_ROOM),
    ];
    conditions.iter().find(|c| c.1).map_or(0, |c| c.0)
}
