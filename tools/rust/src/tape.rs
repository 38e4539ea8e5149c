//! The tape: fields of a one-byte tag, a two-byte big-endian length and a body of at most 4,096
//! bytes. A `Reader` hands out one field at a time, checked for its shape.
use crate::calls::Call;
use crate::native::stun::TransId;
use crate::time::Instant;
use std::net::{IpAddr, SocketAddr};

pub enum Field<'a> {
    Username(&'a [u8]),
    Password(&'a [u8]),
    Reliable(bool),
    Ids(Vec<TransId>),
    Call(Call<'a>),
}

pub enum Next<'a> {
    End,
    /// The place of the field's tag.
    Bad(usize),
    Field(Field<'a>),
}

pub struct Reader<'a> {
    tape: &'a [u8],
    at: usize,
    /// How many of username, password and transport were read.
    opened: u8,
}

impl<'a> Reader<'a> {
    pub fn new(tape: &'a [u8]) -> Self {
        Self { tape, at: 0, opened: 0 }
    }

    pub fn next(&mut self) -> Next<'a> {
        let rest = &self.tape[self.at..];
        if rest.is_empty() {
            return Next::End;
        }
        match self.field(rest) {
            Some((size, field)) => {
                self.at += size;
                self.opened = (self.opened + 1).min(3);
                Next::Field(field)
            }
            None => Next::Bad(self.at),
        }
    }

    fn field(&self, rest: &'a [u8]) -> Option<(usize, Field<'a>)> {
        let (tag, length) = (rest[0], u16::from_be_bytes(rest.get(1..3)?.try_into().unwrap()) as usize);
        if length > 4096 {
            return None;
        }
        let body = rest.get(3..3 + length)?;
        let field = match (self.opened, tag) {
            (0, 0x01) => Field::Username(body),
            (1, 0x02) => Field::Password(body),
            (2, 0x03) => Field::Reliable(match body {
                [0] => false,
                [1] => true,
                _ => return None,
            }),
            (3, 0x20) => Field::Ids(body.chunks_exact(12).map(|c| c.try_into().unwrap()).collect()),
            (3, 0x10..=0x15) => Field::Call(call(tag, body)?),
            _ => return None,
        };
        Some((3 + length, field))
    }
}

fn call(tag: u8, body: &[u8]) -> Option<Call<'_>> {
    if tag >= 0x14 {
        return match (tag, body) {
            (0x14, []) => Some(Call::Lost),
            (0x15, []) => Some(Call::Close),
            _ => None,
        };
    }
    let (now, rest) = (body.get(..8)?, &body[8..]);
    let now = Instant(u64::from_be_bytes(now.try_into().unwrap()));
    match (tag, rest) {
        (0x10, []) => Some(Call::Start(now)),
        (0x11, datagram) => Some(Call::Data(now, datagram)),
        (0x12, [family, rest @ ..]) => {
            let port = u16::from_be_bytes(rest.get(..2)?.try_into().unwrap());
            let (ip, data) = match family {
                1 => (IpAddr::from(<[u8; 4]>::try_from(rest.get(2..6)?).unwrap()), &rest[6..]),
                2 => (IpAddr::from(<[u8; 16]>::try_from(rest.get(2..18)?).unwrap()), &rest[18..]),
                _ => return None,
            };
            Some(Call::Send(now, SocketAddr::new(ip, port), data))
        }
        (0x13, []) => Some(Call::Poll(now)),
        _ => None,
    }
}
