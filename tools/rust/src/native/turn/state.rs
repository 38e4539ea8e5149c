//! What stands in the client: for the refusals, and for the listing of `trace`. A part of turn.rs's
//! module, so that it can look at the fields.
use super::*;
use crate::listing::{address, hex, host, time_or_dash};
use std::fmt::Write;

impl TurnClient {
    /// The ids that wait for an answer.
    pub(crate) fn pending(&self) -> Vec<TransId> {
        self.txns.iter().map(|(id, _)| *id).collect()
    }

    /// A call begins: what the tables took up before is forgotten.
    pub(crate) fn begin(&mut self) {
        self.txns.begin();
        self.perms.begin();
        self.chans.begin();
    }

    /// Whether a record that the call added met a full table.
    pub(crate) fn met_full_table(&self) -> bool {
        self.txns.passed(64) || self.perms.passed(32) || self.chans.passed(32)
    }

    /// The longer of realm and nonce, in bytes.
    pub(crate) fn longest_text(&self) -> usize {
        [&self.realm, &self.nonce].into_iter().flatten().map(|t| t.len()).max().unwrap_or(0)
    }

    /// Everything, a line each, behind two blanks.
    pub(crate) fn lines(&self) -> String {
        let mut s = String::new();
        let text = |t: &Option<String>| t.as_ref().map_or("-".into(), |t| format!("={}", hex(t.as_bytes())));
        let flag = |b: bool| b as u8;
        let mut line = |l: String| writeln!(s, "  {l}").unwrap();
        line(format!("username ={}", hex(self.username.as_bytes())));
        line(format!("password ={}", hex(self.password.as_bytes())));
        line(format!("reliable {}", flag(self.reliable)));
        line(format!("realm {}", text(&self.realm)));
        line(format!("nonce {}", text(&self.nonce)));
        line(format!("key {}", self.key.map_or("-".into(), |k| hex(&k))));
        line(format!("relay {}", self.relay.map_or("-".into(), address)));
        line(format!("done {}", flag(self.done)));
        line(format!("closing {}", flag(self.closing)));
        line(format!("refresh {}", time_or_dash(self.refresh_at)));
        line(format!("next-number {}", self.next_num));
        for (id, t) in self.txns.iter() {
            assert_eq!(*id, t.msg.tid);
            let kind = match t.kind {
                Kind::Allocate => "allocate".into(),
                Kind::Refresh(lifetime) => format!("refresh {lifetime}"),
                Kind::Permission(ip) => format!("permission {}", host(ip)),
                Kind::ChannelBind(peer, num) => format!("bind {} {num}", address(peer)),
            };
            let attrs: Vec<String> = t.msg.attrs.iter().map(|(t, v)| format!("{t:04x}={}", hex(v))).collect();
            let (tries, next, retried) = (t.tries, t.next.0, flag(t.auth_retried));
            line(format!("request {} {kind} tries {tries} next {next} retried {retried} attrs {}", hex(id), attrs.join(",")));
        }
        for (ip, at) in self.perms.iter() {
            line(format!("permission {} {}", host(*ip), time_or_dash(*at)));
        }
        for (peer, c) in self.chans.iter() {
            assert_eq!(self.by_num.get(&c.num), Some(peer));
            line(format!("channel {} {} bound {} refresh {}", address(*peer), c.num, flag(c.bound), c.refresh_at.0));
        }
        assert_eq!(self.chans.iter().count(), self.by_num.iter().count());
        s
    }
}
