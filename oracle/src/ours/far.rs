//! The library in a program of its own (far/far_side.c), for a processor that the library isn't built for.
//!
//! build.rs compiles that program for x86-64, links libmisonkandi.a into it and names the emulator. The records of a
//! batch are sent, all of them are read there, then all answers come back: neither side waits on a full pipe.

use super::plans::{self, PlanCall, PlanReply};
use super::{Call, GUARD, LONGEST, Raw, guarded};
use std::io::{Read, Write};
use std::process::{Child, ChildStdin, ChildStdout, Command, Stdio};

const LENT: usize = 9 + 2 * GUARD;
const SENT: usize = 1 + 4 + 4 + 1 + 1 + LENT + LONGEST;
const RETURNED: usize = 4 + LENT + LONGEST;
/// far_side.c holds one batch: the same number stands there.
const BATCH: usize = 1024;

/// Set in a batch's head if calls on ends, records, reports, outlines, texts and floors follow; the rest of the head is
/// their count of bytes.
const PLANS: u32 = 1 << 31;
/// far_side.c holds so many bytes of them: the same number stands in laid.h.
const PLAN_BATCH: usize = 1 << 22;
/// What stands before what such a call is lent.
const PLAN_HEAD: usize = 1 + 4 + 4 + 8 + 4 + 4;

pub(super) struct FarSide {
    child: Child,
    to: Option<ChildStdin>,
    from: ChildStdout,
}

impl FarSide {
    pub(super) fn start() -> Self {
        let mut child = Command::new(env!("MISONKANDI_FAR_EMULATOR"))
            .arg(concat!(env!("OUT_DIR"), "/far_side"))
            .stdin(Stdio::piped())
            .stdout(Stdio::piped())
            .spawn()
            .expect("the emulator can be started");
        let to = child.stdin.take();
        let from = child.stdout.take().expect("its answers are piped");
        FarSide { child, to, from }
    }

    pub(super) fn answer(&mut self, calls: &[Call]) -> Vec<Raw> {
        calls
            .chunks(BATCH)
            .flat_map(|batch| self.answer_batch(batch))
            .collect()
    }

    fn answer_batch(&mut self, batch: &[Call]) -> Vec<Raw> {
        let mut sent = Vec::with_capacity(4 + batch.len() * SENT);
        sent.extend((batch.len() as u32).to_le_bytes());
        for call in batch {
            sent.push(call.op as u8);
            sent.extend(call.a.to_le_bytes());
            sent.extend(call.b.to_le_bytes());
            sent.push(call.dimension);
            sent.push(call.count as u8);
            sent.extend(guarded(&call.cells));
            sent.extend(call.text);
        }
        let to = self.to.as_mut().expect("open until the end");
        to.write_all(&sent).expect("the far side reads");

        let mut returned = vec![0; batch.len() * RETURNED];
        self.from
            .read_exact(&mut returned)
            .expect("the far side answers every call");
        returned.chunks_exact(RETURNED).map(raw).collect()
    }

    /// They go in batches that the far side has room for.
    pub(super) fn answer_plans(&mut self, calls: &[PlanCall]) -> Vec<PlanReply> {
        let mut replies = Vec::with_capacity(calls.len());
        let mut batch = Vec::new();
        let mut first = 0;
        for (place, call) in calls.iter().enumerate() {
            let sent = plan_sent(call);
            if batch.len() + sent.len() > PLAN_BATCH {
                self.answer_plan_batch(&calls[first..place], &mut batch, &mut replies);
                first = place;
            }
            batch.extend(sent);
        }
        self.answer_plan_batch(&calls[first..], &mut batch, &mut replies);
        replies
    }

    fn answer_plan_batch(
        &mut self,
        calls: &[PlanCall],
        batch: &mut Vec<u8>,
        replies: &mut Vec<PlanReply>,
    ) {
        if !batch.is_empty() {
            let head = PLANS | batch.len() as u32;
            let to = self.to.as_mut().expect("open until the end");
            to.write_all(&head.to_le_bytes())
                .and_then(|()| to.write_all(batch))
                .expect("the far side reads");
            self.from
                .read_exact(batch)
                .expect("the far side answers every call");
        }
        let mut rest = batch.as_slice();
        for call in calls {
            let (returned, after) = rest.split_at(PLAN_HEAD + call.lent().len());
            replies.push(plan_reply(call, returned));
            rest = after;
        }
        batch.clear();
    }
}

/// A call on ends, a record, a report, an outline, a text or a floor as it is sent.
fn plan_sent(call: &PlanCall) -> Vec<u8> {
    let mut sent = vec![call.op as u8];
    sent.extend(call.a.to_le_bytes());
    sent.extend(call.b.to_le_bytes());
    sent.extend(call.offset.to_le_bytes());
    sent.extend((call.out.len() as u32).to_le_bytes());
    sent.extend((call.bytes.len() as u32).to_le_bytes());
    sent.extend(call.lent());
    sent
}

/// It comes back as it was sent, but for the word in the place of `a`, and what the call wrote.
fn plan_reply(call: &PlanCall, returned: &[u8]) -> PlanReply {
    let word = u32::from_le_bytes(returned[1..5].try_into().expect("four bytes"));
    plans::reply(call, word, &returned[PLAN_HEAD..])
}

fn raw(returned: &[u8]) -> Raw {
    let (word, rest) = returned.split_at(4);
    let (lent, text) = rest.split_at(LENT);
    Raw {
        word: u32::from_le_bytes(word.try_into().expect("four bytes")),
        lent: lent.try_into().expect("the lent bytes"),
        text: text.try_into().expect("the text's bytes"),
    }
}

impl Drop for FarSide {
    /// The far side ends when its input does.
    fn drop(&mut self) {
        self.to = None;
        let _ = self.child.wait();
    }
}
