//! The model of a viewing client (a viewing desk of document 02): it reads, and writes nothing back.
use super::asker::{latest, Asker, Shown};
use super::message::*;

#[derive(Clone)]
pub struct Viewer {
    asker: Asker,
    /// What came of the view under way, in that order; `None` while idle.
    replies: Option<Vec<Shown>>,
}

impl Viewer {
    pub fn new(f: u8, id: u8, first_nonce: u64) -> Result<Viewer, Refusal> {
        Ok(Viewer {
            asker: Asker::new(f, id, VIEWERS, first_nonce)?,
            replies: None,
        })
    }

    pub fn begin_view(&mut self, register: u8, room: usize) -> Result<Answer, Refusal> {
        check_room(room)?;
        check_register(register)?;
        self.asker.begin(register, self.replies.is_some())?;
        self.replies = Some(Vec::new());
        Ok(self.asker.ask(READ))
    }

    pub fn receive(
        &mut self,
        bytes: &[u8],
        verdicts: &[u8],
        room: usize,
    ) -> Result<Answer, Refusal> {
        let reply = self.asker.check_reply(bytes, verdicts, room)?;
        let replies = self.replies.as_mut().ok_or(18)?;
        refuse_if(18, !self.asker.awaits(CARD, replies, &reply))?;
        replies.push(Shown::new(reply));
        if replies.len() < quorum(self.asker.f) {
            return Ok(Answer::Counted);
        }
        let best = latest(std::mem::take(replies));
        self.replies = None;
        Ok(Answer::Done(best.done()))
    }
}
