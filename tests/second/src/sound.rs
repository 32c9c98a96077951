//! The check of sound tables and grants.

use crate::grants::sound_grants;
use crate::machine::{Machine, RECEIVED, TICKS};
use crate::queue::{Queue, Summary};
use crate::tables::{Abort, Bond, Phase, Place, Thread};

type Check = Result<(), String>;

fn need(holds: bool, say: impl FnOnce() -> String) -> Check {
    if holds {
        Ok(())
    } else {
        Err(say())
    }
}

impl Machine {
    /// Says what is wrong with the tables or the grants, if anything is.
    pub fn sound(&self) -> Check {
        let mut stands = [0u8; 256];
        for t in 0..=255 {
            self.sound_thread(t)?;
        }
        self.sound_ready(&mut stands)?;
        for e in 0..64 {
            self.sound_endpoint(e, &mut stands)?;
        }
        self.sound_lines(&mut stands)?;
        self.sound_running(&mut stands)?;
        for t in 0..=255u8 {
            let want = self.thread(t).present() as u8;
            need(stands[t as usize] == want, || format!("thread {t} stands {stands:?}"))?;
        }
        need(sound_grants(self.grants()), || String::from("a grant has a badge and no right"))
    }

    fn sound_thread(&self, t: u8) -> Check {
        let block = self.thread(t);
        let queued = matches!(block.place, Place::Ready | Place::Sending(_) | Place::Receiving(_));
        let linked = self.next(t).is_some() || self.prev(t).is_some();
        need(queued || !linked, || format!("thread {t} is linked in no queue"))?;
        if !block.present() {
            return need(*block == Thread::ABSENT, || format!("absent thread {t} has content"));
        }
        need((1..=TICKS).contains(&block.ticks), || format!("ticks of {t}"))?;
        need(block.outcome <= 5, || format!("outcome of {t}"))?;
        need(!block.blocked() || block.outcome == 0, || format!("blocked {t} has an outcome"))?;
        need(block.badge < 1 << 28 && block.message < 1 << 28, || format!("message of {t}"))?;
        let stores = matches!(block.place, Place::Sending(_)) || block.outcome == RECEIVED;
        let zero = block.badge == 0 && block.message == 0;
        need(stores || zero, || format!("thread {t} stores a message"))?;
        match block.bond {
            Bond::None => Ok(()),
            Bond::Member { endpoint, badge } => {
                let abort = self.endpoint(endpoint).abort;
                let named = abort.is_some_and(|a| a.badge == badge && a.members.contains(t));
                need(named, || format!("{t} isn't among the members at {endpoint}"))
            }
            Bond::Note { badge, .. } => need(badge < 1 << 28, || format!("note of {t}")),
        }
    }

    /// Walks a queue both ways and counts its threads' places.
    fn walk(&self, queue: &Queue, stands: &mut [u8; 256]) -> Result<Vec<u8>, String> {
        let mut list = Vec::new();
        let mut before = None;
        let mut at = queue.head;
        while let Some(t) = at {
            need(self.prev(t) == before, || format!("links at {t} disagree"))?;
            stands[t as usize] += 1;
            need(stands[t as usize] == 1, || format!("thread {t} stands twice"))?;
            list.push(t);
            before = at;
            at = self.next(t);
        }
        need(queue.tail == before, || format!("tail behind {before:?}"))?;
        Ok(list)
    }

    fn sound_ready(&self, stands: &mut [u8; 256]) -> Check {
        let mut summary = Summary::EMPTY;
        for level in 0..=255u8 {
            let list = self.walk(&self.levels[level as usize], stands)?;
            for &t in &list {
                let block = self.thread(t);
                let here = block.place == Place::Ready && block.priority == level;
                need(here, || format!("thread {t} in ready queue {level}"))?;
            }
            if !list.is_empty() {
                summary.words[level as usize / 32] |= 1 << (level % 32);
                summary.top |= 1 << (level / 32);
            }
        }
        need(summary == self.summary, || format!("summary {:?}", self.summary))
    }

    fn sound_endpoint(&self, e: u8, stands: &mut [u8; 256]) -> Check {
        let block = self.endpoint(e);
        let list = self.walk(&block.queue, stands)?;
        let sending = self.first_sender(e).is_some();
        let place = if sending { Place::Sending(e) } else { Place::Receiving(e) };
        for &t in &list {
            need(self.thread(t).place == place, || format!("waiter {t} at {e}"))?;
        }
        let absent = block.phase == Phase::Absent;
        need(!absent || list.is_empty(), || format!("absent endpoint {e} has waiters"))?;
        let Some(abort) = &block.abort else {
            return Ok(());
        };
        need(block.phase == Phase::Open, || format!("abort at {e}, which isn't open"))?;
        self.sound_abort(e, abort, &list, sending)
    }

    fn sound_abort(&self, e: u8, abort: &Abort, list: &[u8], sending: bool) -> Check {
        need(abort.badge < 1 << 28, || format!("aborted badge at {e}"))?;
        let bond = Bond::Member { endpoint: e, badge: abort.badge };
        for t in abort.members.threads() {
            need(self.thread(t).bond == bond, || format!("member {t} at {e} isn't bound there"))?;
        }
        let mut inside = 0..0;
        if let Some((cursor, end)) = abort.span {
            let from = list.iter().position(|&t| t == cursor);
            let to = list.iter().position(|&t| t == end);
            let (Some(from), Some(to)) = (from, to) else {
                return Err(format!("cursor or end mark has left {e}"));
            };
            need(sending && from <= to, || format!("cursor and end mark at {e}"))?;
            inside = from..to + 1;
        }
        for (i, &t) in list.iter().enumerate() {
            let under = sending && self.thread(t).badge == abort.badge;
            need(!under || inside.contains(&i), || format!("aborted {t} outside at {e}"))?;
        }
        Ok(())
    }

    fn sound_lines(&self, stands: &mut [u8; 256]) -> Check {
        for l in 0..32 {
            let line = self.line(l);
            if let Some(t) = line.waiter {
                need(!line.pending, || format!("line {l} is pending with a waiter"))?;
                need(self.thread(t).place == Place::OnLine(l), || format!("waiter of line {l}"))?;
                stands[t as usize] += 1;
            }
        }
        Ok(())
    }

    fn sound_running(&self, stands: &mut [u8; 256]) -> Check {
        let Some(t) = self.running else {
            return need(self.summary.top == 0, || String::from("ready and nobody runs"));
        };
        need(self.thread(t).place == Place::Running, || format!("thread {t} doesn't run"))?;
        stands[t as usize] += 1;
        let level = self.thread(t).priority;
        for above in (level as usize + 1)..256 {
            let empty = self.levels[above].is_empty();
            need(empty, || format!("level {above} is ready above {t}"))?;
        }
        Ok(())
    }
}
