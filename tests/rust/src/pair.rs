//! The library and the original side by side, compared after each call.

use crate::library;
use crate::original::Original;
use crate::world::{Call, Outcome, World};

/// The library's world and the original's, and the calls that were made since both were cleared.
pub struct Pair {
    world: World,
    before: World,
    original: Original,
    calls: Vec<Call>,
}

impl Pair {
    /// Begins with a cleared world.
    pub fn new(world: World) -> Pair {
        let original = Original::cleared(world.handles.len());
        Pair { before: world.clone(), world, original, calls: Vec::new() }
    }

    /// The library's world.
    pub fn world(&self) -> &World {
        &self.world
    }

    /// Makes a call on both sides and compares everything: the result, the used words, the heads,
    /// the handles; and audits the pool. What the library refuses is not given to the original, but
    /// must have changed nothing. Says what differs.
    pub fn step(&mut self, call: Call) -> Result<Outcome, String> {
        self.before.clone_from(&self.world);
        let outcome = self.made(call)?;
        if outcome.number() == 0 {
            self.same_words()?;
        } else {
            self.hold(self.world == self.before, || {
                format!("refused with {}, and changed something", outcome.number())
            })?;
        }
        self.audited()?;
        Ok(outcome)
    }

    /// Makes a call on both sides and compares all but the used words: the result, the used count,
    /// the heads, the handles.
    pub fn made(&mut self, call: Call) -> Result<Outcome, String> {
        let outcome = library::through_rust(&mut self.world, &call);
        self.calls.push(call);
        let call = self.calls.last().expect("the call just made");
        // An audit is no call of the original: what it finds is judged after each step, and its map
        // beside the model.
        if outcome.number() == 0 && !matches!(call, Call::Audit { .. }) {
            let expected = self.original.call(call);
            self.hold(outcome == expected, || {
                format!("the library gives {outcome:?}, the original {expected:?}")
            })?;
        }
        let (words, heads) = (self.original.words().len(), self.original.heads());
        self.hold(self.world.used as usize == words, || {
            format!("the library uses {} words, the original {words}", self.world.used)
        })?;
        self.hold(self.world.heads == heads, || {
            format!("the library's heads are {:?}, the original's {heads:?}", self.world.heads)
        })?;
        self.hold(self.original.handles().eq(self.world.handles.iter().copied()), || {
            let original: Vec<u32> = self.original.handles().collect();
            format!(
                "the library's handles are {:?}, the original's {original:?}",
                self.world.handles
            )
        })?;
        Ok(outcome)
    }

    /// Compares the used words.
    pub fn same_words(&self) -> Result<(), String> {
        let used = self.world.used as usize;
        let differs = self
            .original
            .words()
            .zip(&self.world.pool[..used])
            .position(|(original, &library)| original != library);
        self.hold(differs.is_none(), || {
            let at = differs.unwrap();
            let (library, original) = (self.world.pool[at], self.original.words().nth(at));
            format!("the library's word {at} is {library}, the original's {original:?}")
        })
    }

    /// Audits the library's pool: the calls began with a cleared one, so it is sound.
    pub fn audited(&mut self) -> Result<(), String> {
        let audit = Call::Audit { map_words: self.world.map.len() };
        let outcome = library::through_c(&mut self.world, &audit);
        self.hold(outcome == Outcome::done(0), || format!("the audit gives {outcome:?}"))
    }

    /// Says what differs, with the calls that led there, unless it holds.
    fn hold(&self, holds: bool, what: impl FnOnce() -> String) -> Result<(), String> {
        if holds {
            return Ok(());
        }
        let (words, slots) = (self.world.pool.len(), self.world.handles.len());
        let calls: String = self.calls.iter().map(|call| format!("    {call:?}\n")).collect();
        Err(format!(
            "{}\nafter these calls on a cleared pool of {words} words, {slots} slots:\n{calls}",
            what()
        ))
    }
}
