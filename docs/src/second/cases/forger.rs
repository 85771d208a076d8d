//! Who makes a message or a reply that is right but for the checks that are to fail in it.

use super::draws::Draws;
use super::script::Script;

/// What is to fail, and what was damaged, by its name. The checks are those of the tag or those of the reader's side,
/// and what is made of them stands there.
pub struct Forger<'a, Check> {
    pub draws: &'a mut Draws,
    pub script: &'a Script,
    pub failing: &'a [Check],
    pub hit: Vec<String>,
}

impl<Check: PartialEq> Forger<'_, Check> {
    pub fn has(&self, check: Check) -> bool {
        self.failing.contains(&check)
    }

    /// The next place of some that have names: where nothing else is wrong, one that was hit least often.
    pub fn place(&mut self, names: Vec<String>) -> usize {
        let any = self.draws.below(names.len());
        let at = match self.failing {
            [_] => self.script.rarest(&names, any),
            _ => any,
        };
        self.hit.push(names[at].clone());
        at
    }

    /// One bit of one byte; `what` names it, with the byte's place for its `@`.
    pub fn damage(&mut self, what: &str, bytes: &mut [u8]) {
        if !bytes.is_empty() {
            let at = self.place((0..bytes.len()).map(|at| what.replace('@', &at.to_string())).collect());
            self.draws.flip(&mut bytes[at]);
        }
    }
}
