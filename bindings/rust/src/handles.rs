//! Handles of one automaton, of which each call uses one of its own.

use crate::library::Handle;
use crate::refusal::Refusal;
use std::sync::{Mutex, MutexGuard, PoisonError};

/// As many handles as calls were made at once.
pub(crate) struct Handles {
    // What other handles are made from.
    source: Mutex<Handle>,
    // Those that no call is using.
    idle: Mutex<Vec<Handle>>,
}

fn locked<T>(mutex: &Mutex<T>) -> MutexGuard<'_, T> {
    mutex.lock().unwrap_or_else(PoisonError::into_inner)
}

impl Handles {
    pub(crate) fn new(source: Handle) -> Handles {
        Handles {
            source: Mutex::new(source),
            idle: Mutex::new(Vec::new()),
        }
    }

    /// Returns another handle.
    pub(crate) fn share(&self) -> Result<Handle, Refusal> {
        locked(&self.source).share()
    }

    /// Makes a call with a handle that no other call is using: an idle one, else a new one, else,
    /// without memory for it, the source, in turn with other calls.
    pub(crate) fn with<T>(&self, call: impl FnOnce(&mut Handle) -> T) -> T {
        let idle = locked(&self.idle).pop();
        let mut handle = match idle {
            Some(handle) => handle,
            None => {
                let mut source = locked(&self.source);
                match source.share() {
                    Ok(handle) => handle,
                    Err(_) => return call(&mut source),
                }
            }
        };
        let answer = call(&mut handle);
        locked(&self.idle).push(handle);
        answer
    }
}
