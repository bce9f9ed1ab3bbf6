//! Whose the open sessions are, as far as the calls and the lines of this binding tell.

/// Whose a session is.
#[derive(Clone, Copy, Debug, PartialEq, Eq)]
enum Owner {
    /// It was pushed.
    Nobody,
    /// A line began it.
    Line,
    /// The guard of this number.
    Guard(u64),
}

/// The sessions that are open in a database, the oldest first.
#[derive(Debug, Default)]
pub(crate) struct Sessions {
    owners: Vec<Owner>,
    /// The revision while one is open.
    newest: u64,
    /// The connection that holds the newest ones, and how many.
    holder: u64,
    held: usize,
    last_guard: u64,
}

impl Sessions {
    fn begun(&mut self, connection: u64, revision: u64, owner: Owner) {
        self.owners.push(owner);
        self.newest = revision;
        self.holder = connection;
        self.held += 1;
    }

    /// A guard has begun one, which is of this revision; its number is answered.
    pub(crate) fn begun_by_guard(&mut self, connection: u64, revision: u64) -> u64 {
        self.last_guard += 1;
        self.begun(connection, revision, Owner::Guard(self.last_guard));
        self.last_guard
    }

    /// The newest one was undone or squashed, and this is the revision by now.
    pub(crate) fn ended(&mut self, revision: u64) {
        self.owners.pop();
        self.newest = revision;
        self.held = self.held.saturating_sub(1);
    }

    pub(crate) fn all_ended(&mut self) {
        self.owners.clear();
        self.held = 0;
    }

    /// So many of the oldest ones have ended.
    pub(crate) fn committed(&mut self, count: u64) {
        self.owners.drain(..self.owners.len().min(count as usize));
        self.held = self.held.min(self.owners.len());
    }

    /// So many of the newest ones were let go of, which are all that were held.
    pub(crate) fn pushed(&mut self, count: u64) {
        self.owners.iter_mut().rev().take(count as usize).for_each(|owner| *owner = Owner::Nobody);
        self.held = self.held.saturating_sub(count as usize);
    }

    /// A connection has gone away, and what it held was undone.
    pub(crate) fn released(&mut self, connection: u64) {
        while self.held > 0 && connection == self.holder {
            self.ended(self.newest - 1);
        }
    }

    /// The session of a guard is nobody's.
    pub(crate) fn disown(&mut self, guard: u64) {
        self.owners.iter_mut().filter(|owner| **owner == Owner::Guard(guard)).for_each(|owner| *owner = Owner::Nobody);
    }

    /// How many of the newest ones are to be ended so that a guard's is, since those that began in it go with it. 0 where its own has ended, or where
    /// one that is nobody's stands above.
    pub(crate) fn down_to(&self, guard: u64) -> usize {
        let above = self.owners.iter().rev().position(|owner| matches!(owner, Owner::Nobody) || *owner == Owner::Guard(guard));
        above.map_or(0, |n| if self.owners[self.owners.len() - 1 - n] == Owner::Nobody { 0 } else { n + 1 })
    }

    /// What the reply to a line says of sessions: those of the session steps begin as these, and no others do.
    pub(crate) fn heard(&mut self, connection: u64, reply: &str) {
        if let Some(revision) = behind(reply, "{\"ok\":true,\"revision\":") {
            if self.owners.is_empty() || revision > self.newest {
                self.begun(connection, revision, Owner::Line);
            } else {
                self.ended(revision);
            }
        } else if let Some(count) = behind(reply, "{\"committed\":") {
            self.committed(count);
        } else if behind(reply, "{\"ok\":true,\"undone\":").is_some() {
            self.all_ended();
        } else if let Some(count) = behind(reply, "{\"ok\":true,\"pushed\":") {
            self.pushed(count);
        }
    }
}

/// The number that stands behind a front, where the reply has it.
fn behind(reply: &str, front: &str) -> Option<u64> {
    reply.strip_prefix(front)?.split([',', '}']).next()?.parse().ok()
}
