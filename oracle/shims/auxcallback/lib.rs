//! The queue of callbacks to the game, kept in order until `run_all`.

use std::cell::RefCell;

type Callback = Box<dyn FnOnce() -> eyre::Result<()> + Send + Sync>;

thread_local!(static SENT: RefCell<Vec<Callback>> = const { RefCell::new(Vec::new()) });

pub struct CallbackSender;

impl CallbackSender {
    pub fn try_send(&self, callback: Callback) -> eyre::Result<()> {
        SENT.with(|sent| sent.borrow_mut().push(callback));
        Ok(())
    }
}

pub fn byond_callback_sender() -> CallbackSender {
    CallbackSender
}

/// Runs what was sent, first to last.
pub fn run_all() -> eyre::Result<()> {
    SENT.with(|sent| sent.take()).into_iter().try_for_each(|callback| callback())
}
