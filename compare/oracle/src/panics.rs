//! Ways out that are no error value of the text: its two panics, a full store, too many steps.

use std::any::Any;
use std::cell::{Cell, RefCell};
use std::panic::{self, AssertUnwindSafe};
use std::sync::Once;

use crate::names;

/// Look-ups of terms that one check may take.
pub const MOST_STEPS: u64 = 4_000_000;

/// What unwound.
#[derive(Clone, Copy, PartialEq, Eq, Debug)]
pub enum Unwound {
    /// 51, with the primitive's name.
    MissingValidator(u32),
    /// 52, with the function's name.
    CustomCall(u32),
    /// 53, with the pool words in use.
    StoreFull(u32),
    TooManySteps,
}

struct StoreFull(usize);
struct TooManySteps;

thread_local! {
    static QUIET: Cell<bool> = const { Cell::new(false) };
    static LAST_MISSING: RefCell<String> = const { RefCell::new(String::new()) };
}

static HOOK: Once = Once::new();

/// Remembers the primitive that was last asked for a validator that it has not.
pub fn note_missing_validator(name: &str) {
    LAST_MISSING.with_borrow_mut(|last| {
        last.clear();
        last.push_str(name);
    });
}

pub fn store_full(pool_words: usize) -> ! {
    panic::resume_unwind(Box::new(StoreFull(pool_words)))
}

pub fn too_many_steps() -> ! {
    panic::resume_unwind(Box::new(TooManySteps))
}

/// Runs the text, without its panics' messages on standard error.
pub fn catch<R>(run: impl FnOnce() -> R) -> Result<R, Unwound> {
    HOOK.call_once(|| {
        let loud = panic::take_hook();
        panic::set_hook(Box::new(move |info| {
            if !QUIET.get() {
                loud(info);
            }
        }));
    });
    QUIET.set(true);
    let result = panic::catch_unwind(AssertUnwindSafe(run));
    QUIET.set(false);
    result.map_err(unwound)
}

fn unwound(payload: Box<dyn Any + Send>) -> Unwound {
    if let Some(full) = payload.downcast_ref::<StoreFull>() {
        return Unwound::StoreFull(full.0 as u32);
    }
    if payload.is::<TooManySteps>() {
        return Unwound::TooManySteps;
    }
    let text = match (
        payload.downcast_ref::<&str>(),
        payload.downcast_ref::<String>(),
    ) {
        (Some(text), _) => text.to_string(),
        (_, Some(text)) => text.clone(),
        _ => panic::resume_unwind(payload),
    };
    if text.starts_with("Expected primitive to have validator") {
        return LAST_MISSING.with_borrow(|name| Unwound::MissingValidator(names::number(name)));
    }
    match text.strip_prefix("Custom function ") {
        Some(rest) => {
            let name = rest.split(' ').next().expect("a name");
            Unwound::CustomCall(names::number(name))
        }
        None => panic!("the text panicked otherwise: {text}"),
    }
}
