//! Keeps the original's panics instead of printing them.
use std::cell::RefCell;
use std::panic::{catch_unwind, set_hook, AssertUnwindSafe, PanicHookInfo};

/// Message and file of a panic.
#[derive(Clone)]
pub struct Panic {
    pub text: String,
    pub file: String,
}

impl Panic {
    /// Returns `true` if a subtraction in `file` went below 0.
    pub fn is_subtraction_in(&self, file: &str) -> bool {
        self.text.contains("attempt to subtract with overflow") && self.file.ends_with(file)
    }
}

thread_local! {
    static LAST: RefCell<Option<Panic>> = const { RefCell::new(None) };
    static IS_KEPT: RefCell<bool> = const { RefCell::new(false) };
}

/// Installs a hook that keeps panics inside `caught`. Others are printed.
pub fn keep_panics() {
    let printed = std::panic::take_hook();
    set_hook(Box::new(move |info| {
        if IS_KEPT.with(|is_kept| *is_kept.borrow()) {
            LAST.with(|last| *last.borrow_mut() = Some(panic_of(info)));
        } else {
            printed(info);
        }
    }));
}

/// Returns the call's result, or its panic.
pub fn caught<T>(call: impl FnOnce() -> T) -> Result<T, Panic> {
    IS_KEPT.with(|is_kept| *is_kept.borrow_mut() = true);
    let answer = catch_unwind(AssertUnwindSafe(call));
    IS_KEPT.with(|is_kept| *is_kept.borrow_mut() = false);
    answer.map_err(|_| LAST.with(|last| last.borrow_mut().take()).unwrap_or_else(unknown))
}

fn panic_of(info: &PanicHookInfo<'_>) -> Panic {
    Panic {
        text: info.to_string(),
        file: info.location().map_or(String::new(), |location| location.file().to_string()),
    }
}

fn unknown() -> Panic {
    Panic {
        text: "a panic without a message".to_string(),
        file: String::new(),
    }
}
