//! The published refresh pass, built unchanged (see build.rs) against the
//! stand-ins beside this crate.

include!(concat!(env!("OUT_DIR"), "/refresh.rs"));

// hook.rs names the options by this path.
pub use refresh::{options::RefreshOptions, refresh as refresh_pass};

#[cfg(debug_assertions)]
compile_error!("the published files are run with debug_assertions off");
