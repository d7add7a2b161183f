//! A key-value store of 64-bit words in a file, whose engine is proved.
//!
//! ```
//! use fkv::{Keeping, Store, Wish};
//! use std::time::Duration;
//!
//! fn main() -> Result<(), fkv::Error> {
//!     # let folder = std::env::temp_dir().join(format!("fkv-doc-{}", std::process::id()));
//!     # std::fs::create_dir(&folder).and_then(|()| std::env::set_current_dir(&folder)).expect("a folder of its own");
//!     let store = Store::open_or_make("counts", &Wish::default().keys(1000))?;
//!     let _keeper = store.start(Keeping::default().commit_each(Duration::from_millis(50)))?;
//!     let mut session = store.join_any()?;
//!     session.increment(7, 1)?;
//!     session.tick()?; // between calls: lets the store go on, and says whether it does
//!     session.commit()?; // a crash from now on keeps the add
//!     # assert_eq!(session.read(7)?, Some(1));
//!     # std::fs::remove_dir_all(&folder).expect("what the example has made");
//!     Ok(())
//! }
//! ```
//!
//! A [`Store`] is a file that this process alone has open. A [`Session`] reads and updates it, in one thread at a time. A [`Keeper`] is
//! the thread that writes the log and carries commits on. Each of them keeps the file open, and the last one that is dropped closes it.
//! What a session has done is kept by the last commit that the keeper makes as it is dropped, if no session is out then.
mod errors;
mod keeper;
mod raw;
mod renewal;
mod session;
mod sizes;
mod stats;
mod store;
mod versions;

pub use errors::{Damage, Error};
pub use keeper::{Keeper, Keeping, Ticket};
pub use renewal::{RenewedKeys, renew, renew_file};
pub use session::{Finished, Made, Merge, Phase, Read, ReadTicket, Reason, Seen, Session, Update};
pub use sizes::{Size, Wish};
pub use stats::Stats;
pub use store::{Commit, How, Progress, Shape, Store, Work, spread, spread_back};
pub use versions::{formats, version};
