//! What stands in a reply's body: "Records in a body" in docs/PROTOCOL.md.

mod chains;
mod codes;
mod cursor;
mod data;
mod items;
mod reading;

pub use chains::{MOST_EXTENSIONS, write_chain};
pub use codes::Unit;
pub use data::{LONGEST_TEXT, Value};
pub use items::{FILLER, Item, Items, MAKER, MAKER_AND_MORE, MakerData};
pub use reading::Reading;
