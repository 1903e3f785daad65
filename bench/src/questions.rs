//! The questions of the proved panel, as C asks them: each answers a number, and one word of what goes with it as `len`.

use reference::paths::Path;

use crate::called::Last;
use crate::panel::Panel;

// What each question is lent comes first.
macro_rules! questions {
    ($(fn $name:ident($($word:ident: $type:ty),*) -> $answer:ty;)*) => {
        extern "C" {
            $(fn $name(
                page: *const u8,
                page_len: usize,
                clusters: *const u64,
                keys: *const u64,
                versions: *const u64,
                kinds: *const u8,
                words: *const u64,
                order: *const u8,
                lengths: *const u16,
                asked: *const u64,
                $($word: $type),*
            ) -> $answer;)*
        }
    };
}

questions! {
    fn cache_whole(endpoint: u16, cluster: u32) -> Last;
    fn cache_entry(endpoint: u16, cluster: u32, attribute: u32) -> Last;
    fn cache_text_len(endpoint: u16, cluster: u32, attribute: u32) -> usize;
    fn cache_outcome() -> Last;
    fn cache_unknown() -> Last;
}

macro_rules! ask {
    ($panel:ident, $name:ident $(, $word:expr)*) => {{
        let Panel { page, held } = $panel;
        // SAFETY: the arrays have the lengths that the library declares, the page its own; nothing is written.
        unsafe {
            $name(
                page.as_ptr(),
                page.len(),
                held.clusters.as_ptr(),
                held.keys.as_ptr(),
                held.versions.as_ptr(),
                held.kinds.as_ptr(),
                held.words.as_ptr(),
                held.order.as_ptr(),
                held.lengths.as_ptr(),
                held.asked.as_ptr(),
                $($word),*
            )
        }
    }};
}

impl Panel {
    /// Whether the cluster of a path is whole: its version.
    pub fn whole(&self, path: &Path) -> Last {
        ask!(self, cache_whole, path.endpoint, path.cluster)
    }

    /// An entry: its version.
    pub fn entry(&self, path: &Path) -> Last {
        ask!(self, cache_entry, path.endpoint, path.cluster, path.attribute)
    }

    /// How long the text of an entry is.
    pub fn text_len(&self, path: &Path) -> usize {
        ask!(self, cache_text_len, path.endpoint, path.cluster, path.attribute)
    }

    /// How the newest request stands: 1 where it is open, one more than its status.
    pub fn outcome(&self) -> Last {
        ask!(self, cache_outcome)
    }

    /// The newest abandoned write: its exchange.
    pub fn unknown(&self) -> Last {
        ask!(self, cache_unknown)
    }
}
