//! A word where the process ends: of a layer that nobody ended, and of what was recorded after the end of one whose guard was dropped too early.

use crate::layer::{Core, DROPPED};
use std::io::{self, Write};
use std::sync::atomic::Ordering;
use std::sync::{Arc, Mutex, Once, PoisonError, Weak};

static LAYERS: Mutex<Vec<Weak<Core>>> = Mutex::new(Vec::new());
static ASKED: Once = Once::new();

/// The layer is looked at where the process ends.
pub(crate) fn watch(core: &Arc<Core>) {
    // Where the system takes no further function, nothing is told.
    ASKED.call_once(|| {
        let _ = dspec::at_exit(tell);
    });
    let mut layers = LAYERS.lock().unwrap_or_else(PoisonError::into_inner);
    layers.retain(|layer| layer.strong_count() > 0);
    layers.push(Arc::downgrade(core));
}

/// What is to be told of a layer.
fn word(core: &Core) -> Option<String> {
    if core.runs() {
        let why = "its guard is in a static, was forgotten, or `process::exit` came first";
        return Some(format!("a layer wasn't ended, so what was kept last may not have been written: {why}. Call `Guard::finish` before"));
    }
    let late = core.lanes.late.load(Ordering::Relaxed);
    let dropped = core.ended.load(Ordering::Relaxed) == DROPPED && late > 0;
    dropped.then(|| format!("{late} calls came when the layer had ended, and were lost: its guard was dropped. Keep it, as in `let (layer, guard) = ..`, not `_`"))
}

extern "C" fn tell() {
    // Nothing waits here: where somebody is in it, nothing is told.
    let Ok(layers) = LAYERS.try_lock() else { return };
    for core in layers.iter().filter_map(Weak::upgrade) {
        if let Some(word) = word(&core) {
            let _ = writeln!(io::stderr(), "tracing-dspec: {word}");
        }
    }
}
