//! Writes the files that the proved programs read and are compared with, from the corpus.

use floo_reference::stored;

fn main() -> Result<(), String> {
    for (path, bytes) in stored::files()? {
        std::fs::write(&path, bytes).map_err(|error| format!("{}: {error}", path.display()))?;
    }
    Ok(())
}
