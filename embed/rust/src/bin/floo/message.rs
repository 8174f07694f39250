//! What is said on standard error: where, what, the line with a caret, and notes.

use crate::screen::Paint;

pub struct Message {
    place: String,
    what: String,
    excerpt: String,
    notes: Vec<String>,
}

impl Message {
    /// Of the command itself.
    pub fn plain(what: impl Into<String>) -> Self {
        Message::at("floo", what)
    }

    /// Of a file, or of a place in it.
    pub fn at(place: impl Into<String>, what: impl Into<String>) -> Self {
        Message {
            place: place.into(),
            what: what.into(),
            excerpt: String::new(),
            notes: vec![],
        }
    }

    pub fn excerpt(mut self, excerpt: String) -> Self {
        self.excerpt = excerpt;
        self
    }

    pub fn note(mut self, note: impl Into<String>) -> Self {
        self.notes.push(note.into());
        self
    }

    pub fn notes(mut self, notes: impl IntoIterator<Item = String>) -> Self {
        self.notes.extend(notes);
        self
    }

    /// Lines, each with its LF.
    pub fn text(&self, paint: &Paint) -> String {
        let place = paint.strong(&format!("{}:", self.place));
        let mut text = format!("{place} {}\n", paint.bad(&self.what));
        text += &self.excerpt;
        for note in &self.notes {
            text += &format!("{} {note}\n", paint.quiet("  note:"));
        }
        text
    }
}
