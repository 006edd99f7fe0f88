//! The states of a survey file that is edited, and how far it is from what was written.
use crate::source::SurveyFile;

pub struct History {
    now: SurveyFile,
    before: Vec<SurveyFile>,
    /// The bytes that were last written or read.
    written: Vec<u8>,
    /// How many changes were made before those bytes.
    written_after: usize,
    /// How many of the changes before those bytes still stand.
    standing: usize,
}

impl History {
    pub fn new(file: SurveyFile) -> History {
        History { written: file.bytes(), now: file, before: Vec::new(), written_after: 0, standing: 0 }
    }

    pub fn now(&self) -> &SurveyFile {
        &self.now
    }

    pub fn change(&mut self, next: SurveyFile) {
        self.before.push(std::mem::replace(&mut self.now, next));
    }

    /// Takes the last change back; false where there is none.
    pub fn undo(&mut self) -> bool {
        let Some(last) = self.before.pop() else { return false };
        self.now = last;
        self.standing = self.standing.min(self.before.len());
        true
    }

    pub fn mark_written(&mut self) {
        self.written = self.now.bytes();
        self.written_after = self.before.len();
        self.standing = self.before.len();
    }

    /// How many changes would have to be undone or done to be back at what was written; none where the bytes are the same.
    pub fn unwritten(&self) -> usize {
        if self.now.bytes() == self.written {
            return 0;
        }
        let (undone, done) = (self.written_after - self.standing, self.before.len() - self.standing);
        (undone + done).max(1)
    }
}

#[cfg(test)]
mod tests {
    use super::*;
    use shepard::Survey;

    fn with_points(count: u32) -> SurveyFile {
        let mut survey = Survey::new();
        for x in 0..count {
            survey.add(x, 0, 0).expect("the survey has room");
        }
        SurveyFile { front: [].into(), survey }
    }

    #[test]
    fn changes_are_counted_from_what_was_written() {
        let mut history = History::new(with_points(0));
        assert_eq!(history.unwritten(), 0);
        history.change(with_points(1));
        history.change(with_points(2));
        assert_eq!(history.unwritten(), 2);
        history.mark_written();
        assert_eq!(history.unwritten(), 0);
        assert!(history.undo());
        assert_eq!(history.unwritten(), 1);
        history.change(with_points(3));
        assert_eq!(history.unwritten(), 2);
        history.change(with_points(2));
        assert_eq!(history.unwritten(), 0);
        assert!(history.undo() && history.undo() && history.undo());
        assert_eq!(history.unwritten(), 2);
        assert!(!history.undo());
    }
}
