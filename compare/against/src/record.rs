//! The two files of a recorder: a question a line to `stdin`, the answer at the same line of `stdout`.

#[derive(Default)]
pub struct Record {
    questions: String,
    answers: String,
}

impl Record {
    pub fn ask(&mut self, question: String, answer: String) {
        self.questions += &(question + "\n");
        self.answers += &(answer + "\n");
    }

    /// Writes the files to the folder that the program was given.
    pub fn write(self) {
        let folder = std::env::args().nth(1).expect("a folder");
        for (name, text) in [("stdin", self.questions), ("stdout", self.answers)] {
            std::fs::write(format!("{folder}/{name}"), text).unwrap();
        }
    }
}
