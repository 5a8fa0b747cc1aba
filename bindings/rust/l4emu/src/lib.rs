//! The emulator of the Ipc system call of L4 X.2, in the process of a test.
//!
//! A [`Call`] has the words of a command line and the files that they name, which are texts in
//! memory. It does what the program `l4run` does with the same words, touches no file, and starts
//! no thread. A run goes in rounds: it prints what `replay --schedule '' --then-rest` prints.
//!
//! ```
//! let text = "l4 1 64\ncpus 1\nthread 1.1 cpu 0 space 1\nipc 2.1 2.1 never never\n\
//!             thread 2.1 cpu 0 space 2\nipc 1.1 1.1 never never\n";
//! let run = l4emu::Call::new(["run", "m.l4", "--waits"]).file("m.l4", text).answer().unwrap();
//! assert!(run.out_text().ends_with("deadlock 1.1 2.1\n"));
//!
//! let stuck = l4emu::Call::new(["endings", "m.l4", "--stuck", "--none"]).file("m.l4", text);
//! assert_eq!(stuck.answer().unwrap().status, 4);
//! ```
#![warn(missing_docs)]

use std::borrow::Cow;
use std::error::Error;
use std::fmt;

/// The lengths of an answer, as C has them.
#[repr(C)]
#[derive(Clone, Copy, Debug, Default, PartialEq, Eq)]
struct RawLengths {
    out: usize,
    faults: usize,
    recorded: usize,
}

extern "C" {
    fn l4emu_perform(
        words: *const u8,
        words_length: usize,
        first_name: *const u8,
        first_name_length: usize,
        first: *const u8,
        first_length: usize,
        second_name: *const u8,
        second_name_length: usize,
        second: *const u8,
        second_length: usize,
        third_name: *const u8,
        third_name_length: usize,
        third: *const u8,
        third_length: usize,
        out: *mut u8,
        out_room: usize,
        faults: *mut u8,
        faults_room: usize,
        recorded: *mut u8,
        recorded_room: usize,
        lengths: *mut RawLengths,
    ) -> u8;
}

/// What a command line asks for is not handed to the library.
#[derive(Clone, Copy, Debug, PartialEq, Eq)]
pub enum CallError {
    /// A word has a byte 0, which ends a word.
    ZeroInWord,
    /// A job reads at most three files.
    TooManyFiles,
}

impl fmt::Display for CallError {
    fn fmt(&self, f: &mut fmt::Formatter<'_>) -> fmt::Result {
        f.write_str(match self {
            CallError::ZeroInWord => "a word has a byte 0",
            CallError::TooManyFiles => "more than three files",
        })
    }
}

impl Error for CallError {}

/// What a call answered.
#[derive(Clone, Debug, PartialEq, Eq)]
pub struct Answer {
    /// The exit status of the program, 0 to 4.
    pub status: u8,
    /// What goes to the output.
    pub out: Vec<u8>,
    /// What goes to the faults.
    pub faults: Vec<u8>,
    /// The list that is recorded of a run, where that is asked for.
    pub recorded: Vec<u8>,
}

impl Answer {
    /// What goes to the output, as text.
    pub fn out_text(&self) -> Cow<'_, str> {
        String::from_utf8_lossy(&self.out)
    }

    /// What goes to the faults, as text.
    pub fn faults_text(&self) -> Cow<'_, str> {
        String::from_utf8_lossy(&self.faults)
    }
}

/// What a call answered into buffers: the status, and how long each answer is. One that is longer
/// than its buffer left the buffer as it was.
#[derive(Clone, Copy, Debug, PartialEq, Eq)]
pub struct Lengths {
    /// The exit status of the program, 0 to 4.
    pub status: u8,
    /// How long what goes to the output is.
    pub out: usize,
    /// How long what goes to the faults is.
    pub faults: usize,
    /// How long the list that is recorded is.
    pub recorded: usize,
}

/// A command line, and the files that it names.
#[derive(Clone, Debug, Default, PartialEq, Eq)]
pub struct Call {
    words: Vec<Vec<u8>>,
    files: Vec<(Vec<u8>, Vec<u8>)>,
}

impl Call {
    /// The words behind the name of the program, as `["run", "m.l4"]`.
    pub fn new<W: AsRef<[u8]>>(words: impl IntoIterator<Item = W>) -> Call {
        Call {
            words: words.into_iter().map(|word| word.as_ref().to_vec()).collect(),
            files: Vec::new(),
        }
    }

    /// The same call with one more file. Of two with one name the first is taken.
    pub fn file(mut self, name: impl AsRef<[u8]>, text: impl AsRef<[u8]>) -> Call {
        self.files.push((name.as_ref().to_vec(), text.as_ref().to_vec()));
        self
    }

    fn line(&self) -> Result<Vec<u8>, CallError> {
        let mut line = Vec::new();
        for word in &self.words {
            if word.contains(&0) {
                return Err(CallError::ZeroInWord);
            }
            line.extend_from_slice(word);
            line.push(0);
        }
        Ok(line)
    }

    /// Does what the words ask for, and puts the answers into buffers.
    pub fn answer_into(
        &self,
        out: &mut [u8],
        faults: &mut [u8],
        recorded: &mut [u8],
    ) -> Result<Lengths, CallError> {
        let line = self.line()?;
        if self.files.len() > 3 {
            return Err(CallError::TooManyFiles);
        }
        let file = |place: usize| match self.files.get(place) {
            Some((name, text)) => (name.as_slice(), text.as_slice()),
            None => (&[][..], &[][..]),
        };
        let (first, second, third) = (file(0), file(1), file(2));
        let mut lengths = RawLengths::default();
        // SAFETY: each pointer comes of a slice with its length, so none is null. What is written
        // to is borrowed by `&mut`, so it overlaps with nothing else. All of it lives until the
        // call returns, which keeps no pointer.
        let status = unsafe {
            l4emu_perform(
                line.as_ptr(),
                line.len(),
                first.0.as_ptr(),
                first.0.len(),
                first.1.as_ptr(),
                first.1.len(),
                second.0.as_ptr(),
                second.0.len(),
                second.1.as_ptr(),
                second.1.len(),
                third.0.as_ptr(),
                third.0.len(),
                third.1.as_ptr(),
                third.1.len(),
                out.as_mut_ptr(),
                out.len(),
                faults.as_mut_ptr(),
                faults.len(),
                recorded.as_mut_ptr(),
                recorded.len(),
                &mut lengths,
            )
        };
        Ok(Lengths {
            status,
            out: lengths.out,
            faults: lengths.faults,
            recorded: lengths.recorded,
        })
    }

    /// Does what the words ask for.
    ///
    /// Where the answers do not fit into a first guess, the call is made once more.
    pub fn answer(&self) -> Result<Answer, CallError> {
        let mut out = vec![0; 1 << 16];
        let mut faults = vec![0; 1 << 12];
        let mut recorded = vec![0; 1 << 12];
        loop {
            let lengths = self.answer_into(&mut out, &mut faults, &mut recorded)?;
            let fits = lengths.out <= out.len()
                && lengths.faults <= faults.len()
                && lengths.recorded <= recorded.len();
            out.resize(lengths.out, 0);
            faults.resize(lengths.faults, 0);
            recorded.resize(lengths.recorded, 0);
            if fits {
                return Ok(Answer {
                    status: lengths.status,
                    out,
                    faults,
                    recorded,
                });
            }
            // An answer may turn out otherwise where memory is refused now, so there is room for
            // that fault.
            faults.resize(lengths.faults.max(1 << 12), 0);
        }
    }
}
