//! Runs a program on an input, and finds where it prints something else than it must.
use std::fmt;
use std::io::{self, Write};
use std::process::{Command, Stdio};

/// How much of its input a program takes that reads into `console::zeros::<262_144>`.
pub const HUGE_BUFFER: usize = 262_144;

pub struct Program {
    path: String,
}

/// A line of the input, and what must be printed for it.
pub struct Line {
    pub text: Vec<u8>,
    pub expected: String,
}

/// The first printed line, counted from 0, at which a program and the model part.
pub struct Difference {
    pub at: usize,
    program: String,
    expected: String,
    given: String,
}

pub enum Failure {
    Differs(String, Difference),
    NotRun(String),
}

impl fmt::Display for Failure {
    fn fmt(&self, to: &mut fmt::Formatter) -> fmt::Result {
        match self {
            Failure::Differs(input, difference) => {
                let Difference {
                    program,
                    expected,
                    given,
                    ..
                } = difference;
                writeln!(to, "A difference. The last line of\n{input}\nmust print")?;
                write!(to, "{expected}\nbut {program} prints\n{given}")
            }
            Failure::NotRun(error) => write!(to, "{error}"),
        }
    }
}

/// Capital hex.
pub fn hex(bytes: &[u8]) -> String {
    bytes.iter().map(|byte| format!("{byte:02X}")).collect()
}

fn line_at(text: &str, at: usize) -> String {
    let line = text.split_inclusive('\n').nth(at);
    line.map_or("(no line)".to_string(), |line| {
        line.escape_debug().to_string()
    })
}

impl Program {
    pub fn new(directory: &str, name: &str) -> Program {
        Program {
            path: format!("{directory}/{name}/out/{name}"),
        }
    }

    fn run(&self, input: &[u8]) -> io::Result<String> {
        let mut child = Command::new(&self.path)
            .stdin(Stdio::piped())
            .stdout(Stdio::piped())
            .spawn()?;
        let mut pipe = child.stdin.take().expect("a piped input");
        // The program may print before it has read all: a thread writes, so that neither waits for the other.
        let output = std::thread::scope(|scope| {
            scope.spawn(move || pipe.write_all(input));
            child.wait_with_output()
        })?;
        let mut printed = String::from_utf8_lossy(&output.stdout).into_owned();
        if !output.status.success() {
            printed.push_str(&format!("({})\n", output.status));
        }
        Ok(printed)
    }

    /// Runs the program on an input for which it must print these lines.
    pub fn difference(
        &self,
        input: &[u8],
        expected: &[String],
    ) -> Result<Option<Difference>, Failure> {
        let given = self
            .run(input)
            .map_err(|error| Failure::NotRun(format!("{}: {error}", self.path)))?;
        let lines = expected.iter().flat_map(|line| [line.as_str(), "\n"]);
        let expected: String = lines.collect();
        if expected == given {
            return Ok(None);
        }
        let at = expected
            .split_inclusive('\n')
            .zip(given.split_inclusive('\n'))
            .take_while(|(expected, given)| expected == given)
            .count();
        Ok(Some(Difference {
            at,
            program: self.path.clone(),
            expected: line_at(&expected, at),
            given: line_at(&given, at),
        }))
    }

    /// Runs the program on lines of which none changes what another prints.
    fn must_answer_at_once(&self, lines: &[Line]) -> Result<(), Failure> {
        let mut input = Vec::new();
        for line in lines {
            input.extend(&line.text);
            input.push(b'\n');
        }
        let expected: Vec<String> = lines.iter().map(|line| line.expected.clone()).collect();
        let Some(difference) = self.difference(&input, &expected)? else {
            return Ok(());
        };
        let line = lines.get(difference.at).map_or(&[][..], |line| &line.text);
        let shown = line.escape_ascii().to_string();
        Err(Failure::Differs(shown, difference))
    }

    /// The same, as many lines at a time as it has room for.
    pub fn must_answer(&self, lines: &[Line], room: usize) -> Result<(), Failure> {
        let mut rest = lines;
        while !rest.is_empty() {
            let mut size = 0;
            let fitting = rest.iter().take_while(|line| {
                size += line.text.len() + 1;
                size <= room
            });
            let (now, later) = rest.split_at(fitting.count().max(1));
            self.must_answer_at_once(now)?;
            rest = later;
        }
        Ok(())
    }

    /// An input that fills the room is read whole; of a longer one the program says so.
    pub fn must_say_rest(&self, room: usize) -> Result<(), Failure> {
        let line = Line {
            text: vec![b'x'; room - 1],
            expected: "unread".to_string(),
        };
        let rest = Line {
            text: Vec::new(),
            expected: format!("the input is longer than {room} bytes: the rest was not read"),
        };
        self.must_answer_at_once(std::slice::from_ref(&line))?;
        self.must_answer_at_once(&[line, rest])
    }
}
