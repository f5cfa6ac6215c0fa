//! The command line of a benchmark: its tables, or one run of it for a profiler.

use std::process::ExitCode;

pub struct Program {
    pub name: &'static str,
    /// How many rounds there are if none are given.
    pub rounds: usize,
    /// The two words after `once`, as the usage message has them.
    pub choices: String,
    /// Prints the tables, of so many rounds.
    pub tables: fn(usize) -> Result<(), String>,
    /// Runs what two words name, once; nothing if they name nothing.
    pub once: fn(&str, &str) -> Option<()>,
}

impl Program {
    /// Does what the program's arguments ask for.
    pub fn run(&self) -> ExitCode {
        let given: Vec<String> = std::env::args().skip(1).collect();
        let arguments: Vec<&str> = given.iter().map(String::as_str).collect();
        match self.answer(&arguments) {
            Ok(()) => ExitCode::SUCCESS,
            Err(message) => {
                eprintln!("{}", message);
                ExitCode::FAILURE
            }
        }
    }

    fn answer(&self, arguments: &[&str]) -> Result<(), String> {
        match arguments {
            ["once", what, which] => (self.once)(what, which).ok_or_else(|| self.usage()),
            [] => self.print(self.rounds),
            [rounds] => match rounds.parse() {
                Ok(rounds) if rounds > 0 => self.print(rounds),
                _ => Err(self.usage()),
            },
            _ => Err(self.usage()),
        }
    }

    fn print(&self, rounds: usize) -> Result<(), String> {
        (self.tables)(rounds).map_err(|message| format!("{}: {}", self.name, message))
    }

    fn usage(&self) -> String {
        format!("usage: {0} [ROUNDS] | {0} once {1}", self.name, self.choices)
    }
}

#[cfg(test)]
mod tests {
    use super::Program;

    fn program() -> Program {
        let tables = |rounds| if rounds == 5 { Ok(()) } else { Err(format!("{} rounds", rounds)) };
        let once = |what: &str, which: &str| (what == "ours" && which == "E").then_some(());
        Program { name: "bench", rounds: 5, choices: "ours E".to_string(), tables, once }
    }

    #[test]
    fn rounds_are_the_given_ones_or_those_of_the_program() {
        assert_eq!(program().answer(&[]), Ok(()));
        assert_eq!(program().answer(&["5"]), Ok(()));
        assert_eq!(program().answer(&["7"]), Err("bench: 7 rounds".to_string()));
        assert_eq!(program().answer(&["once", "ours", "E"]), Ok(()));
    }

    #[test]
    fn other_arguments_get_the_usage() {
        let usage = Err("usage: bench [ROUNDS] | bench once ours E".to_string());
        let wrong: [&[&str]; 5] = [&["0"], &["five"], &["once"], &["once", "ours", "W"], &["5", "5"]];
        assert!(wrong.iter().all(|arguments| program().answer(arguments) == usage));
    }
}
