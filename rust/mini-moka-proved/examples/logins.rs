//! Keeps a table of logins: a token is valid for half an hour after the login. Reads the lines
//! `login NAME`, `who TOKEN` and `logout TOKEN` from standard input, and answers each with a line.

use mini_moka_proved::{BuildError, ByteCache, OutOfMemory};
use std::error::Error;
use std::io::{self, BufRead};
use std::time::Duration;

const HALF_AN_HOUR: Duration = Duration::from_secs(30 * 60);

/// The users' names by token, and the last token issued.
struct Logins {
    names: ByteCache,
    last_token: u64,
}

impl Logins {
    /// Creates a table of at most 100,000 logins.
    fn new() -> Result<Logins, BuildError> {
        let names = ByteCache::builder()
            .max_capacity(100_000)
            .adaptive()
            .time_to_live(HALF_AN_HOUR)
            .build()?;
        let last_token = 0;
        Ok(Logins { names, last_token })
    }

    /// Logs a user in, and returns the token. Tokens are counted here; a real program would issue
    /// random ones.
    fn log_in(&mut self, name: &str) -> Result<String, OutOfMemory> {
        self.last_token += 1;
        let token = self.last_token.to_string();
        self.names.insert(&token, name)?;
        Ok(token)
    }

    /// Returns the name of the user who has the token.
    fn who(&mut self, token: &str) -> Option<String> {
        self.names.get(token).map(text)
    }

    /// Logs a user out, and returns the name.
    fn log_out(&mut self, token: &str) -> Result<Option<String>, OutOfMemory> {
        Ok(self.names.remove(token)?.map(text))
    }

    /// Returns the answer to a line, or the usage if it isn't a command.
    fn answer(&mut self, line: &str) -> Result<String, OutOfMemory> {
        let answer = match line.split_once(' ') {
            Some(("login", name)) => format!("token {}", self.log_in(name)?),
            Some(("who", token)) => self.who(token).unwrap_or_else(nobody),
            Some(("logout", token)) => match self.log_out(token)? {
                Some(name) => format!("{name} has left"),
                None => nobody(),
            },
            _ => "login NAME, who TOKEN or logout TOKEN".to_string(),
        };
        Ok(answer)
    }
}

fn text(name: Vec<u8>) -> String {
    String::from_utf8_lossy(&name).into_owned()
}

fn nobody() -> String {
    "nobody".to_string()
}

fn main() -> Result<(), Box<dyn Error>> {
    let mut logins = Logins::new()?;
    for line in io::stdin().lock().lines() {
        match logins.answer(line?.trim()) {
            Ok(answer) => println!("{answer}"),
            Err(refused) => println!("{refused}"),
        }
    }
    Ok(())
}
