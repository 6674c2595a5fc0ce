//! The arguments of the command line.
use crate::failure::Failure;
use crate::numbers::number;

/// The arguments of a command: its options, and the others in their order.
pub struct Arguments {
    command: String,
    options: Vec<(String, Option<String>)>,
    others: Vec<String>,
}

impl Arguments {
    /// Parts the arguments behind the command. The options named in `valued` take the next argument as their value.
    pub fn read(command: &str, given: &[String], valued: &[&str]) -> Result<Arguments, Failure> {
        let mut arguments = Arguments { command: command.to_string(), options: Vec::new(), others: Vec::new() };
        let mut given = given.iter();
        while let Some(argument) = given.next() {
            if !argument.starts_with("--") {
                arguments.others.push(argument.clone());
                continue;
            }
            let value = valued.contains(&argument.as_str()).then(|| given.next().cloned());
            if value == Some(None) {
                return Err(Failure::Usage(format!("{argument} needs a value")));
            }
            arguments.options.push((argument.clone(), value.flatten()));
        }
        Ok(arguments)
    }

    /// Takes an option out: whether it was given.
    pub fn flag(&mut self, name: &str) -> bool {
        self.take(name).is_some()
    }

    /// Takes an option out, with its value.
    pub fn value(&mut self, name: &str) -> Option<String> {
        self.take(name).flatten()
    }

    fn take(&mut self, name: &str) -> Option<Option<String>> {
        let at = self.options.iter().position(|(option, _)| option == name)?;
        Some(self.options.remove(at).1)
    }

    /// The stores that a call may make: all, unless `--allowance` says how many.
    pub fn allowance(&mut self) -> Result<u32, Failure> {
        match self.value("--allowance") {
            None => Ok(page_index::ALL),
            Some(text) => number(&text)
                .and_then(|stores| u32::try_from(stores).ok())
                .ok_or_else(|| Failure::Usage(format!("--allowance {text}: not a number below 2^32"))),
        }
    }

    /// The other arguments, which must be so many, once every option is taken out.
    pub fn others<const COUNT: usize>(self, names: &str) -> Result<[String; COUNT], Failure> {
        if let Some((option, _)) = self.options.first() {
            return Err(Failure::Usage(format!("{} {names} has no option {option}", self.command)));
        }
        self.others.try_into().map_err(|_| Failure::Usage(format!("{} takes {names}", self.command)))
    }

    /// Whether the other argument at this place is this one.
    pub fn is_at(&self, place: usize, argument: &str) -> bool {
        self.others.get(place).is_some_and(|other| other == argument)
    }
}

/// A number among the arguments.
pub fn number_of(name: &str, text: &str) -> Result<u64, Failure> {
    number(text).ok_or_else(|| Failure::Usage(format!("{name} {text}: not a number below 2^64")))
}
