//! The crate `clap`, with values that are parts of the given words.

use super::AsStr;
use super::alloc::{AllocError, Global};
use std::fmt;
use std::marker::PhantomData;

#[derive(Clone, Copy)]
pub enum ArgAction {
    Set,
    SetTrue,
}

pub struct Arg<'a>(clap::Arg, PhantomData<&'a ()>);

impl Arg<'_> {
    pub fn new(_: Global, id: &'static str) -> Self {
        Arg(clap::Arg::new(id), PhantomData)
    }

    /// An empty name stands for an option without a value.
    pub fn value_name(self, name: &'static str) -> Self {
        self.with(|arg| if name.is_empty() { arg } else { arg.value_name(name) })
    }

    pub fn help(self, text: &'static str) -> Self {
        self.with(|arg| arg.help(text))
    }

    pub fn required(self, is_required: bool) -> Self {
        self.with(|arg| arg.required(is_required))
    }

    pub fn action(self, action: ArgAction) -> Self {
        self.with(|arg| {
            arg.action(match action {
                ArgAction::Set => clap::ArgAction::Set,
                ArgAction::SetTrue => clap::ArgAction::SetTrue,
            })
        })
    }

    pub fn long(self, name: &'static str) -> Self {
        self.with(|arg| arg.long(name))
    }

    fn with(self, change: impl FnOnce(clap::Arg) -> clap::Arg) -> Self {
        Arg(change(self.0), PhantomData)
    }
}

pub struct Command<'a>(clap::Command, PhantomData<&'a ()>);

impl<'a> Command<'a> {
    pub fn new(_: Global, name: &'static str) -> Self {
        Command(clap::Command::new(name), PhantomData)
    }

    pub fn about(self, text: &'static str) -> Self {
        self.with(|command| command.about(text))
    }

    pub fn after_help(self, text: &'static str) -> Self {
        self.with(|command| command.after_help(text))
    }

    pub fn version(self, text: &'static str) -> Self {
        self.with(|command| command.version(text))
    }

    pub fn no_binary_name(self, is_left_out: bool) -> Self {
        self.with(|command| command.no_binary_name(is_left_out))
    }

    pub fn subcommand_required(self, is_required: bool) -> Self {
        self.with(|command| command.subcommand_required(is_required))
    }

    pub fn bin_name(self, name: &'static str) -> Result<Self, AllocError> {
        Ok(self.with(|command| command.bin_name(name)))
    }

    pub fn arg(self, arg: Arg<'a>) -> Result<Self, AllocError> {
        Ok(self.with(|command| command.arg(arg.0)))
    }

    pub fn subcommand(self, subcommand: Command<'a>) -> Result<Self, AllocError> {
        Ok(self.with(|command| command.subcommand(subcommand.0)))
    }

    pub fn try_get_matches_from<S: AsStr>(self, words: &'a [S]) -> Result<ArgMatches<'a>, Error> {
        let words: Vec<&'a str> = words.iter().map(S::as_str).collect();
        match self.0.try_get_matches_from(&words) {
            Ok(found) => Ok(ArgMatches::new(found, words)),
            Err(error) => Err(Error(error)),
        }
    }

    fn with(self, change: impl FnOnce(clap::Command) -> clap::Command) -> Self {
        Command(change(self.0), PhantomData)
    }
}

pub struct ArgMatches<'a> {
    found: clap::ArgMatches,
    words: Vec<&'a str>,
    subcommand: Option<(String, Box<ArgMatches<'a>>)>,
}

impl<'a> ArgMatches<'a> {
    fn new(mut found: clap::ArgMatches, words: Vec<&'a str>) -> Self {
        let subcommand = found.remove_subcommand().map(|(name, sub)| (name, Box::new(Self::new(sub, words.clone()))));
        ArgMatches { found, words, subcommand }
    }

    pub fn subcommand(&self) -> Option<(&str, &ArgMatches<'a>)> {
        self.subcommand.as_ref().map(|(name, found)| (name.as_str(), &**found))
    }

    /// A value is the end of a word, and is returned as that part of it.
    pub fn get_str(&self, id: &str) -> Option<&'a str> {
        let value = self.found.try_get_one::<String>(id).ok()??;
        let word = self.words.iter().find(|word| word.ends_with(value.as_str()))?;
        Some(&word[word.len() - value.len()..])
    }

    pub fn get_flag(&self, id: &str) -> bool {
        self.found.get_flag(id)
    }
}

pub struct Error(clap::Error);

impl Error {
    pub fn kind(&self) -> error::ErrorKind {
        match self.0.kind() {
            clap::error::ErrorKind::DisplayHelp => error::ErrorKind::DisplayHelp,
            clap::error::ErrorKind::DisplayVersion => error::ErrorKind::DisplayVersion,
            _ => error::ErrorKind::Other,
        }
    }
}

impl fmt::Display for Error {
    fn fmt(&self, f: &mut fmt::Formatter<'_>) -> fmt::Result {
        self.0.fmt(f)
    }
}

pub mod error {
    /// `OutOfMemory` never comes: `clap` allocates without a result, and [`crate::kit`]'s global allocator ends the program.
    pub enum ErrorKind {
        DisplayHelp,
        DisplayVersion,
        #[allow(dead_code, reason = "the sources match it")]
        OutOfMemory,
        Other,
    }
}
