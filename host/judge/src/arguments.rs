//! Command-line arguments: words, options `--name NUMBER`, options `--name WORD,WORD..` and flags `--name`.

use std::collections::{BTreeMap, BTreeSet};

pub struct Arguments {
    words: Vec<String>,
    numbers: BTreeMap<String, u64>,
    lists: BTreeMap<String, Vec<String>>,
    flags: BTreeSet<String>,
}

impl Arguments {
    /// Takes a command's arguments apart. Options other than the allowed ones are refused.
    pub fn new(arguments: Vec<String>, allowed: &[&str]) -> Result<Self, String> {
        Arguments::take(arguments, allowed, &[], &[])
    }

    /// Takes a command's arguments apart, where some options have numbers and others lists of words.
    pub fn with_lists(arguments: Vec<String>, numbers: &[&str], lists: &[&str]) -> Result<Self, String> {
        Arguments::take(arguments, numbers, lists, &[])
    }

    /// Takes a command's arguments apart, where some options have numbers and others stand alone.
    pub fn with_flags(arguments: Vec<String>, numbers: &[&str], flags: &[&str]) -> Result<Self, String> {
        Arguments::take(arguments, numbers, &[], flags)
    }

    fn take(
        arguments: Vec<String>,
        numbers: &[&str],
        lists: &[&str],
        flags: &[&str],
    ) -> Result<Self, String> {
        let mut taken = Arguments {
            words: Vec::new(),
            numbers: BTreeMap::new(),
            lists: BTreeMap::new(),
            flags: BTreeSet::new(),
        };
        let mut arguments = arguments.into_iter();
        while let Some(argument) = arguments.next() {
            let Some(name) = argument.strip_prefix("--") else {
                taken.words.push(argument);
                continue;
            };
            if flags.contains(&name) {
                taken.flags.insert(name.to_string());
                continue;
            }
            let wanted = if lists.contains(&name) { "words" } else { "a number" };
            if !lists.contains(&name) && !numbers.contains(&name) {
                return Err(format!("no option --{name} here"));
            }
            let value = arguments.next().ok_or(format!("--{name} wants {wanted}"))?;
            if lists.contains(&name) {
                taken.lists.insert(name.to_string(), value.split(',').map(str::to_string).collect());
            } else {
                let number = value.parse().map_err(|_| format!("--{name} wants {wanted}, not {value:?}"))?;
                taken.numbers.insert(name.to_string(), number);
            }
        }
        Ok(taken)
    }

    /// An option's number, or what it is where it is not given.
    pub fn option(&self, name: &str, otherwise: u64) -> u64 {
        self.numbers.get(name).copied().unwrap_or(otherwise)
    }

    /// Whether a flag is given.
    pub fn flag(&self, name: &str) -> bool {
        self.flags.contains(name)
    }

    /// An option's words, each of which must be a known one.
    pub fn list(&self, name: &str, known: &[&'static str]) -> Result<Option<Vec<&'static str>>, String> {
        let Some(words) = self.lists.get(name) else {
            return Ok(None);
        };
        let find = |word: &String| known.iter().copied().find(|known| known == word);
        let named =
            |word| find(word).ok_or(format!("--{name} wants words of {}, not {word:?}", known.join(",")));
        words.iter().map(named).collect::<Result<_, _>>().map(Some)
    }

    /// The words, which must be as many as are named.
    pub fn words<const N: usize>(self, names: [&str; N]) -> Result<[String; N], String> {
        let wanted = if N == 0 { "no words".to_string() } else { names.join(" ") };
        let given = self.words.len();
        self.words.try_into().map_err(|_| format!("{wanted} wanted, {given} words given"))
    }
}
