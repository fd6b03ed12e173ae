//! The words of a command line, told apart.

use crate::failure::Failure;

/// What stands behind a command's name: places of files or numbers, flags, and options with a value.
#[derive(Debug, Default)]
pub struct Words {
    pub places: Vec<String>,
    flags: Vec<String>,
    values: Vec<(String, String)>,
}

/// What a command takes.
pub struct Takes {
    pub flags: &'static [&'static str],
    pub values: &'static [&'static str],
    pub most: usize,
}

impl Words {
    pub fn parse(words: &[String], takes: &Takes) -> Result<Words, Failure> {
        let mut parsed = Words::default();
        let mut rest = words.iter();
        while let Some(word) = rest.next() {
            if takes.flags.contains(&word.as_str()) {
                parsed.flags.push(word.clone());
            } else if takes.values.contains(&word.as_str()) {
                let value = rest.next().ok_or_else(|| Failure::Use(format!("{word} needs a word behind it")))?;
                parsed.values.push((word.clone(), value.clone()));
            } else if word.starts_with('-') && word != "-" {
                return Err(Failure::Use(format!("there is no option {word} here")));
            } else {
                parsed.places.push(word.clone());
            }
        }
        match parsed.places.get(takes.most) {
            Some(word) => Err(Failure::Use(format!("there is one word too many: {word}"))),
            None => Ok(parsed),
        }
    }

    pub fn has(&self, flag: &str) -> bool {
        self.flags.iter().any(|given| given == flag)
    }

    pub fn value(&self, option: &str) -> Option<&str> {
        self.values.iter().rev().find(|(name, _)| name == option).map(|(_, value)| value.as_str())
    }

    /// The place of a number, or none if the word is missing.
    pub fn place(&self, number: usize) -> Option<&str> {
        self.places.get(number).map(String::as_str)
    }
}

/// A word that must be a number.
pub fn number<T: std::str::FromStr>(word: &str) -> Result<T, Failure> {
    word.parse().map_err(|_| Failure::Use(format!("{word} is not a number that fits here")))
}

#[cfg(test)]
mod tests {
    use super::*;

    const TAKES: Takes = Takes { flags: &["--strict"], values: &["--source"], most: 1 };

    fn parsed(line: &str) -> Result<Words, Failure> {
        let words: Vec<String> = line.split_whitespace().map(str::to_owned).collect();
        Words::parse(&words, &TAKES)
    }

    #[test]
    fn words_are_told_apart() {
        let words = parsed("--source a.ref x.image --strict").expect("right words");
        assert_eq!(
            (words.place(0), words.value("--source"), words.has("--strict")),
            (Some("x.image"), Some("a.ref"), true)
        );
    }

    #[test]
    fn wrong_words_are_named() {
        for (line, named) in [("--nope", "--nope"), ("a b", "b"), ("--source", "--source")] {
            let Err(Failure::Use(words)) = parsed(line) else {
                panic!("{line} was taken");
            };
            assert!(words.contains(named), "{words}");
        }
    }
}
