//! The words that a program was started with: options with a number, options alone. Any other word is refused.

pub struct Words {
    numbers: Vec<(String, u64)>,
    alone: Vec<String>,
}

impl Words {
    /// Reads them; tells the usage and ends with status 0 on --help, with status 2 on a word that is none of these.
    pub fn read(usage: &str, with_number: &[&str], alone: &[&str]) -> Words {
        let mut words = Words { numbers: Vec::new(), alone: Vec::new() };
        let mut args = std::env::args().skip(1);
        while let Some(word) = args.next() {
            if word == "--help" || word == "-h" {
                println!("{usage}");
                std::process::exit(0)
            } else if alone.contains(&word.as_str()) {
                words.alone.push(word);
            } else if with_number.contains(&word.as_str()) {
                let number = args.next().unwrap_or_default();
                match number.replace([',', '_'], "").parse() {
                    Ok(value) => words.numbers.push((word, value)),
                    Err(_) => refuse(&format!("{word} takes a number, not '{number}'"), usage),
                }
            } else {
                refuse(&format!("there is no word {word}"), usage)
            }
        }
        words
    }

    pub fn has(&self, name: &str) -> bool {
        self.alone.iter().any(|word| word == name)
    }

    pub fn number(&self, name: &str) -> Option<u64> {
        self.numbers.iter().find(|(word, _)| word == name).map(|(_, value)| *value)
    }
}

fn refuse(what: &str, usage: &str) -> ! {
    eprintln!("{what}\n{usage}");
    std::process::exit(2)
}
