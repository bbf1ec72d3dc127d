// One text, the way it is handed over, and what is known beforehand of the answer. A trial is held
// to the second program, and both to what is known.

use crate::child;
use crate::dice::Dice;
use crate::wanted;
use crate::way::Way;

#[derive(Clone)]
enum Known {
    Nothing,
    Whole(String),
    End(String),
}

#[derive(Clone)]
pub struct Trial {
    text: Vec<u8>,
    way: Way,
    known: Known,
    what: String,
}

pub struct Held {
    pub wanted: String,
    pub fault: Option<String>,
    pub hung: bool,
}

impl Trial {
    pub fn new(text: impl Into<Vec<u8>>, way: Way) -> Trial {
        Trial {
            text: text.into(),
            way,
            known: Known::Nothing,
            what: String::new(),
        }
    }

    pub fn any_way(text: impl Into<Vec<u8>>, dice: &mut Dice) -> Trial {
        let text = text.into();
        let way = Way::any(dice, text.len());
        Trial::new(text, way)
    }

    // The whole output is known.
    pub fn says(mut self, output: &str) -> Trial {
        self.known = Known::Whole(output.to_string());
        self
    }

    // The output's end is known.
    pub fn ends(mut self, output: &str) -> Trial {
        self.known = Known::End(output.to_string());
        self
    }

    pub fn about(mut self, what: &str) -> Trial {
        self.what = what.to_string();
        self
    }

    pub fn hold(&self) -> Held {
        let wanted = wanted::output(&self.text);
        if let Some(told) = self.not_as_known(&wanted) {
            return Held {
                wanted,
                fault: Some(told),
                hung: false,
            };
        }
        let ended = child::run(&self.text, &self.way);
        let differs = ended.output != wanted.as_bytes();
        let fault = ended
            .fault
            .or(differs.then(|| "the output differs".to_string()));
        Held {
            fault: fault.map(|fault| self.told(&fault, &ended.output, &wanted)),
            wanted,
            hung: ended.hung,
        }
    }

    fn not_as_known(&self, wanted: &str) -> Option<String> {
        let (good, known) = match &self.known {
            Known::Nothing => return None,
            Known::Whole(known) => (known == wanted, known),
            Known::End(known) => (wanted.ends_with(known.as_str()), known),
        };
        let fault = "the second program does not say what is known";
        (!good).then(|| self.told(fault, wanted.as_bytes(), known))
    }

    fn told(&self, fault: &str, got: &[u8], wanted: &str) -> String {
        let bytes = self.text.len();
        let mut told = format!("{fault}\n  {} {:?}, {bytes} bytes:\n", self.what, self.way);
        told += &format!("{}\n", cut(&self.text, 500));
        let mut got_lines = got.split_inclusive(|&byte| byte == b'\n');
        let mut lines = wanted.split_inclusive('\n');
        let mut number = 1;
        loop {
            let (got, wanted) = (got_lines.next(), lines.next());
            if got != wanted.map(str::as_bytes) || wanted.is_none() {
                let show =
                    |line: Option<&[u8]>| line.map_or("nothing".to_string(), |line| cut(line, 300));
                let (got, wanted) = (show(got), show(wanted.map(str::as_bytes)));
                return told + &format!("  output line {number}, got\n{got}\n  wanted\n{wanted}");
            }
            number += 1;
        }
    }
}

fn cut(bytes: &[u8], most: usize) -> String {
    let shown = bytes[..most.min(bytes.len())].escape_ascii();
    let more = if bytes.len() > most { " ..." } else { "" };
    format!(
        "    {}{more}",
        shown.to_string().replace("\\n", "\\n\n    ").trim_end()
    )
}
