//! What the program is asked for on its command line.

/// Guard cells on either side of every lent slice.
const GUARD_CELLS: usize = 8;

pub struct Flags {
    pub seed: u64,
    /// No history beyond the fixed list begins after so many seconds.
    pub seconds: u64,
    /// Exactly so many histories, from the first.
    pub histories: Option<u64>,
    /// This history alone.
    pub history: Option<u64>,
    /// Every step is printed before it is made.
    pub show: bool,
    /// Only the tables of damage are printed.
    pub table: bool,
    /// Guard cells; none where a memory checker is to see the very edges of what is lent.
    pub edge: usize,
    /// The fault that is put in on purpose, 0 for none.
    pub slip: usize,
}

impl Flags {
    pub fn read(words: impl Iterator<Item = String>) -> Result<Flags, String> {
        let mut flags = Flags {
            seed: 1,
            seconds: 0,
            histories: None,
            history: None,
            show: false,
            table: false,
            edge: GUARD_CELLS,
            slip: 0,
        };
        let mut words = words.skip(1);
        while let Some(word) = words.next() {
            let mut number = || {
                let value = words.next().and_then(|value| value.parse::<u64>().ok());
                value.ok_or(format!("{word} needs a number"))
            };
            match word.as_str() {
                "--seed" => flags.seed = number()?,
                "--seconds" => flags.seconds = number()?,
                "--long" => flags.seconds = 1800,
                "--histories" => flags.histories = Some(number()?),
                "--history" => flags.history = Some(number()?),
                "--show" => flags.show = true,
                "--table" => flags.table = true,
                "--no-guards" => flags.edge = 0,
                "--slip" if cfg!(feature = "slips") => flags.slip = number()? as usize,
                _ => return Err(format!("{word} is no flag")),
            }
        }
        Ok(flags)
    }
}
