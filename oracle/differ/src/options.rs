//! Options of the form `--name NUMBER`.

/// The options that a command was given, each of which it knows.
pub struct Options<'a>(Vec<(&'a str, u64)>);

impl<'a> Options<'a> {
    /// Reads options; one that isn't among the known ones is a mistake.
    pub fn read(args: &[&'a str], known: &[&str]) -> Result<Options<'a>, String> {
        let mut found = Vec::new();
        for pair in args.chunks(2) {
            let name = pair[0];
            if !known.contains(&name) {
                return Err(format!("no option {name}; there are: {}", known.join(" ")));
            }
            let value = pair
                .get(1)
                .ok_or_else(|| format!("{name} lacks a number"))?;
            let number = value.parse::<u64>();
            found.push((
                name,
                number.map_err(|why| format!("{name} {value}: {why}"))?,
            ));
        }
        Ok(Options(found))
    }

    pub fn get(&self, name: &str) -> Option<u64> {
        let given = self.0.iter().find(|(known, _)| *known == name);
        given.map(|(_, number)| *number)
    }

    pub fn need(&self, name: &str) -> Result<u64, String> {
        self.get(name).ok_or_else(|| format!("{name} is missing"))
    }
}
