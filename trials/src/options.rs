//! Numbers from the command line.

/// The numbers of `--name number` pairs, with what stands for those that are not given.
pub fn read<const N: usize>(known: [(&str, u64); N]) -> [u64; N] {
    let mut values = known.map(|(_, usual)| usual);
    let mut words = std::env::args().skip(1);
    while let Some(word) = words.next() {
        let place = known.iter().position(|&(name, _)| name == word);
        let number = words.next().and_then(|number| number.parse().ok());
        let (Some(place), Some(number)) = (place, number) else {
            let names = known.map(|(name, _)| format!("[{name} NUMBER]"));
            eprintln!("options: {}", names.join(" "));
            std::process::exit(2);
        };
        values[place] = number;
    }
    values
}
