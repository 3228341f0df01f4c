//! What the program says of itself.

/// The program's name and version.
pub const VERSION: &str = concat!("captions ", env!("CARGO_PKG_VERSION"), "\n");

/// All subcommands, in few words.
pub const HELP: &str = include_str!("help/captions.txt");

/// The least that is said where nothing is asked.
pub const USAGE: &str = "\
no subcommand is given

    captions make TEXT -o SHOW.store
    captions check FILE..
    captions repair FILE -o NEW
    captions show FILE [N]
    captions change FILE N TEXT
    captions wear FILE..
    captions forecast FILE
    captions hurt FILE -o NEW --bits N

captions --help explains";

#[cfg(test)]
mod tests {
    use super::*;
    use crate::SUBCOMMANDS;

    #[test]
    fn every_subcommand_is_explained() {
        for subcommand in SUBCOMMANDS {
            let (form, help) = (subcommand.form, subcommand.help);
            let name = format!("captions {}", form.name);
            assert!(HELP.contains(&name) && USAGE.contains(&name), "{name}");
            assert!(help.starts_with(&format!("{name}: ")), "{name}");
            for part in ["Exit status", "Examples"] {
                assert!(help.contains(part), "{name}: {part}");
            }
            for switch in form.switches {
                let short = switch.short.unwrap_or(switch.long);
                assert!(help.contains(switch.long) && help.contains(short), "{name}");
            }
        }
    }

    #[test]
    fn lines_fit_a_terminal() {
        let texts = SUBCOMMANDS.iter().map(|subcommand| subcommand.help);
        for text in texts.chain([HELP, USAGE]) {
            let long = text.lines().find(|line| line.chars().count() > 80);
            assert_eq!(long, None);
        }
    }
}
