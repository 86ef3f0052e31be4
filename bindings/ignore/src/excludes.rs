//! Where git's global file of rules is.
//!
//! The form in which a configuration names it is that of the repository's `docs/RULES.md`, "The
//! excludes file": by its line alone, and not by git's grammar.

use std::env;
use std::fs;
use std::path::{Path, PathBuf};
use std::str::from_utf8;

/// What is known of the environment.
#[derive(Clone, Debug, Default)]
pub(crate) struct Known {
    pub current_dir: Option<PathBuf>,
    pub home: Option<PathBuf>,
    pub config_home: Option<PathBuf>,
    pub git_global: Option<PathBuf>,
    pub git_system: Option<PathBuf>,
}

impl Known {
    /// That of this process.
    pub(crate) fn of_process() -> Known {
        let filled = |name: &str| {
            let text = env::var_os(name).filter(|text| !text.is_empty());
            text.map(PathBuf::from)
        };
        Known {
            current_dir: env::current_dir().ok(),
            #[allow(deprecated)]
            home: env::home_dir().filter(|home| !home.as_os_str().is_empty()),
            config_home: filled("XDG_CONFIG_HOME"),
            git_global: filled("GIT_CONFIG_GLOBAL"),
            git_system: filled("GIT_CONFIG_SYSTEM"),
        }
    }

    /// The user's folder of configurations.
    fn user_folder(&self) -> Option<PathBuf> {
        let home = self.home.as_ref();
        self.config_home
            .clone()
            .or_else(|| home.map(|it| it.join(".config")))
    }

    /// The configurations, in the order in which they are searched.
    pub(crate) fn configs(&self) -> Vec<PathBuf> {
        let mut all = Vec::new();
        all.extend(self.git_global.clone());
        all.extend(self.home.as_ref().map(|home| home.join(".gitconfig")));
        all.extend(self.user_folder().map(|folder| folder.join("git/config")));
        let system = self.git_system.clone();
        all.push(system.unwrap_or_else(|| PathBuf::from("/etc/gitconfig")));
        all
    }

    /// The excludes file that a configuration names.
    pub(crate) fn named_in(&self, config: &[u8]) -> Option<PathBuf> {
        let value = from_utf8(value_in(config)?).ok()?;
        Some(match &self.home {
            Some(home) => PathBuf::from(value.replace('~', &home.to_string_lossy())),
            None => PathBuf::from(value),
        })
    }

    /// The excludes file where no configuration names one.
    pub(crate) fn usual(&self) -> Option<PathBuf> {
        self.user_folder().map(|folder| folder.join("git/ignore"))
    }
}

/// The path of git's global file of rules, which needn't exist.
///
/// It is what the first configuration names that names one: `GIT_CONFIG_GLOBAL`, `.gitconfig` in
/// the home, `git/config` in `XDG_CONFIG_HOME` or else in `.config` in the home, and
/// `GIT_CONFIG_SYSTEM` or else `/etc/gitconfig`. Else it is `git/ignore` in the third of these
/// folders.
pub fn gitconfig_excludes_path() -> Option<PathBuf> {
    let known = Known::of_process();
    let configs = known.configs();
    let read = configs
        .iter()
        .filter_map(|path: &PathBuf| fs::read(Path::new(path)).ok());
    let mut named = read.filter_map(|config| known.named_in(&config));
    named.next().or_else(|| known.usual())
}

fn is_space(byte: u8) -> bool {
    matches!(byte, b'\t' | b'\n' | 0x0b | 0x0c | b'\r' | b' ')
}

fn after_spaces(text: &[u8], from: usize) -> usize {
    let rest = text.iter().skip(from).take_while(|&&byte| is_space(byte));
    from + rest.count()
}

/// Whether, after white space and at most one `"`, the text or a line ends.
fn ends(text: &[u8], from: usize) -> bool {
    let mut quotes = 0;
    for &byte in &text[from..] {
        match byte {
            b'\n' => return true,
            b'"' if quotes == 0 => quotes = 1,
            byte if is_space(byte) => {}
            _ => return false,
        }
    }
    true
}

/// The shortest value that begins there.
fn value_at(text: &[u8], from: usize) -> Option<&[u8]> {
    let rest = text[from..].iter().take_while(|&&byte| !is_space(byte));
    let longest = from + rest.count();
    let end = (from + 1..=longest).find(|&end| ends(text, end))?;
    Some(&text[from..end])
}

/// The value of `excludesfile` in a configuration.
fn value_in(text: &[u8]) -> Option<&[u8]> {
    const KEY: &[u8] = b"excludesfile";
    let starts = text.iter().enumerate().filter(|(_, &byte)| byte == b'\n');
    let starts = std::iter::once(0).chain(starts.map(|(at, _)| at + 1));
    for start in starts {
        let key = after_spaces(text, start);
        let Some(found) = text.get(key..key + KEY.len()) else {
            continue;
        };
        if !found.eq_ignore_ascii_case(KEY) {
            continue;
        }
        let sign = after_spaces(text, key + KEY.len());
        if text.get(sign) != Some(&b'=') {
            continue;
        }
        let value = after_spaces(text, sign + 1);
        let quoted = match text.get(value) {
            Some(b'"') => value_at(text, after_spaces(text, value + 1)),
            _ => None,
        };
        if let Some(value) = quoted.or_else(|| value_at(text, value)) {
            return Some(value);
        }
    }
    None
}

#[cfg(test)]
mod tests {
    use super::value_in;

    #[test]
    fn a_configuration_names_a_file_in_this_form() {
        let rows: [(&str, Option<&str>); 12] = [
            ("excludesfile = /x", Some("/x")),
            ("[core]\n\tEXCLUDESFILE =\n/x\n", Some("/x")),
            ("excludesfile = \" /x \"", Some("/x")),
            ("excludesfile = \"/x", Some("/x")),
            ("excludesfile = \"", Some("\"")),
            ("excludesfile = \"\"\"", Some("\"")),
            ("excludesfile = /x y", None),
            ("excludesfile = \" \"/x \" \"", None),
            ("my.excludesfile = /x", None),
            ("excludesfile = /x y\nexcludesfile=/z", Some("/z")),
            ("excludesfile =\n[user]\n", Some("[user]")),
            ("excludesfile =", None),
        ];
        for (config, value) in rows {
            assert_eq!(
                value_in(config.as_bytes()),
                value.map(str::as_bytes),
                "{config}"
            );
        }
    }
}
