//! A host of plugins that others made: `host CALLS IMAGE GRAPH ..`
//!
//! CALLS are the numbers of the system calls that the host allows, as 63,64,93. Of each plugin it tells why it is not admitted, or what
//! is mapped of it. Status 0 says that all are admitted, 1 that one is not, 2 that the words are wrong. Each file is read once, into
//! memory of the host, and the plugin's memory is made of the bytes that were verified. Nothing is run.

use rvcfi::{Accepted, Part, Rejection};
use std::fmt::{self, Display, Formatter};
use std::ops::Range;
use std::path::Path;
use std::process::ExitCode;
use std::{env, fs, io};

/// Why a plugin is not admitted.
enum Refusal {
    Unread(String, io::Error),
    Rejected(Rejection),
    NoList,
    NotAllowed(u16),
}

impl Display for Refusal {
    fn fmt(&self, f: &mut Formatter<'_>) -> fmt::Result {
        match self {
            Refusal::Unread(name, error) => write!(f, "read fault {name} ({error})"),
            Refusal::Rejected(rejection) => rejection.fmt(f),
            Refusal::NoList => write!(f, "not this list: the graph lists no system calls"),
            Refusal::NotAllowed(number) => write!(f, "not this list: {number} is not allowed"),
        }
    }
}

/// A plugin's memory, as its first hart finds it. Data hold zeros behind the image's part up to the end of their region.
struct Plugin {
    code: Vec<u8>,
    data: Vec<u8>,
    shadow: Vec<u8>,
    data_region: Range<u64>,
    entry: u64,
}

/// A region that holds a part at its place, and zeros.
fn region(addresses: &Range<u64>, part: Part<'_>) -> Vec<u8> {
    let mut bytes = vec![0; (addresses.end - addresses.start) as usize];
    let at = (part.address - addresses.start) as usize;
    bytes[at..at + part.bytes.len()].copy_from_slice(part.bytes);
    bytes
}

impl Plugin {
    fn of(accepted: &Accepted<'_>) -> Plugin {
        let shadow = accepted.shadow_region();
        Plugin {
            code: region(&accepted.code_region(), accepted.code()),
            data: region(&accepted.data_region(), accepted.data()),
            shadow: vec![0; (shadow.end - shadow.start) as usize],
            data_region: accepted.data_region(),
            entry: accepted.entry(),
        }
    }
}

fn read(name: &str) -> Result<Vec<u8>, Refusal> {
    fs::read(name).map_err(|error| Refusal::Unread(name.to_string(), error))
}

/// Whether the list of an image has no number but those that are allowed.
fn is_listed(accepted: &Accepted<'_>, allowed: &[u16]) -> Result<(), Refusal> {
    let calls = accepted.calls().ok_or(Refusal::NoList)?;
    match calls.iter().find(|call| !allowed.contains(call)) {
        Some(&call) => Err(Refusal::NotAllowed(call)),
        None => Ok(()),
    }
}

/// A plugin that is accepted and makes no system calls but those that are allowed.
fn admitted(allowed: &[u16], image: &str, graph: &str) -> Result<Plugin, Refusal> {
    let (image, graph) = (read(image)?, read(graph)?);
    let accepted = rvcfi::verify(&image, &graph).map_err(Refusal::Rejected)?;
    is_listed(&accepted, allowed)?;
    Ok(Plugin::of(&accepted))
}

/// Tells of a plugin, by its file's name, whether it is admitted.
fn tell(allowed: &[u16], image: &str, graph: &str) -> bool {
    let name = Path::new(image).file_name().unwrap_or_default();
    let name = name.to_string_lossy();
    match admitted(allowed, image, graph) {
        Ok(plugin) => {
            println!(
                "{name}: accepted, code {} data {} shadow {} bytes, data end at {:08x}, starts at {:08x}",
                plugin.code.len(),
                plugin.data.len(),
                plugin.shadow.len(),
                plugin.data_region.end,
                plugin.entry
            );
            true
        }
        Err(refusal) => {
            println!("{name}: {refusal}");
            false
        }
    }
}

/// The numbers that the host allows, and the files of the plugins, two of each.
fn words_of(words: &[String]) -> Option<(Vec<u16>, &[String])> {
    let (calls, plugins) = words.split_first()?;
    let allowed = calls.split(',').map(str::parse).collect::<Result<_, _>>();
    let is_right = !plugins.is_empty() && plugins.len() % 2 == 0;
    allowed.ok().filter(|_| is_right).map(|it| (it, plugins))
}

fn main() -> ExitCode {
    let words: Vec<String> = env::args().skip(1).collect();
    let Some((allowed, plugins)) = words_of(&words) else {
        println!("usage: host CALLS IMAGE GRAPH ..");
        return ExitCode::from(2);
    };
    let refused = plugins
        .chunks(2)
        .filter(|pair| !tell(&allowed, &pair[0], &pair[1]))
        .count();
    ExitCode::from(u8::from(refused > 0))
}
