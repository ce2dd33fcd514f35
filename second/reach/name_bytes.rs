//! The bytes of names (document 02, K3): which values stood in the names and paths that calls were given, and in
//! stored names.

use crate::spelling::volumes;
use second::names::{bad_name, bad_path, components, LONGEST_NAME};
use second::player::Player;
use second::script::Argument;
use second::volume::{Volume, NAME_LENGTH_AT};
use std::collections::BTreeSet;

/// A situation, and the values that must occur in it.
type Wanted = (&'static str, fn(u8) -> bool);

const WANTED: [Wanted; 6] = [
    (NAME_TAKEN, |byte| byte != 0 && byte != b'/'),
    (NAME_REFUSED, |byte| byte == 0 || byte == b'/'),
    (PATH_TAKEN, |byte| byte != 0 && byte != b'/'),
    (PATH_REFUSED, |byte| byte == 0),
    (IN_SERVER, |byte| byte == 0 || byte == b'/'),
    (IN_VIEW, |byte| byte == 0 || byte == b'/'),
];
const NAME_TAKEN: &str = "in a name of a call, not refused with 5";
const NAME_REFUSED: &str = "in a name of a call, refused with 5";
const PATH_TAKEN: &str = "in a path's component, not refused with 5";
const PATH_REFUSED: &str = "in a path's component, refused with 5";
const IN_SERVER: &str = "in a stored name of the server, refused with 2";
const IN_VIEW: &str = "in a stored name of the view, refused with 2";

#[derive(Default)]
pub struct NameBytes(BTreeSet<(&'static str, u8)>);

impl NameBytes {
    /// Notes a call with what stood before it.
    pub fn note(&mut self, name: &str, arguments: &[Argument], code: u64, before: &Player) {
        let Some((server, view)) = volumes(before) else { return };
        if code == 2 {
            self.add(IN_SERVER, &stored(&server));
        }
        // Mount does not look at the view.
        if code == 2 && name != "mount" {
            self.add(IN_VIEW, &stored(&view));
        }
        // Below 5 no text was looked at.
        if (1..5).contains(&code) {
            return;
        }
        match (name, arguments) {
            ("create" | "mkdir" | "rmfile" | "rmdir" | "rename", _) => {
                self.note_texts(&texts(arguments), code, NAME_TAKEN, NAME_REFUSED)
            }
            ("lookup", [_, Argument::Bytes(path)]) if !bad_path(path) => {
                self.note_texts(&come_to(&view, path), code, PATH_TAKEN, PATH_REFUSED)
            }
            _ => (),
        }
    }

    /// Notes the bytes of texts that were looked at; of refused ones only a byte that is all that is bad in them.
    fn note_texts(&mut self, texts: &[&[u8]], code: u64, taken: &'static str, refused: &'static str) {
        let mut bytes = texts.concat();
        if code == 5 {
            bytes.retain(|&byte| at_fault(texts, byte));
        }
        self.add(if code == 5 { refused } else { taken }, &bytes);
    }

    fn add(&mut self, what: &'static str, bytes: &[u8]) {
        self.0.extend(bytes.iter().map(|&byte| (what, byte)));
    }

    /// The values that must occur in a situation, those that did and those that did not.
    fn parted(&self, what: &'static str, wanted: fn(u8) -> bool) -> (Vec<u8>, Vec<u8>) {
        (0..=255).filter(|&byte| wanted(byte)).partition(|&byte| self.0.contains(&(what, byte)))
    }

    pub fn table(&self) -> String {
        let mut text = String::from("bytes of names\n");
        for (what, wanted) in WANTED {
            let (seen, missing) = self.parted(what, wanted);
            text += &format!("  {what}: {} of {}\n", seen.len(), seen.len() + missing.len());
        }
        text
    }

    pub fn missing(&self) -> Vec<String> {
        let missing = WANTED.iter().map(|(what, wanted)| (what, self.parted(what, *wanted).1));
        missing.filter(|(_, bytes)| !bytes.is_empty()).map(|(what, bytes)| format!("bytes {what}: {bytes:?}")).collect()
    }
}

/// The names that a call is given.
fn texts(arguments: &[Argument]) -> Vec<&[u8]> {
    let words = arguments.iter();
    words.filter_map(|word| if let Argument::Bytes(text) = word { Some(text.as_slice()) } else { None }).collect()
}

/// The components that a lookup comes to: those that are found, and the next one.
fn come_to<'a>(view: &Volume<&[u8]>, path: &'a [u8]) -> Vec<&'a [u8]> {
    let mut place = Some(0);
    let next = |component| {
        place = view.seek(place?, component);
        Some(component)
    };
    components(path).into_iter().map_while(next).collect()
}

/// Whether a byte is all that is bad in some texts.
fn at_fault(texts: &[&[u8]], byte: u8) -> bool {
    let mended = |text: &[u8]| text.iter().map(|&own| if own == byte { b'x' } else { own }).collect::<Vec<u8>>();
    !texts.iter().any(|text| bad_name(&mended(text)))
}

/// The bytes of all names in a volume.
fn stored(volume: &Volume<&[u8]>) -> Vec<u8> {
    let named =
        |&object: &usize| !volume.is_free(object) && volume.entry(object)[NAME_LENGTH_AT] as usize <= LONGEST_NAME;
    (1..volume.geometry.n).filter(named).flat_map(|object| volume.name(object).to_vec()).collect()
}
