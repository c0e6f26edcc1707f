//! The tape of a story. A story has the manifests, each after a line `manifest` with its place from 0, then one action
//! a line; `#` begins a comment. `LINES` has every form of a line.

use sheets::manifest::{
    Component, Define, Manifest, Resource, ACTIVITY, DANGEROUS, MOST_COMPONENTS, MOST_DEFINES, MOST_RESOURCES,
    MOST_USES, NORMAL, PROVIDER, RECEIVER, SERVICE, SIGNATURE, SIGNATURE_OR_SYSTEM,
};
use sheets::tape::{code, Action, Tape, BOTH, MOST_ACTIONS, MOST_MANIFESTS, MOST_MANIFEST_BYTES, READ, WRITE};
use std::ops::RangeInclusive;
use std::str::FromStr;

/// Every form of a line by its first word. Words in capitals stand for numbers, those in brackets may be left out.
pub const LINES: &[(&str, &str)] = &[
    ("manifest", "manifest PLACE"),
    ("bytes", "bytes HEX .."),
    ("app", "app APP signer SIGNER"),
    ("uses", "uses PERMISSION .."),
    ("defines", "defines PERMISSION normal|dangerous group GROUP|signature|signature/system"),
    ("activity", "activity COMPONENT [exported] [start PERMISSION]"),
    ("service", "service COMPONENT [exported] [start PERMISSION]"),
    ("receiver", "receiver COMPONENT [exported] [start PERMISSION]"),
    ("provider", "provider COMPONENT [exported] [shares] [read PERMISSION] [write PERMISSION]"),
    ("resource", "resource provider COMPONENT uri URI first VALUE"),
    ("install", "install manifest PLACE [as image]"),
    ("uninstall", "uninstall app APP"),
    ("grant", "grant permission PERMISSION to app APP, or grant group GROUP to app APP"),
    ("revoke", "revoke permission PERMISSION from app APP, or revoke group GROUP from app APP"),
    ("start", "start component COMPONENT by the person, or .. by instance INSTANCE"),
    ("stop", "stop instance INSTANCE"),
    ("read", "read provider COMPONENT uri URI by instance INSTANCE"),
    ("write", "write VALUE to provider COMPONENT uri URI by instance INSTANCE"),
    ("lend", "lend read|write|both of provider COMPONENT uri URI by instance INSTANCE to instance|app NUMBER"),
    ("withdraw", "withdraw read|write|both of provider COMPONENT uri URI by instance INSTANCE"),
    ("ask", "ask whether app APP holds permission PERMISSION"),
    ("record", "record and twelve bytes HEX"),
];

/// The tape of the story, or the line that is wrong and what was expected there.
pub fn pack(story: &str) -> Result<Tape, (usize, String)> {
    let mut reader = Reader::default();
    let mut last = 0;
    for (number, line) in (1..).zip(story.lines()) {
        let line = line.split('#').next().unwrap_or("");
        let words: Vec<&str> = line.split_whitespace().collect();
        if !words.is_empty() {
            reader.line(&words).map_err(|reason| (number, reason))?;
        }
        last = number;
    }
    reader.end_manifest().map_err(|reason| (last, reason))?;
    Ok(reader.tape)
}

#[derive(Default)]
struct Reader {
    tape: Tape,
    open: Open,
}

/// The manifest whose lines are being read.
#[derive(Default)]
enum Open {
    #[default]
    None,
    Begun,
    Bytes(Vec<u8>),
    Manifest(Manifest),
}

type Read<T> = Result<T, String>;

fn expected<T>(what: impl std::fmt::Display) -> Read<T> {
    Err(format!("expected {what}"))
}

/// The form that a line with this first word has.
fn expected_form<T>(words: &[&str]) -> Read<T> {
    match LINES.iter().find(|(first, _)| *first == words[0]) {
        Some((_, form)) => expected(format!("`{form}`")),
        None => {
            let first: Vec<&str> = LINES.iter().map(|(first, _)| *first).collect();
            expected(format!("a line that begins with one of: {}; not `{}`", first.join(" "), words[0]))
        }
    }
}

impl Reader {
    fn line(&mut self, words: &[&str]) -> Read<()> {
        match words[0] {
            "manifest" => self.begin_manifest(words),
            "bytes" => self.bytes(&words[1..]),
            "app" => self.app(words),
            "uses" | "defines" | "activity" | "service" | "receiver" | "provider" | "resource" => {
                match &mut self.open {
                    Open::Manifest(manifest) => entry(manifest, words),
                    _ => expected("this line after `app APP signer SIGNER` in a manifest"),
                }
            }
            _ => self.action(words),
        }
    }

    fn begin_manifest(&mut self, words: &[&str]) -> Read<()> {
        let [_, place] = words else { return expected_form(words) };
        self.end_manifest()?;
        if !self.tape.actions.is_empty() {
            return expected("every manifest before the first action");
        }
        let next = self.tape.manifests.len();
        if next == MOST_MANIFESTS {
            return expected(format!("at most {MOST_MANIFESTS} manifests"));
        }
        if number(place, 0..=31, "a manifest's place")? != next {
            return expected(format!("`manifest {next}`: places count from 0"));
        }
        self.open = Open::Begun;
        Ok(())
    }

    fn end_manifest(&mut self) -> Read<()> {
        match std::mem::take(&mut self.open) {
            Open::None => {}
            Open::Begun => return expected("`app APP signer SIGNER` or `bytes HEX ..` in the manifest that ends here"),
            Open::Bytes(bytes) => self.tape.manifests.push(bytes),
            Open::Manifest(manifest) => self.tape.manifests.push(manifest.bytes()),
        }
        Ok(())
    }

    fn bytes(&mut self, words: &[&str]) -> Read<()> {
        let mut bytes = match std::mem::take(&mut self.open) {
            Open::Begun => Vec::new(),
            Open::Bytes(bytes) => bytes,
            _ => return expected("`bytes` after `manifest PLACE`, or after other bytes"),
        };
        bytes.extend(hex(words)?);
        if bytes.len() > MOST_MANIFEST_BYTES {
            return expected(format!("at most {MOST_MANIFEST_BYTES} bytes"));
        }
        self.open = Open::Bytes(bytes);
        Ok(())
    }

    fn app(&mut self, words: &[&str]) -> Read<()> {
        let [_, app, "signer", signer] = words else { return expected_form(words) };
        if !matches!(self.open, Open::Begun) {
            return expected("`app` after `manifest PLACE`");
        }
        let app = number(app, 1..=u16::MAX, "an app")?;
        let signer = number(signer, 1..=u32::MAX, "a signer")?;
        self.open = Open::Manifest(Manifest { app, signer, ..Manifest::default() });
        Ok(())
    }

    fn action(&mut self, words: &[&str]) -> Read<()> {
        self.end_manifest()?;
        if self.tape.actions.len() == MOST_ACTIONS {
            return expected(format!("at most {MOST_ACTIONS} actions"));
        }
        self.tape.actions.push(action(words)?);
        Ok(())
    }
}

fn entry(manifest: &mut Manifest, words: &[&str]) -> Read<()> {
    match words[0] {
        "uses" => words[1..].iter().try_for_each(|word| {
            let permission = number(word, 1..=63, "a permission")?;
            push(&mut manifest.uses, permission, |&permission| permission, MOST_USES)
        }),
        "defines" => push(&mut manifest.defines, define(words)?, |define| define.permission, MOST_DEFINES),
        "resource" => {
            let resource = resource(words)?;
            if !manifest.has_provider(resource.provider) {
                return expected(format!("a line `provider {}` before its resource", resource.provider));
            }
            push(&mut manifest.resources, resource, |r| (r.provider, r.uri), MOST_RESOURCES)
        }
        _ => push(&mut manifest.components, component(words)?, |component| component.number, MOST_COMPONENTS),
    }
}

/// Adds an entry to its section, where it rises above the one before and has room.
fn push<T, K: PartialOrd>(section: &mut Vec<T>, entry: T, key: fn(&T) -> K, most: usize) -> Read<()> {
    if section.len() == most {
        return expected(format!("at most {most} entries in the section"));
    }
    if section.last().is_some_and(|last| key(last) >= key(&entry)) {
        return expected("entries that rise strictly in their section");
    }
    section.push(entry);
    Ok(())
}

fn define(words: &[&str]) -> Read<Define> {
    let (level, group) = match words[1..] {
        [_, "normal"] => (NORMAL, 0),
        [_, "dangerous", "group", group] => (DANGEROUS, number(group, 0..=15, "a group")?),
        [_, "signature"] => (SIGNATURE, 0),
        [_, "signature/system"] => (SIGNATURE_OR_SYSTEM, 0),
        _ => return expected_form(words),
    };
    Ok(Define { permission: number(words[1], 16..=63, "a defined permission")?, level, group })
}

fn component(words: &[&str]) -> Read<Component> {
    let kind = match words[0] {
        "activity" => ACTIVITY,
        "service" => SERVICE,
        "receiver" => RECEIVER,
        _ => PROVIDER,
    };
    let [_, own, rest @ ..] = words else { return expected_form(words) };
    let mut rest = rest;
    let mut component = Component { number: number(own, 1..=u16::MAX, "a component")?, kind, ..Component::default() };
    component.exported = flag(&mut rest, "exported").into();
    if kind == PROVIDER {
        component.shares = flag(&mut rest, "shares").into();
        component.read = needed(&mut rest, "read")?;
        component.write = needed(&mut rest, "write")?;
    } else {
        component.start = needed(&mut rest, "start")?;
    }
    if rest.is_empty() {
        Ok(component)
    } else {
        expected_form(words)
    }
}

/// Whether the word comes next; it is passed if so.
fn flag(rest: &mut &[&str], word: &str) -> bool {
    let found = rest.first() == Some(&word);
    *rest = &rest[usize::from(found)..];
    found
}

/// The permission after the word, if the word comes next, otherwise 0: none is needed.
fn needed(rest: &mut &[&str], word: &str) -> Read<u8> {
    if !flag(rest, word) {
        return Ok(0);
    }
    let Some((permission, tail)) = rest.split_first() else { return expected(format!("a permission after `{word}`")) };
    *rest = tail;
    number(permission, 0..=63, "a permission")
}

fn resource(words: &[&str]) -> Read<Resource> {
    let [_, "provider", provider, "uri", uri, "first", first] = words else { return expected_form(words) };
    Ok(Resource {
        provider: number(provider, 1..=u16::MAX, "a provider")?,
        uri: number(uri, 1..=u16::MAX, "a URI")?,
        first: number(first, 0..=u32::MAX, "a first value")?,
    })
}

fn action(words: &[&str]) -> Read<Action> {
    let of = |code| Action { code, ..Action::default() };
    Ok(match *words {
        ["install", "manifest", place] => Action { b: u16_in(place, "a place")?, ..of(code::INSTALL) },
        ["install", "manifest", place, "as", "image"] => {
            Action { a: 1, b: u16_in(place, "a place")?, ..of(code::INSTALL) }
        }
        ["uninstall", "app", app] => Action { b: u16_in(app, "an app")?, ..of(code::UNINSTALL) },
        ["grant", what, number, "to", "app", app] => grant(words, [code::GRANT, code::GRANT_GROUP], what, number, app)?,
        ["revoke", what, number, "from", "app", app] => {
            grant(words, [code::REVOKE, code::REVOKE_GROUP], what, number, app)?
        }
        ["start", "component", component, "by", "the", "person"] => {
            Action { b: u16_in(component, "a component")?, ..of(code::START) }
        }
        ["start", "component", component, "by", "instance", caller] => {
            let c = number(caller, 1..=u16::MAX, "a calling instance")?;
            Action { b: u16_in(component, "a component")?, c, ..of(code::START) }
        }
        ["stop", "instance", instance] => Action { c: u16_in(instance, "an instance")?, ..of(code::STOP) },
        ["read", ref on @ ..] => on_resource(words, on, of(code::READ))?,
        ["write", value, "to", ref on @ ..] => {
            let e = number(value, 0..=u32::MAX, "a value")?;
            on_resource(words, on, Action { e, ..of(code::WRITE) })?
        }
        ["lend", operations, "of", ref on @ .., "to", kind, receiver] => lend(words, operations, on, kind, receiver)?,
        ["withdraw", asked, "of", ref on @ ..] => {
            let a = operations(words, asked)?;
            on_resource(words, on, Action { a, ..of(code::WITHDRAW) })?
        }
        ["ask", "whether", "app", app, "holds", "permission", permission] => {
            Action { b: u16_in(app, "an app")?, c: u16_in(permission, "a permission")?, ..of(code::ASK) }
        }
        ["record", ref bytes @ ..] => match <[u8; 12]>::try_from(hex(bytes)?) {
            Ok(record) => Action::read(record),
            Err(bytes) => return expected(format!("twelve bytes, not {}", bytes.len())),
        },
        _ => return expected_form(words),
    })
}

fn grant(words: &[&str], [single, of_group]: [u8; 2], what: &str, number: &str, app: &str) -> Read<Action> {
    let (code, name) = match what {
        "permission" => (single, "a permission"),
        "group" => (of_group, "a group"),
        _ => return expected_form(words),
    };
    Ok(Action { code, b: u16_in(app, "an app")?, c: u16_in(number, name)?, ..Action::default() })
}

/// The action with the fields of `provider B uri D by instance C`.
fn on_resource(words: &[&str], on: &[&str], action: Action) -> Read<Action> {
    let ["provider", provider, "uri", uri, "by", "instance", instance] = on else { return expected_form(words) };
    let (b, d) = (u16_in(provider, "a provider")?, u16_in(uri, "a URI")?);
    Ok(Action { b, c: u16_in(instance, "an instance")?, d, ..action })
}

fn lend(words: &[&str], asked: &str, on: &[&str], kind: &str, receiver: &str) -> Read<Action> {
    let code = match kind {
        "instance" => code::LEND_TO_INSTANCE,
        "app" => code::LEND_TO_APP,
        _ => return expected_form(words),
    };
    let a = operations(words, asked)?;
    let e = number(receiver, 0..=u32::MAX, "a receiver")?;
    on_resource(words, on, Action { code, a, e, ..Action::default() })
}

fn operations(words: &[&str], asked: &str) -> Read<u8> {
    match asked {
        "read" => Ok(READ),
        "write" => Ok(WRITE),
        "both" => Ok(BOTH),
        _ => expected_form(words),
    }
}

fn u16_in(word: &str, what: &str) -> Read<u16> {
    number(word, 0..=u16::MAX, what)
}

fn number<N: FromStr + PartialOrd + std::fmt::Display>(word: &str, range: RangeInclusive<N>, what: &str) -> Read<N> {
    let is_decimal = word.bytes().all(|byte| byte.is_ascii_digit());
    match word.parse() {
        Ok(number) if is_decimal && range.contains(&number) => Ok(number),
        _ => expected(format!("{what}, {} to {}, not `{word}`", range.start(), range.end())),
    }
}

fn hex(words: &[&str]) -> Read<Vec<u8>> {
    let byte = |word: &&str| match u8::from_str_radix(word, 16) {
        Ok(byte) if word.len() == 2 && !word.starts_with('+') => Ok(byte),
        _ => expected(format!("bytes of two hex digits, not `{word}`")),
    };
    words.iter().map(byte).collect()
}

#[cfg(test)]
mod tests {
    use super::*;

    fn record(line: &str) -> [u8; 12] {
        pack(line).unwrap().actions[0].bytes()
    }

    #[test]
    fn each_action_has_a_sentence() {
        let sentences: [(&str, [u8; 12]); 18] = [
            ("install manifest 3", [1, 0, 3, 0, 0, 0, 0, 0, 0, 0, 0, 0]),
            ("install manifest 3 as image", [1, 1, 3, 0, 0, 0, 0, 0, 0, 0, 0, 0]),
            ("uninstall app 258", [2, 0, 2, 1, 0, 0, 0, 0, 0, 0, 0, 0]),
            ("grant permission 5 to app 10", [3, 0, 10, 0, 5, 0, 0, 0, 0, 0, 0, 0]),
            ("revoke permission 5 from app 10", [4, 0, 10, 0, 5, 0, 0, 0, 0, 0, 0, 0]),
            ("grant group 2 to app 10", [5, 0, 10, 0, 2, 0, 0, 0, 0, 0, 0, 0]),
            ("revoke group 2 from app 10", [6, 0, 10, 0, 2, 0, 0, 0, 0, 0, 0, 0]),
            ("start component 100 by the person", [7, 0, 100, 0, 0, 0, 0, 0, 0, 0, 0, 0]),
            ("start component 100 by instance 4", [7, 0, 100, 0, 4, 0, 0, 0, 0, 0, 0, 0]),
            ("stop instance 4", [8, 0, 0, 0, 4, 0, 0, 0, 0, 0, 0, 0]),
            ("read provider 101 uri 6 by instance 4", [9, 0, 101, 0, 4, 0, 6, 0, 0, 0, 0, 0]),
            ("write 258 to provider 101 uri 6 by instance 4", [10, 0, 101, 0, 4, 0, 6, 0, 2, 1, 0, 0]),
            ("lend read of provider 101 uri 6 by instance 4 to instance 9", [11, 1, 101, 0, 4, 0, 6, 0, 9, 0, 0, 0]),
            ("lend both of provider 101 uri 6 by instance 4 to app 9", [12, 3, 101, 0, 4, 0, 6, 0, 9, 0, 0, 0]),
            ("withdraw write of provider 101 uri 6 by instance 4", [13, 2, 101, 0, 4, 0, 6, 0, 0, 0, 0, 0]),
            ("ask whether app 10 holds permission 5", [14, 0, 10, 0, 5, 0, 0, 0, 0, 0, 0, 0]),
            ("record 09 ff 00 01 02 03 04 05 06 07 08 0a", [9, 255, 0, 1, 2, 3, 4, 5, 6, 7, 8, 10]),
            ("  stop   instance 0  # nobody", [8, 0, 0, 0, 0, 0, 0, 0, 0, 0, 0, 0]),
        ];
        for (sentence, bytes) in sentences {
            assert_eq!(record(sentence), bytes, "{sentence}");
        }
    }

    #[test]
    fn each_section_has_its_lines() {
        let story = "manifest 0\n app 10 signer 5\n uses 1 3\n uses 5\n defines 20 dangerous group 2\n \
                     defines 21 signature/system\n service 7 start 3\n provider 9 exported shares write 63\n \
                     resource provider 9 uri 1 first 4294967295\n\
                     manifest 1\n bytes\nmanifest 2\n bytes 01\n bytes 02 ff";
        let tape = pack(story).unwrap();
        let good = [
            10, 0, 5, 0, 0, 0, 3, 1, 3, 5, 2, 20, 1, 2, 21, 3, 0, 2, 7, 0, 2, 0, 0, 3, 0, 0, 9, 0, 4, 1, 1, 0, 0, 63,
            1, 9, 0, 1, 0, 255, 255, 255, 255,
        ];
        assert_eq!(tape.manifests, [good.to_vec(), vec![], vec![1, 2, 255]]);
        assert!(Manifest::read(&good).is_some());
    }

    #[test]
    fn errors_name_the_line_and_what_was_expected() {
        let app = "manifest 0\napp 1 signer 1\n";
        let wrong = [
            ("fetch 1", 1, "a line that begins with one of"),
            ("\n# why\nstop 4", 3, "`stop instance INSTANCE`"),
            ("stop instance 65536", 1, "an instance, 0 to 65535, not `65536`"),
            ("start component 1 by instance 0", 1, "a calling instance, 1 to 65535"),
            ("lend all of provider 1 uri 1 by instance 1 to app 1", 1, "`lend read|write|both"),
            ("record 01 02", 1, "twelve bytes, not 2"),
            ("record 1 02", 1, "bytes of two hex digits, not `1`"),
            ("manifest 1", 1, "`manifest 0`"),
            ("manifest 0\nmanifest 1", 2, "`app APP signer SIGNER` or `bytes"),
            ("manifest 0\nstop instance 1", 2, "`app APP signer SIGNER` or `bytes"),
            ("stop instance 1\nmanifest 0", 2, "every manifest before the first action"),
            ("uses 1", 1, "after `app APP signer SIGNER`"),
            (&format!("{app}app 2 signer 1"), 3, "`app` after `manifest PLACE`"),
            (&format!("{app}uses 3 2"), 3, "rise strictly"),
            (&format!("{app}uses 64"), 3, "a permission, 1 to 63, not `64`"),
            (&format!("{app}defines 15 normal"), 3, "a defined permission, 16 to 63"),
            (&format!("{app}defines 16 normal group 1"), 3, "`defines PERMISSION normal|"),
            (&format!("{app}activity 1 shares"), 3, "`activity COMPONENT [exported]"),
            (&format!("{app}provider 1 read"), 3, "a permission after `read`"),
            (&format!("{app}resource provider 1 uri 1 first 0"), 3, "a line `provider 1` before"),
            (&format!("{app}bytes 00"), 3, "`bytes` after `manifest PLACE`"),
        ];
        for (story, line, what) in wrong {
            let (number, reason) = pack(story).unwrap_err();
            assert!(number == line && reason.starts_with("expected ") && reason.contains(what), "{story}: {reason}");
        }
    }
}
