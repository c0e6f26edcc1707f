//! The story of a tape. Every good tape has one: what no sentence says is written as bytes.

use sheets::manifest::{
    Component, Define, Manifest, ACTIVITY, DANGEROUS, NORMAL, PROVIDER, RECEIVER, SERVICE, SIGNATURE,
};
use sheets::rules::is_well_formed;
use sheets::tape::{code, Action, Tape, READ, WRITE};

/// Bytes of a manifest on one line of a story.
const BYTES_A_LINE: usize = 32;

pub fn show(tape: &Tape) -> String {
    let mut lines = Vec::new();
    for (place, bytes) in tape.manifests.iter().enumerate() {
        lines.push(format!("manifest {place}"));
        let entries = Manifest::read(bytes).map_or_else(|| byte_lines(bytes), |manifest| entries(&manifest));
        lines.extend(entries.into_iter().map(|entry| format!("  {entry}")));
        lines.push(String::new());
    }
    lines.extend(tape.actions.iter().map(sentence));
    lines.into_iter().map(|line| line + "\n").collect()
}

/// The action by name with its fields, or its bytes where it is malformed.
pub fn sentence(action: &Action) -> String {
    let &Action { code, a, b, c, d, e } = action;
    if !is_well_formed(action) {
        return format!("record {}", hex(&action.bytes()));
    }
    let on = format!("provider {b} uri {d} by instance {c}");
    match code {
        code::INSTALL if a == 1 => format!("install manifest {b} as image"),
        code::INSTALL => format!("install manifest {b}"),
        code::UNINSTALL => format!("uninstall app {b}"),
        code::GRANT => format!("grant permission {c} to app {b}"),
        code::REVOKE => format!("revoke permission {c} from app {b}"),
        code::GRANT_GROUP => format!("grant group {c} to app {b}"),
        code::REVOKE_GROUP => format!("revoke group {c} from app {b}"),
        code::START if c == 0 => format!("start component {b} by the person"),
        code::START => format!("start component {b} by instance {c}"),
        code::STOP => format!("stop instance {c}"),
        code::READ => format!("read {on}"),
        code::WRITE => format!("write {e} to {on}"),
        code::LEND_TO_INSTANCE => format!("lend {} of {on} to instance {e}", operations(a)),
        code::LEND_TO_APP => format!("lend {} of {on} to app {e}", operations(a)),
        code::WITHDRAW => format!("withdraw {} of {on}", operations(a)),
        _ => format!("ask whether app {b} holds permission {c}"),
    }
}

fn operations(a: u8) -> &'static str {
    match a {
        READ => "read",
        WRITE => "write",
        _ => "both",
    }
}

fn entries(manifest: &Manifest) -> Vec<String> {
    let mut lines = vec![format!("app {} signer {}", manifest.app, manifest.signer)];
    if !manifest.uses.is_empty() {
        let uses: Vec<String> = manifest.uses.iter().map(u8::to_string).collect();
        lines.push(format!("uses {}", uses.join(" ")));
    }
    lines.extend(manifest.defines.iter().map(define));
    lines.extend(manifest.components.iter().map(component));
    let resources = manifest.resources.iter();
    lines.extend(resources.map(|r| format!("resource provider {} uri {} first {}", r.provider, r.uri, r.first)));
    lines
}

fn define(define: &Define) -> String {
    let level = match define.level {
        NORMAL => "normal".to_string(),
        DANGEROUS => format!("dangerous group {}", define.group),
        SIGNATURE => "signature".to_string(),
        _ => "signature/system".to_string(),
    };
    format!("defines {} {level}", define.permission)
}

fn component(component: &Component) -> String {
    let kind = match component.kind {
        ACTIVITY => "activity",
        SERVICE => "service",
        RECEIVER => "receiver",
        _ => "provider",
    };
    let exported = if component.exported == 1 { " exported" } else { "" };
    let shares = if component.shares == 1 { " shares" } else { "" };
    let permissions = if component.kind == PROVIDER {
        permission("read", component.read) + &permission("write", component.write)
    } else {
        permission("start", component.start)
    };
    format!("{kind} {}{exported}{shares}{permissions}", component.number)
}

/// A permission that a component needs, if it does.
fn permission(what: &str, permission: u8) -> String {
    if permission == 0 {
        String::new()
    } else {
        format!(" {what} {permission}")
    }
}

fn byte_lines(bytes: &[u8]) -> Vec<String> {
    if bytes.is_empty() {
        return vec!["bytes".to_string()];
    }
    bytes.chunks(BYTES_A_LINE).map(|chunk| format!("bytes {}", hex(chunk))).collect()
}

fn hex(bytes: &[u8]) -> String {
    let bytes: Vec<String> = bytes.iter().map(|byte| format!("{byte:02x}")).collect();
    bytes.join(" ")
}
