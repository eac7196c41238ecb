//! Declarations that each name the one before, with the shortest names there are.
use super::short::shortest_names;
use common::vocabulary::HEAD;

/// What a declaration looks like, by its name and that of the one before.
type Form = fn(&str, &str) -> String;

/// Through the types of postulates. No declaration that names another has fewer bytes, so no source has a longer chain.
pub fn types(size: usize) -> String {
    chain(size, |name, before| format!("(postulate {name}(ref {before}))"))
}

/// Through transparent bodies.
pub fn transparent(size: usize) -> String {
    chain(size, |name, before| format!("(transparent {name} nat(ref {before}))"))
}

/// Through opaque bodies, each of which ends the chain.
pub fn opaque(size: usize) -> String {
    chain(size, |name, before| format!("(opaque {name} nat(ref {before}))"))
}

/// As many as fit into so many bytes. Names do not get shorter, so what does not fit is not followed by what would.
fn chain(size: usize, form: Form) -> String {
    let mut names = shortest_names();
    let mut before = names.next().expect("there is no last name");
    let mut text = format!("{HEAD}(postulate {before} nat)");
    for name in names {
        let declaration = form(&name, &before);
        if text.len() + declaration.len() > size {
            break;
        }
        text.push_str(&declaration);
        before = name;
    }
    text
}
