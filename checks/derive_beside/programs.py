"""What of both programs depends on the types: which there are, and which names may be static."""
from trees import quoted

RUST = """{uses}use serde_content::{{Deserializer, Result}};

/// A value of the type of this name as it is sent again.
pub fn sent_as(typ: &str, from: Deserializer<'static>) -> Result<String> {{
    match typ {{
{arms}        _ => unreachable!("{{typ}} is no type"),
    }}
}}
"""
RATTLE = """//! The types.

{uses}use crate::answer::Answer;
use crate::failure::Failure;
use crate::named::with_type;
use crate::operations::write_sent;
use serde_content::Deserializer;

/// Adds a value of the type of this name as it is sent again.
pub fn write_typed(out: &mut Answer, typ: &str, from: Deserializer<'_, 'static>) {{
    with_type!(typ, write_sent(out, from), [{types}], out.fail(Failure::NoRow))
}}
"""
NAMES = """//! The names that a case may have static.

/// The names that a case may have static.
static NAMES: [&'static str; {count}] = [{names}];

/// The same name, for as long as the program runs, where it is one of these.
pub fn static_name(name: &str) -> Option<&'static str> {{
    NAMES.iter().copied().find(|known| *known == name)
}}
"""


def write_programs(files, types, names, driver, here):
    """Writes these parts of the Rust program and of ours."""
    uses = "".join(f"use crate::{file.stem}::*;\n" for file in files)
    arms = "".join(f"        {quoted(name)} => crate::sent::<{name}>(from),\n" for name in types)
    (driver / "typed.rs").write_text(RUST.format(uses=uses, arms=arms))
    (here / "typed.rt").write_text(RATTLE.format(uses=uses, types=", ".join(types)))
    (here / "names.rt").write_text(NAMES.format(count=len(names), names=", ".join(map(quoted, names))))
