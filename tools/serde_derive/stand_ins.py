"""Types that stand for fields that functions of the user's read or send, as a row has them: their impls call these functions."""
from .declarations import Field
from .text import DESERIALIZE, SERIALIZE, function, ghost
from .types import LT_DE, LT_SENT, READ, STATIC, angled


def reader(name: str, f: Field) -> str:
    """The type of this name that holds what is read for a field, and how that is read."""
    members = [ghost("refusal", f.reading.refusal), ghost("gives", f"λ s x. {f.reading.gives} s x.0"),
               function(DESERIALIZE.format("Self"), f"Ok({name}({f.reading.code}(alloc, from)?))")]
    return (f"/// What is read for the field `{f.known or f.name}`.\n#[derive(Drop)]\nstruct {name}({f.type.rust()});\n\n"
            f"impl{angled(LT_DE)} {READ} for {name} {{\n" + "\n\n".join(members) + "\n}\n")


def sender(name: str, f: Field, test: str) -> str:
    """The type of this name that refers to a field's value, how that is sent, and when it is left out; where a test of the
    user's says that, this one."""
    given = angled(LT_SENT, *(one for one in f.type.borrows() if one != STATIC))
    members = [ghost("script", f"λ r. {f.sending.script} r.0.now"),
               ghost("lawful", f"λ r readable. {f.sending.lawful} r.0.now readable"),
               function(SERIALIZE, f"{f.sending.code}(self.0, alloc, serializer)")]
    texts = [f"/// The field `{f.wire or f.name}`, as it is sent.\n#[derive(Drop)]\nstruct {name}{given}(&{LT_SENT} {f.type.rust()});\n",
             f"impl{given} Serialize for {name}{given} {{\n" + "\n\n".join(members) + "\n}\n"]
    if f.skips:
        empty = ghost("is_empty", f"λ r. {f.skipped('r.0.now')}")
        skipped = function("fn is_skipped(&self) -> bool", f"{test}::is_skipped(self.0)" if f.test else "self.0.is_skipped()")
        texts.append(f"impl{given} Skip for {name}{given} {{\n{empty}\n\n{skipped}\n}}\n")
    return "\n".join(texts)
