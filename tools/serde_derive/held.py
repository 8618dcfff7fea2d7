"""The struct that a variant of values by name is read as, where it stands for itself."""
from typing import List

from .cases import pascal
from .declarations import Item, Variant
from .structs import StructWriter
from .types import LT_DE, READ, angled


def derives(item: Item, v: Variant) -> List[str]:
    """What the struct of a variant derives: as the enum does, but for what is skipped."""
    skipped = {"Serialize": not v.sent, "Deserialize": not v.read}
    return [trait for trait in item.derives if not skipped.get(trait)]


class HeldWriter(StructWriter):
    """The struct of a variant's values by name, which is called after this owner, and in errors by this name."""

    def __init__(self, item: Item, v: Variant, owner: str, wire: str):
        super().__init__(Item(pascal(owner), v.line, [f"/// What the variant `{v.name}` holds."], {}, wire, wire,
                              derives=derives(item, v), data=v.data, owner=owner, parameters=v.data.parameters()))

    def texts(self) -> List[str]:
        """Its declaration, and how it is read."""
        name, members = self.whole.rust(), "\n\n".join(self.deserialize())
        given = angled(LT_DE, *self.item.bounds(READ))
        read = ["\n".join(self.item.head + [f"#[derive(Drop)]\nstruct {name}{self.item.data.declared()}\n"]),
                f"impl{given} {READ} for {name} {{\n{members}\n}}\n"]
        return read[:1] * self.reads + self.functions() + read[1:] * self.reads
