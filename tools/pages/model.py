"""What the pages show: items of Rust with their clauses, definitions, and wrong bodies."""
from __future__ import annotations

from dataclasses import dataclass, field


@dataclass(frozen=True)
class Clause:
    """A clause of a contract, or a ghost member: `ensures ok { .. }` has the kind `ensures` and the name `ok`."""

    kind: str
    name: str
    text: str

    @property
    def label(self) -> str:
        return self.name or self.kind


@dataclass(frozen=True)
class Edit:
    """A wrong body that the prover refuses: what it puts in the place of what."""

    path: str
    file: str
    changes: tuple[tuple[str, str], ...]
    goals: tuple[str, ...]

    @property
    def name(self) -> str:
        return self.path.rpartition("/")[2].removesuffix(".edit").replace("_", "-")


Imports = dict[str, tuple[str, "str | None"]]


@dataclass(eq=False, repr=False)
class Block:
    """An `impl` or a `trait`, with its ghost members."""

    head: str
    owner: str
    trait: str
    comment: str
    ghosts: list[Clause]
    start: int
    end: int
    line: int = 0

    @property
    def is_trait(self) -> bool:
        return self.head.startswith("trait")


@dataclass(frozen=True)
class Passed:
    """What a crate gives out of another: where, which crate holds it, and by what path there; "" is all of that crate."""

    module: str
    called: str
    crate: str
    path: str


@dataclass(eq=False, repr=False)
class Item:
    """A function, a type, a trait, a constant or a macro of a crate."""

    crate: str
    path: str
    line: int
    module: str
    name: str
    kind: str
    signature: str
    comment: str
    clauses: list[Clause]
    imports: Imports
    block: Block | None = None
    said_public: bool = False
    is_public: bool = False
    is_law: bool = False
    anchor: str = ""
    body: str = ""
    wrong: list[Edit] = field(default_factory=list)

    @property
    def page(self) -> str:
        return f"crate.{self.crate}.html"

    @property
    def href(self) -> str:
        return f"{self.page}#{self.anchor}"

    @property
    def full_name(self) -> str:
        return f"{self.crate}::{self.anchor}"

    @property
    def all_clauses(self) -> list[Clause]:
        """Its own clauses, and the ghost members of the block in which it stands."""
        return [*self.clauses, *(self.block.ghosts if self.block else [])]


@dataclass(eq=False, repr=False)
class Definition:
    """A definition of specs/, or a lemma that a ghost member cites."""

    crate: str
    module: str
    path: str
    line: int
    name: str
    kind: str
    text: str
    comment: str
    around: str
    parts: list[str]
    cited: list[str] = field(default_factory=list)
    citers: list[Item | Definition] = field(default_factory=list)
    wrong: list[Edit] = field(default_factory=list)

    @property
    def page(self) -> str:
        return page_of(self.module)

    @property
    def href(self) -> str:
        return f"{self.page}#{self.name}"


@dataclass(eq=False, repr=False)
class Module:
    """A file of definitions."""

    crate: str
    name: str
    path: str
    comment: str
    imports: Imports
    definitions: list[Definition] = field(default_factory=list)


def page_of(module: str) -> str:
    """The page of a module: `spec.tera_meaning.Order.html` of `Rattle.tera_meaning.specs.Order`."""
    _, crate, folder, *names = module.split(".")
    return f"{'spec' if folder == 'specs' else 'lemma'}.{crate}.{'.'.join(names)}.html"
