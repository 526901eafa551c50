#!/usr/bin/env python3
"""Tries the wrong variants of tests/variants.txt: which examples refuse each of them.

Each variant is a copy of the definitions (those of a run, of what is found in it and of what a
trace tells of it) with one replacement, and a copy of all examples that stands on it; some variants
are checked at once, as modules of one scratch crate. The first one changes nothing. Results stand
in out/variants/results.txt, one line each: a run goes on behind those that are there.
"""

from __future__ import annotations

import argparse
import os
import re
import shutil
import subprocess
from typing import Iterator, NamedTuple, Sequence

ROOT = os.path.dirname(os.path.dirname(os.path.abspath(__file__)))
OUT = f"{ROOT}/out/variants"
SCRATCH = f"{OUT}/scratch"
CRATE = f"{SCRATCH}/crates/lab_variants"
MODEL, EXAMPLES = "lab_model", "test_examples"
# The crates whose definitions have variants, each with those of its files that are copied; None
# stands for all of them.
COPIED: dict[str, set[str] | None] = {
    MODEL: None,
    "law_reads_recorded": {"Recorded"},
    "lab_next": {"Answering", "Bios", "Origins", "Own"},
    "lab_watch": {"Drops", "Grids", "Heard", "Known", "Settled"},
    "lab_findings": None,
    "lab_trace": {"Answered", "Fields", "Happened", "Made", "Micros", "Rows", "Text", "Written"},
    "lab_sweep": {"ByLine", "FoundRow", "FoundRows", "Tally", "Totals"},
    EXAMPLES: None,
}
LEFT_OUT = {"Walk", "Order", "Below", "Sizes", "Fine", "CreatesInOrder"}
# Types that their crates keep to themselves, by crate and file: they are copied too.
HIDDEN = {
    "Deed": "lab_findings/deed",
    "Answered": "lab_findings/answered",
    "Why": "lab_findings/why",
    "FoundAt": "lab_sweep/line_counts",
    "FoundRow": "lab_sweep/found_row",
    "Lack": "lab_trace/lack",
}
HIDDEN_WORDS = """use Rattle.std.specs.Prelude.{ℕ, Bool, Option}
use Rattle.lab_sector.specs.declared.device.DevNo.{DevNo}
use Rattle.lab_sector.specs.declared.span.Span.{Span}
use Rattle.lab_model.specs.declared.entry.Action.{Action}
use Rattle.lab_next.specs.declared.origin.Origin.{Origin}
use Rattle.lab_next.specs.declared.writer.Writer.{Writer}
use Rattle.lab_findings.specs.declared.culprit.Culprit.{Culprit}
use Rattle.lab_findings.specs.declared.finding.Finding.{Finding}
use Rattle.lab_findings.specs.declared.found.Found.{Found}
"""


class Variant(NamedTuple):
    """A variant: its name, the file and the definition that it changes, and its replacements."""

    name: str
    file: str
    definition: str
    pairs: tuple[tuple[str, str], ...]


def variant_of(block: str) -> Variant:
    """The variant of a block of lines."""
    lines = [line.partition(": ")[::2] for line in block.split("\n")]
    said = dict(lines)
    file, definition = said["in"].split(" ")
    old, new = (
        [text.replace("\\n", "\n") for key, text in lines if key == word]
        for word in ("old", "new")
    )
    return Variant(said["variant"], file, definition, tuple(zip(old, new)))


def read_variants() -> list[Variant]:
    """The variants of the list, behind one that changes nothing."""
    blocks = read(f"{ROOT}/tests/variants.txt").strip().split("\n\n")
    variants = [Variant("none", "none", "none", ()), *map(variant_of, blocks)]
    if len({it.name for it in variants}) < len(variants):
        raise SystemExit("two variants have one name")
    return variants


def read(path: str) -> str:
    """The text of a file."""
    with open(path, encoding="utf-8") as file:
        return file.read()


def put(path: str, text: str) -> None:
    """Writes a file, and makes its folder."""
    os.makedirs(os.path.dirname(path), exist_ok=True)
    with open(path, "w", encoding="utf-8") as file:
        file.write(text)


def antt(crate: str, part: str, names: set[str] | None = None) -> dict[str, str]:
    """The .antt files of a crate's part by module name."""
    folder = f"{ROOT}/crates/{crate}/{part}"
    found = sorted(name[:-5] for name in os.listdir(folder) if name.endswith(".antt"))
    return {
        it: read(f"{folder}/{it}.antt")
        for it in found
        if it != "Lib" and (names is None or it in names)
    }


def read_uses() -> dict[str, str]:
    """The libraries that each crate of crates.txt stands on."""
    return dict(re.findall(r"(?m)^(\w+): *(.*)$", read(f"{ROOT}/crates.txt")))


def below_of(crate: str, uses: dict[str, str]) -> set[str]:
    """The crates of this repository that a crate stands on, and those below them."""
    below = [name for name in uses[crate].split() if name in uses]
    return set(below).union(*(below_of(name, uses) for name in below))


def prepare() -> None:
    """Makes a copy of the workspace with a crate for the variants."""
    if not os.path.exists(SCRATCH):
        os.makedirs(SCRATCH)
        subprocess.run(["git", "init", "-q", SCRATCH], check=True)
        shutil.copy(f"{ROOT}/HANDLES", SCRATCH)
        uses = read_uses()
        below = [name for name in uses if name in below_of(EXAMPLES, uses)]
        for name in below:
            shutil.copytree(f"{ROOT}/crates/{name}", f"{SCRATCH}/crates/{name}", symlinks=True)
        lines = [
            *(f"{name}: {uses[name]}\n" for name in below),
            f"lab_variants: {' '.join(below)}\n",
        ]
        put(f"{SCRATCH}/crates.txt", "".join(lines))
    if os.path.exists(CRATE):
        shutil.rmtree(CRATE)
    os.makedirs(f"{CRATE}/src")
    shutil.copy(f"{ROOT}/crates/{EXAMPLES}/src/lib.rt", f"{CRATE}/src")


def moved(text: str, own: str, specs: dict[str, set[str]]) -> str:
    """A file's text, with the copied modules in place of the right ones."""
    for crate, names in specs.items():
        for name in names:
            right = rf"Rattle\.{crate}\.specs\.{name}\b"
            text = re.sub(right, f"Rattle.lab_variants.specs.{own}.{crate}.{name}", text)
    hidden = rf"Rattle\.\w+\.specs\.declared\.\w+\.({'|'.join(HIDDEN)})(?:\.TheVariants)?(?=\.\{{)"
    text = re.sub(hidden, "Rattle.lab_variants.specs.Hidden", text)
    text = text.replace(f"Rattle.{EXAMPLES}.proofs.", f"Rattle.lab_variants.proofs.{own}.")
    return text.replace(
        f"Rattle.{MODEL}.proofs.Common.", f"Rattle.lab_variants.proofs.{own}.Common."
    )


def antt_type(text: str) -> str:
    """A Rust type as the definitions have it."""
    option = re.fullmatch(r"Option<(.*)>", text)
    if option:
        return f"Option {antt_type(option[1])}"
    return {"u32": "ℕ", "u64": "ℕ", "bool": "Bool"}.get(text, text)


def hidden_type(name: str, home: str) -> str:
    """The definition of a record, or of an enum without fields, that its crate keeps to itself."""
    crate, file = home.split("/")
    text = read(f"{ROOT}/crates/{crate}/src/{file}.rt")
    word, body = re.findall(rf"(?s)(struct|enum) {name} {{\n(.*?)\n}}", text)[0]
    if word == "enum":
        made = (f"  {variant} : {name}\n" for variant in re.findall(r"(?m)^    (\w+),$", body))
        return f"\npub data {name} : Type 0 where\n{''.join(made)}"
    fields = re.findall(r"(?m)^    pub\(crate\) (\w+): (.*),$", body)
    rows = (f"  pub {field} : {antt_type(kind)}\n" for field, kind in fields)
    return f"\npub record {name} : Type 0 where\n{''.join(rows)}"


def home_of(file: str, crates: dict[str, dict[str, str]]) -> tuple[str, str]:
    """The crate and the name of a file of definitions, which is named with its crate where several
    crates have one of that name.
    """
    if "/" in file:
        crate, name = file.split("/")
        return crate, name
    return next(((crate, file) for crate, files in crates.items() if file in files), ("", file))


def changed(text: str, variant: Variant) -> str:
    """The text of the variant's file with its replacements."""
    for old, new in variant.pairs:
        if text.count(old) != 1:
            raise SystemExit(f"not once: {variant.name}: {old!r}")
        text = text.replace(old, new)
    return text


def list_of(names: Sequence[str]) -> str:
    """The text that lists modules."""
    return "".join(f"pub mod {name}\n" for name in names)


def sources(examples: Sequence[str]) -> tuple[dict[str, dict[str, str]], dict[str, str]]:
    """The files of definitions by their crates, and the files of proofs: of these examples, or of
    all.
    """
    crates = {crate: antt(crate, "specs", names) for crate, names in COPIED.items()}
    crates[MODEL] = {it: text for it, text in crates[MODEL].items() if it not in LEFT_OUT}
    proofs = antt(EXAMPLES, "proofs", {"Places", *examples} if examples else None)
    # the names that examples take from lab_model's Common, without its lemmas, which are over the
    # right definitions
    common = antt(MODEL, "proofs", {"Common"})["Common"].split("\n")
    proofs["Common"] = "\n".join(line for line in common if f".{MODEL}.proofs." not in line)
    return crates, proofs


def write_copy(
    own: str, variant: Variant, crates: dict[str, dict[str, str]], proofs: dict[str, str]
) -> None:
    """Writes a copy of all with the variant's change."""
    specs = {crate: set(files) for crate, files in crates.items()}
    home = home_of(variant.file, crates)
    for crate, files in crates.items():
        for name, text in files.items():
            text = changed(text, variant) if (crate, name) == home else text
            put(f"{CRATE}/specs/{own}/{crate}/{name}.antt", moved(text, own, specs))
        put(f"{CRATE}/specs/{own}/{crate}.antt", list_of(list(files)))
    for name, text in proofs.items():
        put(f"{CRATE}/proofs/{own}/{name}.antt", moved(text, own, specs))
    put(f"{CRATE}/specs/{own}.antt", list_of(list(crates)))
    put(f"{CRATE}/proofs/{own}.antt", list_of(list(proofs)))


def write_batch(batch: Sequence[Variant], examples: Sequence[str]) -> None:
    """Writes the scratch crate with a copy of all for each variant."""
    prepare()
    crates, proofs = sources(examples)
    for number, variant in enumerate(batch):
        write_copy(f"V{number}", variant, crates, proofs)
    hidden = (hidden_type(name, home) for name, home in HIDDEN.items())
    put(f"{CRATE}/specs/Hidden.antt", HIDDEN_WORDS + "".join(hidden))
    copies = [f"V{number}" for number in range(len(batch))]
    put(f"{CRATE}/specs/Lib.antt", list_of(["Hidden", *copies]))
    put(f"{CRATE}/proofs/Lib.antt", list_of(copies))


def check() -> str:
    """What a check of the scratch crate says."""
    words = ["rt", "check", "--jobs", "1"]
    done = subprocess.run(words, cwd=CRATE, capture_output=True, text=True, timeout=1500)
    put(f"{OUT}/last_output.txt", done.stdout + done.stderr)
    return done.stdout + done.stderr


def answer(out: str, number: int) -> str:
    """What the check says of the variant of this number; the first word is in capitals unless
    examples refuse it.
    """
    hits = re.findall(rf"^\./proofs/V{number}/(\w+)\.antt:\d+:\d+: error: `([\w-]+)`", out, re.M)
    # what rests on a refused example or lemma isn't checked, which is no fault of a file
    broken = [
        line
        for line in re.findall(
            rf"^\./(?:specs|proofs)/V{number}[/.][^\n]*error: (?!`)[^\n]*", out, re.M
        )
        if "that depend" not in line
    ]
    if broken:
        return "UNREADABLE " + " | ".join(broken)[:500]
    if hits:
        return "refused by " + ", ".join(
            f"{file}.{example}" for file, example in dict.fromkeys(hits)
        )
    return "PASSED" if is_finished(out) else "NO ANSWER " + out[-300:].replace("\n", " | ")


def is_finished(out: str) -> bool:
    """Whether the check came to its end."""
    return bool(re.search(r"^logic=(proved|not-proved)", out, re.M))


def tried(batch: Sequence[Variant], examples: Sequence[str]) -> Iterator[tuple[str, bool]]:
    """The lines of the batch's results, and whether each is kept."""
    write_batch(batch, examples)
    out = check()
    for number, it in enumerate(batch):
        told = answer(out, number)
        line = f"{it.name}\t{it.file} {it.definition}\t{told}"
        yield line, is_finished(out) and not told.startswith("UNREADABLE")


def is_asked(variant: Variant, crate: str | None) -> bool:
    """Whether a variant is to be tried where only those of a crate are, if one is given."""
    return crate is None or variant.name == "none" or variant.file.startswith(crate)


def main() -> None:
    """Tries those that have no result yet."""
    words = argparse.ArgumentParser(prog="tests/wrong_variants.sh", description=__doc__)
    words.add_argument(
        "--batch", type=int, default=12, metavar="N", help="how many are checked at once (12)"
    )
    words.add_argument("--crate", metavar="NAME", help="only variants of this crate's definitions")
    words.add_argument(
        "--examples", nargs="+", default=[], metavar="FILE", help="only these files of examples"
    )
    said = words.parse_args()
    size = said.batch
    results = f"{OUT}/results.txt"
    done = (
        {line.split("\t")[0] for line in read(results).split("\n")}
        if os.path.exists(results)
        else set()
    )
    ahead = [it for it in read_variants() if it.name not in done and is_asked(it, said.crate)]
    os.makedirs(OUT, exist_ok=True)
    for start in range(0, len(ahead), size):
        for line, is_kept in tried(ahead[start : start + size], said.examples):
            print(line, flush=True)
            if is_kept:
                with open(results, "a", encoding="utf-8") as file:
                    file.write(f"{line}\n")


if __name__ == "__main__":
    main()
