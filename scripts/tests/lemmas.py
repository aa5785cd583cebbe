#!/usr/bin/env python3
"""The tests of `scripts/lemmas`: that no lemma stands twice, and what it says of small crates."""

import collections
import importlib.machinery
import importlib.util
import os
import subprocess
import sys
import tempfile
import traceback

sys.dont_write_bytecode = True
TESTS = os.path.dirname(os.path.realpath(__file__))
SCRIPT = os.path.join(os.path.dirname(TESTS), "lemmas")
PAGE = """# Facts
```text
use mathlib.Core.List.{List}

pub none-some : {A : Type 0} (x : A) → None ≡ Some x → ⊥
pub length-append : {A : Type 0} (xs ys : List A) → length (xs ++ ys) ≡ length xs + length ys
```
"""


def load():
    loader = importlib.machinery.SourceFileLoader("lemmas_script", SCRIPT)
    module = importlib.util.module_from_spec(importlib.util.spec_from_loader("lemmas_script", loader))
    loader.exec_module(module)
    return module


lemmas = load()


def write(path, text):
    os.makedirs(os.path.dirname(path), exist_ok=True)
    with open(path, "w", encoding="utf-8") as it:
        it.write(text)


def found(files):
    """Returns the crates and names of what stands twice in these files, beside a library of the page Facts."""
    with tempfile.TemporaryDirectory() as top:
        write(f"{top}/kit/std/lemmas/Facts.md", PAGE)
        write(f"{top}/kit/std/proofs/Common.antt", "pub use Rattle.std.specs.Prelude.{List}\n")
        for place, text in files.items():
            write(f"{top}/crates/{place}.antt", text)
        known = collections.defaultdict(list)
        for it in lemmas.library(f"{top}/kit"):
            known[it.key].append(it)
        return [items for _, items in lemmas.twice(lemmas.Crates(top), known)]


def expect(files, wanted):
    if found(files) != wanted:
        raise AssertionError(f"{wanted} is wanted and not {found(files)}")


def one(text):
    return {"px_a/proofs/One": text}


def two(first, second):
    return {"px_a/proofs/One": first, "px_b/proofs/Two": second}


def no_lemma_stands_twice():
    ended = subprocess.run([SCRIPT], capture_output=True, text=True)
    if ended.returncode:
        raise AssertionError(ended.stdout + ended.stderr)
    if "wasn't compared" in ended.stdout:
        print("not tried: the library's lemmas, since rt isn't on the PATH")


def a_lemma_of_the_library_is_found():
    expect(one("no_such : {X : Type 0} (a : X) → None ≡ Some a → ⊥\nno_such a e = cc\n"), [{("px_a", "no_such")}])
    expect(one("-- why\npub no_such : {X : Type 0} {a : X}\n    → None ≡ Some a → ⊥\n"), [{("px_a", "no_such")}])


def also_at_one_type():
    expect(one("no_such : (t : Table) → ◌≡◌ {A = Option Table} None (Some t) → ⊥\n"), [{("px_a", "no_such")}])
    expect(one("more : (xs ys : List ℕ) → length (xs ++ ys) ≡ length xs + length ys\n"), [{("px_a", "more")}])
    expect(one("more : (xs : List ℕ) (ys : List Bool) → length (xs ++ ys) ≡ length xs + length ys\n"), [])


def also_below_a_modules_arguments():
    expect(one("module _ (P : Table → Type 0) where\n  no_such : (t : Table) → None ≡ Some t → ⊥\n"), [{("px_a", "no_such")}])


def a_lemma_of_two_crates_is_found():
    same = [{("px_a", "low"), ("px_b", "least")}]
    expect(two("low : (a b : ℕ) → a < b → a ≤ b\n", "least : (m : ℕ) (n : ℕ) → m < n → m ≤ n\n"), same)
    expect(two("low : (a b : ℕ) → a < b → a ≤ b\n", "least : (m n : ℕ) → n < m → m ≤ n\n"), [])


def own_words_are_two():
    words = "abbrev pub IsLow : ℕ → Type 0\nIsLow n = n ≡ {}\n"
    files = two("use Rattle.px_a.specs.Low.{IsLow}\nlow : (n : ℕ) → IsLow n\n", "use Rattle.px_b.specs.Low.{IsLow}\nlow : (n : ℕ) → IsLow n\n")
    expect({**files, "px_a/specs/Low": words.format(0), "px_b/specs/Low": words.format(1)}, [])
    files["px_b/proofs/Two"] = files["px_b/proofs/Two"].replace("px_b", "px_a")
    expect({**files, "px_a/specs/Low": words.format(0)}, [{("px_a", "low"), ("px_b", "low")}])


def functions_and_helpers_are_no_lemmas():
    expect(two("next : (n : ℕ) → ℕ\nnext n = n + 1\n", "next : (n : ℕ) → ℕ\nnext n = n + 2\n"), [])
    expect(one("all : (n : ℕ) → n ≡ n\nall n = refl\n  where\n    no_such : (t : ℕ) → None ≡ Some t → ⊥\n"), [])


TRIED = (
    no_lemma_stands_twice,
    a_lemma_of_the_library_is_found,
    also_at_one_type,
    also_below_a_modules_arguments,
    a_lemma_of_two_crates_is_found,
    own_words_are_two,
    functions_and_helpers_are_no_lemmas,
)


def main():
    failed = 0
    for it in TRIED:
        try:
            it()
        except Exception:
            failed += 1
            print(f"{it.__name__} failed:")
            traceback.print_exc(file=sys.stdout)
    print(f"{len(TRIED) - failed} passed, {failed} failed")
    return 1 if failed else 0


if __name__ == "__main__":
    sys.exit(main())
