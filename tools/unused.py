#!/usr/bin/env python3
"""unused.py: lists the names that `use` lines of the .antt files and `ghost use` lines of the .rt files bring and the file does not write.

By text, not by the prover; what a `pub use` passes on is not looked at. Status 1 where there are any.
"""
import re
import sys

import sources

USE = re.compile(r"(?ms)^(?:ghost )?use ([^\s{;]+?)(?:\.\{([^}]*)\})?(?: as ([^\s;]+))?;?[ ]*$")
OWN_USE = re.compile(r"(?ms)^(?:pub )?use [^;]*;$")  # a line of Rattle's own (`use format::Verdict;`) is the compiler's to judge


def unused(path):
    """The names that a file brings and does not write."""
    text = sources.without_comments(sources.read(path))
    if path.endswith(".rt"):
        text = OWN_USE.sub("", re.sub(r"//.*", "", text))
    rest = re.sub(r"(?ms)^pub use [^\n]*?\{.*?\}$", "", USE.sub("", text))
    words = set(re.split(r"[\s(){}.,;]+", rest))
    for module, names, alias in USE.findall(text):
        brought = [item.split()[-1] for item in names.split(",") if item.strip()] or [alias or module.split(".")[-1]]
        yield from (name for name in brought if name not in words and not parts(name) <= words)


def parts(operator):
    """What is written of an operator: ≡ of ◌≡◌, if, then and else of if◌then◌else◌."""
    return set(operator.split("◌")) - {""}


def main():
    paths = [path for kind in ("specs/**/*.antt", "proofs/**/*.antt", "src/**/*.rt") for path in sources.find("crates/*/" + kind)]
    found = [(path, list(unused(path))) for path in paths]
    for path, names in found:
        if names:
            print(path, *names)
    sys.exit(any(names for _, names in found))


if __name__ == "__main__":
    main()
