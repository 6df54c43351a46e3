"""Whether a function of the name that an edit gives can be in its crate, by the crate's text alone.

A check names a function by the file of its type, not by that of the `impl` block that it stands in: `open` of an `Index`
that src/index.rt defines is `index::Index::open` wherever it stands. Of an implementation the name is made of the type's
and the trait's, in the file of the implementation.
"""

import re

FUNCTION = r"^ *(?:pub(?:\([^)]*\))? )?(?:const )?(?:extern \"C\" )?fn {}\b"
TYPE = re.compile(r"^ *(?:pub(?:\([^)]*\))? )?(?:struct|enum|trait) (\w+)", re.M)
IMPLEMENTED = re.compile(r"^impl(?:<.*?>)? (?:\w+::)*(\w+)(?:<.*?>)? for ", re.M)


def what_lacks(crate, path):
    """What there is none of for a function of this name, and nothing where it can be."""
    *modules, name = path.split("::")
    kind = modules.pop() if modules and modules[-1][0].isupper() else None
    file = "src/" + ("/".join(modules) or "lib") + ".rt"
    if file not in crate.files():
        return f"no file {file}"
    text = crate.read(file)
    if kind is None:
        return None if re.search(FUNCTION.format(name), text, re.M) else f"no function {name} in {file}"
    types = TYPE.findall(text)
    if kind in types:
        # its methods may stand in other files
        is_there = any(re.search(FUNCTION.format(name), crate.read(it), re.M) for it in crate.files())
        return None if is_there else f"no function {name} of {kind}"
    named = types + IMPLEMENTED.findall(text)
    return None if any(it in kind for it in named) else f"no type {kind} in {file}"
