"""Whether the header of the library for C, and the package for Python, declare what the library exports: nothing else
looks at that, since C takes a header at its word, and ctypes what it is told."""

import ctypes
import re

from exports import exports_of

# what C passes for a parameter, or is answered, of a type
IN_C = {
    "Global": [],
    "u8": ["uint8_t"],
    "u32": ["uint32_t"],
    "u64": ["uint64_t"],
    "i64": ["int64_t"],
    "usize": ["size_t"],
    "&mut Handle": ["birchagain_index *"],
    "&mut u64": ["uint64_t *"],
    "&mut usize": ["size_t *"],
    "&[u8]": ["const uint8_t *", "size_t"],
    "&[usize]": ["const size_t *", "size_t"],
    "&[u32]": ["const uint32_t *", "size_t"],
    "&[u64]": ["const uint64_t *", "size_t"],
    "&[Hit]": ["const birchagain_hit *", "size_t"],
    "&mut [u8]": ["uint8_t *", "size_t"],
    "&mut [u64]": ["uint64_t *", "size_t"],
    "&mut [usize]": ["size_t *", "size_t"],
    "&mut [Hit]": ["birchagain_hit *", "size_t"],
    "": ["void"],
}
# by a type of ctypes what it passes of these; an address stands for an array of any
BY_CTYPES = {
    ctypes.c_uint8: {"uint8_t"},
    ctypes.c_uint32: {"uint32_t"},
    ctypes.c_uint64: {"uint64_t"},
    ctypes.c_int64: {"int64_t"},
    ctypes.c_size_t: {"size_t", "uint64_t"},
    ctypes.c_char_p: {"const uint8_t *"},
    ctypes.c_void_p: {f"{it} *" for it in ("const size_t", "const uint32_t", "const uint64_t", "const birchagain_hit", "size_t", "uint8_t", "uint64_t", "birchagain_hit")},
    ctypes.POINTER(ctypes.c_uint64): {"uint64_t *"},
    ctypes.POINTER(ctypes.c_size_t): {"size_t *", "uint64_t *"},
    None: {"void"},
}
DECLARED = re.compile(r"^(\w+) (birchagain_\w+)\(([^)]*)\);", re.M)
STATUS = re.compile(r"\bBIRCHAGAIN_(\w+) = (\d+)")
REFUSAL = re.compile(r"Refusal(?:Kind)?::(\w+) => (\d+),")
TEXT = re.compile(r'#\[error\("(.*)"\)\]\n    (\w+),')


def exported(folder):
    """By name what each export of a library answers, and what it takes, as C has it."""
    return {name: [*IN_C[result], *(it for kind in kinds for it in IN_C[kind])] for name, kinds, result in exports_of(folder)}


def declared(header):
    """The same by the header."""
    return {
        name: [result, *(re.sub(r"\w+$", "", it.strip()).strip() for it in parameters.split(","))]
        for result, name, parameters in DECLARED.findall(header)
    }


def differ_in_python(exports, library):
    """The names of exports that the module of the package declares otherwise, or not at all."""
    of_handle = {ctypes.POINTER(library.Handle): {"birchagain_index *"}}
    calls = {it.__name__: [it.restype, *it.argtypes] for it in vars(library).values() if isinstance(it, ctypes._CFuncPtr)}
    fits = {
        name: len(kinds) == len(calls.get(name, [])) and all(it in {**BY_CTYPES, **of_handle}[kind] for it, kind in zip(kinds, calls[name]))
        for name, kinds in exports.items()
    }
    return sorted(name for name, is_so in fits.items() if not is_so)


def unlike_statuses(header, refusals):
    """The refusals of the library's own that the header has no status for, or another."""
    named = {name.replace("_", ""): number for name, number in STATUS.findall(header)}
    return [name for name, number in REFUSAL.findall(refusals) if named.get(name.upper()) != number]


def unlike_texts(header, kinds, told):
    """What is said of a text of the typed language by a call, where the reader of the language says another thing."""
    numbers = {name.replace("_", ""): int(number) for name, number in STATUS.findall(header)}
    texts = {numbers.get(name.upper()): text.replace("\\\\", "\\") for text, name in TEXT.findall(kinds)}
    return [(number, text) for number, text in texts.items() if number is None or told(number) != text]
