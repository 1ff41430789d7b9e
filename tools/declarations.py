"""Holds what C and Rust declare of the exported functions to the functions themselves, for tools/check-claims.

A function of crates/capi*/src takes numbers, slices and references; C and Rust call it by declarations of their own,
which no compiler compares with it. A slice crosses as a pointer and then a length, a reference as a pointer; what a
pointer leads to has to be as long as the function takes it for, and `const` where the function only reads.
"""
import re

import promises

C_NUMBERS = {"u16": "uint16_t", "u32": "uint32_t", "u64": "uint64_t", "usize": "size_t", "u8": "uint8_t", "": "void"}


def parameters_of(text):
    """The types of a list of parameters, as Rust writes them."""
    parts = [part.strip() for part in promises.split_at(text, ",")]
    return [" ".join(part.split(":", 1)[1].split()) for part in parts if part]


def exported(text):
    """The exported functions of a source, each name with the types of its parameters and of its result."""
    found = {}
    for function in promises.public_functions(text):
        if function.name.startswith("lw_"):
            found[function.name] = (parameters_of(",".join(function.parameters)), function.result)
    return found


def constants_of(text, form):
    """The constants of a text whose value is a number."""
    return {name: int(value.replace("_", "")) for name, value in re.findall(form, text)}


def with_numbers(text, constants):
    """A text with constants replaced by their numbers."""
    return re.sub(r"\b[A-Z][A-Z_]+\b", lambda m: str(constants.get(m.group(), m.group())), text)


# ---- C


def c_forms(taken, sizes):
    """The forms in which C may declare a parameter of this type, each a list of types; sizes has the structs' words."""
    parts = re.fullmatch(r"&(mut )?(?:\[(\w+)(?:; (\d+))?\]|(\w+))", taken)
    if parts is None:
        return [[C_NUMBERS[taken]]]
    writes, item, length, number = parts.groups()
    const = "" if writes else "const "
    if number:
        return [[f"{const}{C_NUMBERS[number]} *"]]
    if length is None:
        return [[f"{const}{C_NUMBERS[item]} *", "size_t"]]
    structs = [name for name, words in sizes.items() if item == "u64" and words == int(length)]
    return [[f"{const}{C_NUMBERS[item]} [{length}]"]] + [[f"{const}{name} *"] for name in structs]


def c_declarations(header):
    """The functions that a header declares, each name with the types of its parameters and of its result."""
    constants = constants_of(header, r"#define (LW_\w+) (\d+)\b")
    found = {}
    for result, name, text in re.findall(r"^(\w+) (lw_\w+)\(([^;{]*)\);", header, flags=re.M):
        types = []
        for parameter in (" ".join(part.split()) for part in text.split(",")):
            kind, star, length = re.fullmatch(r"((?:const )?\w+) (\*?)\w+(?:\[(\w+)\])?", parameter).groups()
            types.append(kind + (" *" if star else "") + (f" [{with_numbers(length, constants)}]" if length else ""))
        found[name] = (types, result)
    sizes = re.findall(r"^LW_SAME_SIZE\((\w+), (\w+)\);", header, flags=re.M)
    return found, {name: int(with_numbers(count, constants)) for name, count in sizes}


def matches(types, wanted):
    """Whether types are those of the wanted forms, one of each."""
    if not wanted:
        return not types
    return any(types[: len(form)] == form and matches(types[len(form) :], wanted[1:]) for form in wanted[0])


def c_faults(functions, header):
    """What a header declares otherwise than the functions are."""
    found, sizes = c_declarations(header)
    for name in sorted(functions.keys() ^ found.keys()):
        yield f"{name} is not both exported and declared"
    for name in sorted(functions.keys() & found.keys()):
        types, result = functions[name]
        if found[name][1] != C_NUMBERS[result] or not matches(found[name][0], [c_forms(t, sizes) for t in types]):
            yield f"{name} is declared as ({', '.join(found[name][0])}), and takes ({', '.join(types)})"


# ---- Rust


def rust_form(taken):
    """How Rust declares a parameter of this type across the boundary."""
    parts = re.fullmatch(r"&(mut )?(?:\[(\w+)(; \d+)?\]|(\w+))", taken)
    if parts is None:
        return [taken]
    writes, item, length, number = parts.groups()
    return [f"*{'mut' if writes else 'const'} {number or item}"] + ([] if number or length else ["usize"])


def rust_faults(functions, source):
    """What a Rust source declares, or lends through its own functions, otherwise than the functions are."""
    source = with_numbers(source, constants_of(source, r"const ([A-Z_]+): usize = ([\d_]+);"))
    own = re.findall(r"pub (?:safe )?fn (\w+)\(([^)]*)\)(?: -> (\w+))?", source)
    found = {name: (parameters_of(text), result) for name, text, result in own}
    of_frame = re.findall(r"^\s+(\w+) = (lw_\w+),$", source, flags=re.M)
    found.update({name: (["&[u8]"], "u32") for name, _ in of_frame})
    callers = {called: name for name, called in of_frame}
    for name, (types, result) in sorted(functions.items()):
        declared = [form for taken in types for form in rust_form(taken)]
        if found.get(name) != (declared, result):
            yield f"{name} is not declared as ({', '.join(declared)})"
        caller = callers.get(name, re.sub(r"^lw_(raw_)?", "", name))
        if found.get(caller) != (types, result):
            yield f"{caller} does not lend to {name} what it takes: ({', '.join(types)})"
