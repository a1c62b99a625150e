"""The exports for C, written from the signatures in `capi`: pointers and lengths become slices."""

from source import written

HEAD = '''// Made from crates/capi/src by tools/erase: not to be edited.
//! The calls of `packages/c/include/aeadkit.h`: each makes slices of the pointers and lengths of C, and calls the proved function
//! of the same name.

{imports}

/// The bytes at a pointer, which counts for nothing if there are none: C may have no place for them. No object is longer than
/// `isize::MAX`, nor may a slice be: of a greater length, which the calls refuse, only that many are named.
///
/// # Safety
/// The pointer leads to as many bytes, which nobody changes while the slice lives.
#[inline(always)]
unsafe fn bytes<'a>(at: *const u8, len: usize) -> &'a [u8] {{
    if len == 0 {{
        return &[];
    }}
    // SAFETY: as the caller promises.
    unsafe {{ core::slice::from_raw_parts(at, len.min(isize::MAX as usize)) }}
}}

/// As [`bytes`], to be written.
///
/// # Safety
/// The pointer leads to as many bytes, which nobody else reads or changes while the slice lives.
#[inline(always)]
unsafe fn bytes_mut<'a>(at: *mut u8, len: usize) -> &'a mut [u8] {{
    if len == 0 {{
        return &mut [];
    }}
    // SAFETY: as the caller promises.
    unsafe {{ core::slice::from_raw_parts_mut(at, len.min(isize::MAX as usize)) }}
}}
'''
SAFETY = """    // SAFETY: the header asks for pointers to as many bytes as the lengths say, and that nothing overlaps what is written.
"""
SLICES = {"&[u8]": ("*const u8", "bytes"), "&mut[u8]": ("*mut u8", "bytes_mut")}
PLAIN = ["u32", "u64", "usize", "&mutusize", "&[u8;16]", "&mut[u8;16]"]


def read(source):
    """The exports of a source and the structs that it declares: (module, name, parameters, result, line) and (module, name)."""
    tokens, module = source.tokens, source.path.split("/")[-1].removesuffix(".rt")
    found, structs = [], []
    for at, token in enumerate(tokens):
        if token.kind == "word" and token.text == "struct":
            structs.append((module, tokens[source.near(at, 1)].text))
        if token.kind == "word" and token.text == "extern":
            name = source.near(source.find(at, "fn"), 1)
            end = source.close(source.near(name, 1))
            parameters, here = [], source.near(source.near(name, 1), 1)
            while here < end:
                comma = source.find(here, ",", ")")
                parameters.append((tokens[here].text, "".join(
                    part.text for part in tokens[source.near(here, 1) + 1:comma] if part.is_code())))
                here = source.near(comma, 1) if tokens[comma].text == "," else end
            result = tokens[source.near(source.near(end, 1), 1)].text if source.is_at(end, 1, "->") else None
            found.append((source, module, tokens[name].text, parameters, result, token.line))
    return found, structs


def write(found, structs):
    """The file of all exports."""
    homes, used, out = {name: module for module, name in structs}, set(), []
    for source, module, name, parameters, result, line in found:
        takes, makes, slices = [], [], []
        for parameter, kind in parameters:
            struct = kind.removeprefix("&").removeprefix("mut")
            if kind in SLICES:
                pointer, maker = SLICES[kind]
                takes.append(f"{parameter}: {pointer}, {parameter}_len: usize")
                makes.append(f"{maker}({parameter}, {parameter}_len)")
                slices.append(parameter)
            elif kind in PLAIN or kind.startswith("&") and struct in homes:
                takes.append(f"{parameter}: {kind.replace('&mut', '&mut ')}")
                used.update({struct} & set(homes))
            else:
                source.refuse(line, f"the eraser does not know how C passes `{kind}`")
        arguments = ", ".join(parameter for parameter, _ in parameters)
        one, many = ("", "") if len(slices) == 1 else ("(", ")")
        body = f"{SAFETY}    let {one}{', '.join(slices)}{many} = unsafe {{ {one}{', '.join(makes)}{many} }};\n" if slices else ""
        out.append(f"""#[unsafe(no_mangle)]
pub {'unsafe ' if slices else ''}extern "C" fn {name}({', '.join(takes)}){f' -> {result}' if result else ''} {{
{body}    {module}::{name}({arguments})
}}
""")
    modules = {module for _, module, *_ in found} | {f"{homes[name]}::{name}" for name in used}
    return HEAD.format(imports=written(f"crate::proved::capi::{path}" for path in sorted(modules))) + "\n" + "\n".join(out)
