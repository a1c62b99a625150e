"""What the eraser knows, and what it refuses: the forms that Rust has not, and those that both languages take and run differently
(the guide FROM_RUST.md, 'What differs silently', LANGUAGE.md and MACROS.md). Each of these is refused here, but for those that cannot
come from a crate:
- an error of `write!` to a `String`: `String` is the kit's in Rust too, and `std::string` is not among the paths of rewrites.py;
- `anyhow`, threads, channels, `Index`, `iter::once`, `iter::empty`: their crates and modules are not among these paths;
- the order in which elements are dropped, and a pattern that takes a value apart: no type has a destructor (`impl Drop`)."""

ATTRIBUTES = "cfg(test) cold inline inline(always) inline(never) must_use repr(C) test unsafe(no_mangle)".split()
DERIVES = "Clone Copy Debug Drop Eq PartialEq".split()
MACROS = set("assert format macro_rules matches prove unreachable vec write writeln".split())
LAYOUT = "fields lie in another order in Rust, and a closure has another size"
WORDS = {
    "align_of": LAYOUT, "offset_of": LAYOUT, "size_of_val": LAYOUT, "transmute": LAYOUT,
    "Model": "it serves proofs alone",
    "final": "Rust has no such method",
    "stmt": "a block that ends with a macro may have another value in Rust",
}
CALLS = {
    "clone": "it is a Result in Rattle alone", "cloned": "it is a Result in Rattle alone",
    "into_iter": "its type is another one in Rust", "try_into": "its error may have another type in Rust",
}
# The methods of arrays, slices, numbers and vectors, and of the traits that need no import: a method of ours with one of these names
# may be another one in Rust.
METHODS_OF_STD = set("""abs as_array as_bytes as_chunks as_mut as_ref as_slice chars clone clone_from cmp concat contains
    copy_from_slice copy_to_slice drop each_ref ends_with eq extend fill first flatten from from_array from_slice ge get get_mut gt
    into into_iter is_empty iter iter_mut join last le len lines lt map max min ne partial_cmp pow repeat reverse rotate_left
    rotate_right shuffle sort splat split split_at starts_with swap swizzle to_array to_owned to_string to_vec try_from try_into windows
    """.split())


def traits_of(source):
    """The traits that a source declares, with their methods and the lines of these."""
    for at, token in enumerate(source.tokens):
        if token.text == "trait" and token.kind == "word":
            body = source.find(at, "{")
            yield source.tokens[source.near(at, 1)].text, {
                source.tokens[source.near(i, 1)].text: source.tokens[i].line
                for i in range(body, source.close(body)) if source.tokens[i].text == "fn"}


def macros_of(source):
    """The macros that a source declares."""
    return {source.tokens[source.near(at, 1)].text for at, token in enumerate(source.tokens)
            if token.text == "!" and source.is_at(at, -1, "macro_rules")}


def structs_for_c(source):
    """The structs whose layout is that of C, which is the same in both languages."""
    for at, token in enumerate(source.tokens):
        if token.text == "#" and source.is_at(at, 1, "[", "repr", "(", "C"):
            yield source.tokens[source.near(source.find(at, "struct"), 1)].text


def check(source, known):
    """Refuses what Rust has not or runs differently."""
    tokens = source.tokens
    for _, methods in traits_of(source):
        for name in set(methods) & METHODS_OF_STD:
            source.refuse(methods[name], f"a method of a trait is called `{name}`, as one of `std`: in Rust another one may run")
    import_end = 0
    for at, token in enumerate(tokens):
        if token.text == "use" and token.kind == "word":
            import_end = source.find(at, ";")  # the paths of imports are checked where they are mapped
        if at < import_end or token.kind not in ("sign", "word"):
            continue
        before = tokens[source.near(at, -1)] if source.near(at, -1) is not None else token
        behind = tokens[source.near(at, 1)].text if source.near(at, 1) is not None else ""
        if token.text == "..":
            if before.kind in ("word", "number", "char") or before.text in (")", "]"):
                check_range(source, at, behind)
            rest = source.near(at, 1)
            is_name = tokens[rest].kind != "word" or tokens[source.near(rest, 1)].text in ("}", ",", "]", ")")
            if before.text in (",", "{") and not is_name:
                source.refuse(token.line, "a struct from the rest of another one, which is not a name: Rust evaluates it")
        elif token.text == "!" and before.kind == "word" and behind in ("(", "[", "{") and before.text not in MACROS | known.macros:
            if before.text not in ("else", "if", "in", "match", "return", "while"):
                source.refuse(token.line, f"the eraser does not know the macro `{before.text}!`")
        elif token.text in WORDS:
            source.refuse(token.line, f"`{token.text}`: {WORDS[token.text]}")
        elif token.text in CALLS and before.text in (".", "::") and behind == "(":
            source.refuse(token.line, f"`{token.text}`: {CALLS[token.text]}")
        elif token.text == "unsafe" and not source.is_at(at, 1, "(", "no_mangle"):
            source.refuse(token.line, "`unsafe` in a crate")
        elif token.text == "mut" and before.text == "static":
            source.refuse(token.line, "`static mut` is not in Rattle")
        elif token.text == "size_of" and not any(source.is_at(at, 1, "::", "<", name, ">") for name in known.structs_for_c):
            source.refuse(token.line, f"`size_of` of a type that is not laid out for C: {LAYOUT}")
        elif token.text == "try_from" and before.text == "::" and not is_matched(source, at):
            source.refuse(token.line, "the error of `try_from` may have another type in Rust: write a `match` with `Err(_)`")
        elif token.text == "impl" and before.text not in ("(", ":", "->", "<", ",", "&", "mut", "+"):
            check_impl(source, at)


def check_range(source, at, behind):
    """Refuses a range with a start and no end, unless it cuts a slice."""
    if behind not in (")", "]", "}", "{", ",", ";"):
        return
    start, depth = at, 0
    while depth >= 0 and start:
        start = source.near(start, -1)
        depth += (source.tokens[start].text in (")", "]", "}")) - (source.tokens[start].text in ("(", "[", "{"))
    cut = source.tokens[source.near(start, -1)]
    is_index = source.tokens[start].text == "[" and (cut.kind == "word" and cut.text not in ("in", "return", "match", "if", "else")
                                                     or cut.text in (")", "]", "?"))
    if not is_index and not source.is_at(start, -1, "get", ".") and not source.is_at(start, -1, "get_mut", "."):
        source.refuse(source.tokens[at].line, "a range without an end ends at another number in Rust")


def is_matched(source, at):
    """Whether a call of `try_from` is what a `match` looks at, which looks at no error."""
    tokens, start, depth = source.tokens, at, 0
    while depth or tokens[start].text not in ("match", ";", "{", "}", "="):
        start = source.near(start, -1)
        depth += (tokens[start].text in (")", "]")) - (tokens[start].text in ("(", "["))
    body = source.near(source.close(source.near(at, 1)), 1)
    if tokens[start].text != "match" or tokens[body].text != "{":
        return False
    patterns = [i for i in range(body, source.close(body)) if tokens[i].text == "Err" and source.is_at(i, 1, "(")
                and tokens[source.near(source.close(source.near(i, 1)), 1)].text in ("=>", "if", "|")]
    return all(source.is_at(i, 1, "(", "_", ")") for i in patterns)


def check_impl(source, at):
    """Refuses an `impl` that Rust may pass over where Rattle picks it, and destructors."""
    line = source.tokens[at].line
    head = [token for token in source.tokens[at + 1:source.find(at, "{", ";")] if token.is_code()]
    texts = [token.text for token in head]
    parameters, depth, end = set(), texts[0] == "<", 1 if texts[0] == "<" else 0
    while depth:
        if depth == 1 and head[end].kind == "word" and texts[end - 1] in ("<", ","):
            parameters.add(texts[end])
        depth += (texts[end] == "<") - (texts[end] == ">")
        end += 1
    until = texts.index("where") if "where" in texts else len(texts)
    trait, kind = (texts[end:texts.index("for")], texts[texts.index("for") + 1:until]) if "for" in texts else ([], texts[end:until])
    if trait[:1] == ["Drop"]:
        source.refuse(line, "a destructor: Rust calls it with `&mut self`, and in another order")
    if len(kind) == 1 and kind[0] in parameters:
        source.refuse(line, f"an `impl` for every `{kind[0]}` may fit other types in Rust")
    for here, text in enumerate(kind):
        if text == "&" and here and kind[here - 1] in ("<", ",") and parameters & set(kind[here + 1:here + 4]):
            source.refuse(line, "an `impl` for a type over a reference to a parameter, which Rust may pass over")
