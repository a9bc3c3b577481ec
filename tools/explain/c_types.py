"""Types of C, as debugging information has them: which are the same, and what stands at an offset of one.

Types are told apart as calls need it, a little less than C does: without qualifiers and names of types, numbers by their size and sign,
an enumeration as the number that it is.
"""

STRIPPED = {"DW_TAG_typedef", "DW_TAG_const_type", "DW_TAG_volatile_type", "DW_TAG_restrict_type", "DW_TAG_atomic_type"}
POINTERS = {"DW_TAG_pointer_type", "DW_TAG_reference_type", "DW_TAG_rvalue_reference_type"}
STRUCTURES = {"DW_TAG_structure_type": "struct", "DW_TAG_union_type": "union", "DW_TAG_class_type": "struct"}
FUNCTIONS = {"DW_TAG_subroutine_type", "DW_TAG_subprogram"}
ENCODINGS = {2: "bool", 4: "f", 5: "i", 6: "i", 7: "u", 8: "u"}  # of whole numbers and fractions, as u8
PLUS_PLUS = {0x04, 0x1A, 0x21, 0x2B, 0x2C}  # the numbers of C++ among languages, where each type of a function has its parameters
VIRTUAL = b"__vtbl_ptr_type"  # what compilers give each virtual function for a type
ORIGINS = "DW_AT_abstract_origin", "DW_AT_specification"  # what an entry is a copy or the rest of
POINTER, DEEPEST = 8, 8


def attribute(die, name):
    """An attribute's value, that of what a copy of a function is of, or None."""
    while die is not None:
        if name in die.attributes:
            return die.attributes[name].value
        link = next((link for link in ORIGINS if link in die.attributes), None)
        die = die.get_DIE_from_attribute(link) if link else None
    return None


def type_of(die):
    """The type that an entry names, without names of types and qualifiers, or None for void."""
    while die is not None:
        link = next((link for link in ("DW_AT_type", *ORIGINS) if link in die.attributes), None)
        die = die.get_DIE_from_attribute(link) if link else None
        if die is None or link == "DW_AT_type" and die.tag not in STRIPPED:
            return die
    return None


def key(die, depth=0):
    """What two types have in common that are the same."""
    if die is None:
        return "void"
    if depth > DEEPEST:
        return ".."
    if die.tag == "DW_TAG_base_type":
        encoding = attribute(die, "DW_AT_encoding")
        return "%s%d" % (ENCODINGS.get(encoding, "encoding %s of " % encoding), 8 * attribute(die, "DW_AT_byte_size"))
    if die.tag == "DW_TAG_enumeration_type":
        return key(type_of(die)) if type_of(die) else "u%d" % (8 * (attribute(die, "DW_AT_byte_size") or 4))
    if die.tag in POINTERS:
        return "*" + key(type_of(die), depth + 1)
    if die.tag == "DW_TAG_array_type":
        return "[]" + key(type_of(die), depth + 1)
    if die.tag in FUNCTIONS:
        return signature(die, depth + 1) or "any function"
    if die.tag in STRUCTURES:
        name = attribute(die, "DW_AT_name")
        inner = name.decode("utf-8", "replace") if name else ",".join(key(type_of(each), depth + 1) for each in members(die))
        return "%s %s" % (STRUCTURES[die.tag], inner)
    return die.tag


def signature(die, depth=0):
    """The result and the parameters of a function, or None where its parameters are not told."""
    if not attribute(die, "DW_AT_prototyped") and language(die) not in PLUS_PLUS:
        return None
    rows = [each for each in parameters(die) if each.tag in ("DW_TAG_formal_parameter", "DW_TAG_unspecified_parameters")]
    told = [key(type_of(each), depth + 1) if each.tag == "DW_TAG_formal_parameter" else "more" for each in rows]
    return "%s(%s)" % (key(type_of(die), depth + 1), ", ".join(told))


def parameters(die):
    """The entries of a function's parameters: those of what it is a copy of, which may have more."""
    while "DW_AT_abstract_origin" in die.attributes:
        die = die.get_DIE_from_attribute("DW_AT_abstract_origin")
    return die.iter_children()


def language(die):
    return attribute(die.cu.get_top_DIE(), "DW_AT_language")


def members(die):
    return [each for each in die.iter_children() if each.tag in ("DW_TAG_member", "DW_TAG_inheritance")]


def size_of(die):
    """How many bytes a type has, or 0 where it is not known."""
    if die is None:
        return 0
    if die.tag in POINTERS:
        return POINTER
    if die.tag == "DW_TAG_array_type":
        return count_of(die) * size_of(type_of(die))
    return attribute(die, "DW_AT_byte_size") or 0


def count_of(die):
    """How many elements an array has."""
    count = 1
    for each in die.iter_children():
        upper, told = attribute(each, "DW_AT_upper_bound"), attribute(each, "DW_AT_count")
        count *= told if isinstance(told, int) else upper + 1 if isinstance(upper, int) else 0
    return count


def stride_of(die):
    """How far apart the elements are that a pointer to a type may go through."""
    return size_of(type_of(die)) if die.tag == "DW_TAG_array_type" else size_of(die)


def whole_of(die, complete):
    """A structure, or that of its name where it is declared alone."""
    return complete.get(key(die), die) if attribute(die, "DW_AT_declaration") else die


def found_at(die, offset, complete):
    """The types, one a way, that stand at an offset of a type: of a union there may be several."""
    if die is None:
        return []
    if die.tag == "DW_TAG_array_type":
        element = type_of(die)
        size = size_of(element)
        return found_at(element, offset % size, complete) if size else []
    if die.tag not in STRUCTURES:
        return [die] if offset == 0 else []
    rows = [(type_of(each), offset - (attribute(each, "DW_AT_data_member_location") or 0)) for each in members(whole_of(die, complete))]
    return [found for inner, at in rows if 0 <= at < (size_of(inner) or 1) for found in found_at(inner, at, complete)]


def arrays_in(die, complete, at=0):
    """The arrays that a type is or has within, each with where it begins."""
    if die is None:
        return
    if die.tag == "DW_TAG_array_type":
        yield die, at
        yield from arrays_in(type_of(die), complete, at)
    elif die.tag in STRUCTURES:
        for each in members(whole_of(die, complete)):
            yield from arrays_in(type_of(each), complete, at + (attribute(each, "DW_AT_data_member_location") or 0))
