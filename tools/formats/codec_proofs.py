"""The proofs that what is written of a type is read back, and that it has no float."""

from collections.abc import Iterable

from sources import BuildError

from formats.codec_specs import codec_of, pattern
from formats.codecs import Codec, Field, Record, camel


def proofs(codec: Codec) -> str:
    """The proofs of a type."""
    if codec.names:
        return names_proofs(codec)
    return union_proofs(codec) if codec.variants else record_proofs(codec)


def chain(steps: Iterable[str]) -> str:
    """Steps, each in the last argument of the one before it."""
    *before, last = [*steps]
    return "\n    (".join([*before, f"{last} refl"]) + ")" * len(before)


def back_step(member: Field, value: str, held: str, distinct: str = "refl", entry: str = "refl") -> str:
    """A member is read back, and reading goes on."""
    after = f" {held}" * bool(member.value.held)
    back = member.value.back
    if member.rule == "base":
        entries = " refl" * (1 + len(member.members))
        return f"goes_on _ _ {value} _ ({member.name}_members_back {value} es{entries}{after})"
    if member.rule == "required":
        return (
            f"reads_at _ _ _ _ es {value} {distinct} {entry if entry != 'refl' else member.value.is_back(value, held)}"
        )
    if member.rule == "list":
        of_each = f"{member.value.reads} {member.value.json} {member.value.held} {back}"
        return f"reads_or _ _ _ _ _ es {value} refl (list_back {of_each} {value} {held})"
    if member.rule == "optional" and after:
        back = back.replace("_back", "_option_back")
    return f"reads_or _ _ _ _ _ es {value} refl ({back} {value}{after})"


def back_steps(record: Record) -> list[str]:
    is_one = len(record.held) == 1
    return [back_step(each, record.of(each), "h" if is_one else f"h.{each.name}") for each in record.read]


def float_steps(record: Record) -> list[str]:
    """For each member whose JSON has a float or none only by its value."""
    found = []
    for value, member in record.written:
        lemma = member.value.no_float
        if member.rule == "list":
            lemma = f"no_float-if_any {member.value.json} {lemma}"
        elif member.rule == "optional" and member.value.held:
            lemma = lemma.replace("_no_float", "_option_no_float")
        if lemma and not (member.rule == "required" and member.value.json.endswith(")")):
            found.append(f"neither _ _ ({lemma} {value})")
    return found


def no_float(record: Record, entries: str) -> str:
    steps = float_steps(record)
    return f"    no_float-object_of ({entries})" + (f"\n    ({chain(steps)})" if steps else " refl")


def record_proofs(codec: Codec) -> str:
    word, name, letter, record = codec.word, codec.type, codec.letter, codec.record
    assert record
    entries, json = f"{word}_entries {letter}", f"json_of_{word} {letter}"
    read = f"reads_{word} ({json})" if codec.is_value else f"reads_{word} (put_entries ({entries}) no_members)"
    held, given = (f" → {codec.held} {letter}", " h") if codec.held else ("", "")
    lines = base_proofs(codec, record) if codec.is_base else []
    lines += ["-- the JSON is read back"]
    lines += [
        f"pub {word}_back : ({letter} : {name}){held}",
        f"    → {read} ≡ Some {letter}",
        f"unfolding reads_{word}{f' {codec.reads}' * (codec.is_apart and not codec.is_base)}",
    ]
    if codec.is_base:
        refls = " refl" * (1 + len(record.fields))
        lines += [f"{word}_back {letter} h = {word}_members_back {letter} ({entries}){refls} h"]
    else:
        lines += [f"{word}_back {letter}{given} =", f"    let es = {entries} in", f"    {chain(back_steps(record))}"]
    lines += ["", "-- the JSON has no float"]
    lines += [f"pub {word}_no_float : ({letter} : {name}) → has_float ({json}) ≡ false"]
    lines += [f"{word}_no_float {letter} =", no_float(record, entries)]
    if codec.is_optional:
        lines += ["", "-- a value that is left out if there is none"]
        lines += [f"pub {word}_option_back : (o : Option {name}) → IfSome o {codec.held}"]
        lines += [f"    → read_or (reads_optional reads_{word}) None (option_map json_of_{word} o) ≡ Some o"]
        lines += ["unfolding reads_optional", f"{word}_option_back None h = refl"]
        lines += [f"{word}_option_back (Some {letter}) h = goes_on _ _ {letter} _ ({word}_back {letter} h) refl", ""]
        lines += [f"pub {word}_option_no_float : (o : Option {name})"]
        lines += [f"    → option_has_float (option_map json_of_{word} o) ≡ false"]
        lines += [f"{word}_option_no_float o = no_float-option json_of_{word} {word}_no_float o"]
    return "\n".join(lines)


def base_proofs(codec: Codec, record: Record) -> list[str]:
    """The members are read back from the entries of any object that has them."""
    word, letter = codec.word, codec.letter
    if any(each.rule != "required" for each in record.fields) or len(record.held) != 1:
        raise BuildError(f"{codec.type}: members that other types have are required, and one has numbers or keys")
    known = {each.key: f"Some ({each.value.written(record.of(each))})" for each in record.fields}
    lines = ["-- the members are read back from an object that has them, with any others"]
    lines += [f"pub {word}_members_back : ({letter} : {codec.type}) (es : List Entry) → has_distinct_keys es ≡ true"]
    lines += [f'    → entry_at (codes "{key}") es ≡ {known[key]}' for key in known]
    lines += [f"    → {codec.held} {letter} → {codec.reads} (put_entries es no_members) ≡ Some {letter}"]
    lines += [f"unfolding {codec.reads}"]
    lines += [f"{word}_members_back {letter} es distinct {' '.join(each.name for each in record.fields)} h ="]
    steps = []
    for each in record.fields:
        back = each.value.is_back(record.of(each), "h")
        entry = f"ap (λ o. o >>= {each.value.reads}) {each.name}"
        entry = f"({entry} ∙ {back[1:-1]})" if back != "refl" else f"({entry})"
        steps.append(back_step(each, record.of(each), "h", "distinct", entry))
    return [*lines, f"    {chain(steps)}", ""]


def names_proofs(codec: Codec) -> str:
    word, name = codec.word, codec.type
    made = [f"{codec.alias}.{camel(each)}" for each in codec.names]
    [test] = [each.test for each in [Field("default", "", "", type=name, word=word, default=camel(codec.default))]]
    written = f"string ({word}_name k)"
    unfolded = f"unfolding reads_{word} {word}_named"
    if not codec.default:
        lines = ["-- each name is read back", f"pub {word}_back : (k : {name}) → reads_{word} ({written}) ≡ Some k"]
        return "\n".join([*lines, unfolded, *(f"{word}_back {each} = refl" for each in made)])
    default = f"{codec.alias}.{camel(codec.default)}"
    lines = [f"-- each name is read back, of which `{codec.default}` is left out"]
    lines += [f"pub {word}_back : (k : {name})"]
    lines += [f"    → read_or reads_{word} {default} (unless ({test} k) ({written}))", "    ≡ Some k", unfolded]
    lines += [*(f"{word}_back {each} = refl" for each in made), ""]
    lines += [f"pub {word}_no_float : (k : {name})", f"    → option_has_float (unless ({test} k) ({written})) ≡ false"]
    return "\n".join([*lines, *(f"{word}_no_float {each} = refl" for each in made)])


def union_proofs(codec: Codec) -> str:
    word, name, letter = codec.word, codec.type, codec.letter
    own = [f"{each.tag}_{word}" for each in codec.variants if each.record and len(each.record.read) > 1]
    held, given = (f" → {codec.held} {letter}", " h") if codec.held else ("", "")
    lines = ["-- the JSON is read back"]
    lines += [f"pub {word}_back : ({letter} : {name}){held}"]
    lines += [f"    → reads_{word} (json_of_{word} {letter}) ≡ Some {letter}"]
    lines += [" ".join(["unfolding", f"reads_{word}", f"{word}_of_type", *own])]
    for each in codec.variants:
        made = pattern(codec, each.name, each.record)
        if each.record:
            if len(each.record.held) > 1:
                raise BuildError(f"{name}: two members of a variant have numbers or keys")
            entries, steps = f"{word}_entries {made}", back_steps(each.record)
        else:
            entries = f"{codec_of(each).word}_entries d"
            steps = [f"goes_on _ _ d _ ({codec_of(each).word}_back d h)"]
        found = 'member_at-table as_str (codes "type") es _ refl refl'
        steps = [f'goes_on _ _ (codes "{each.tag}") _ ({found})', *steps]
        lines += [f"{word}_back {made}{given} =", f"    let es = {entries} in", f"    {chain(steps)}"]
    lines += ["", "-- the JSON has no float"]
    lines += [f"pub {word}_no_float : ({letter} : {name}) → has_float (json_of_{word} {letter}) ≡ false"]
    for each in codec.variants:
        made = pattern(codec, each.name, each.record)
        if each.record:
            lines += [f"{word}_no_float {made} =", no_float(each.record, f"{word}_entries {made}")]
        else:
            lines += [f"{word}_no_float {made} = {codec_of(each).word}_no_float d"]
    return "\n".join(lines)
