"""Definitions of the JSON of types: the entries of an object, what holds of a value, and what is read."""

from formats.codecs import Codec, Field, Record, Variant, camel


def specs(codec: Codec) -> str:
    """The definitions of a type."""
    if codec.names:
        return names_specs(codec)
    return union_specs(codec) if codec.variants else record_specs(codec)


def entry(value: str, member: Field) -> str:
    """The value of a member, or none where it is left out."""
    written = member.value.written(value)
    return {
        "tag": f'Some (string (codes "{member.name}"))',
        "flag": written,
        "list": f"option_map (array_of {member.value.json}) (if_any {value})",
        "optional": f"option_map {member.value.json} {value}",
        "default": f"unless ({member.test} {value}) ({written})",
        "required": f"Some ({written})",
    }[member.rule]


def entries(record: Record) -> str:
    return "\n    ∷ ".join([f'(codes "{each.key}", {entry(value, each)})' for value, each in record.written] + ["[]"])


def reading(member: Field, members: str = "ms") -> str:
    """What reads a member from the members of an object."""
    key, reads = f'(codes "{member.key}")', member.value.reads
    return {
        "flag": f"member_or as_bool {key} false {members}",
        "list": f"member_or (reads_array {reads}) {key} [] {members}",
        "optional": f"member_or (reads_optional {reads}) {key} None {members}",
        "default": f"member_or {reads} {key} {camel(member.word)}.{member.default} {members}",
        "required": f"member_at {reads} {key} {members}",
        "base": f"{member.name}_of {members}",
    }[member.rule]


def steps(record: Record, made: str) -> list[str]:
    return [*(f"  {each.name} ← {reading(each)}" for each in record.read), f"  Some {made}"]


def condition(value: str, member: Field) -> str:
    """What holds of a value of a member."""
    held = member.value.held
    return {"list": f"All {held} {value}", "optional": f"IfSome {value} {held}"}.get(member.rule, f"{held} {value}")


def held_specs(codec: Codec, record: Record) -> list[str]:
    """What holds of each value: a record, or the one condition."""
    letter, conditions = codec.letter, [(each.name, condition(record.of(each), each)) for each in record.held]
    if not conditions:
        return []
    comment = "-- what holds of each value that exists at run time: numbers fit, and the keys of attributes ascend"
    if len(conditions) == 1:
        lines = [f"abbrev pub {codec.held} : {codec.type} → Type 0", f"{codec.held} {letter} = {conditions[0][1]}"]
    else:
        lines = [f"pub record {codec.held} ({letter} : {codec.type}) : Type 0 where"]
        lines += [f"  pub {name} : {is_held}" for name, is_held in conditions]
    return ["", comment, *lines]


def record_specs(codec: Codec) -> str:
    word, name, letter, record = codec.word, codec.type, codec.letter, codec.record
    assert record
    fields = "".join(f"    {each.name} = {each.name};\n" for each in record.read)
    read = steps(record, f"(record {{\n{fields}  }})")
    lines = ["-- the members, each with its value, or with none where it is left out"]
    lines += [f"abbrev pub {word}_entries : {name} → List Entry", f"{word}_entries {letter} ="]
    lines += [f"    {entries(record)}", "", f"abbrev pub json_of_{word} : {name} → Data"]
    lines += [f"json_of_{word} {letter} = object_of ({word}_entries {letter})", *held_specs(codec, record), ""]
    if codec.is_value and not codec.is_apart:
        lines += ["-- an object with these members. Others are ignored."]
        lines += [f"unfoldable pub reads_{word} : Data → Option {name}", f"reads_{word} d = do", "  ms ← as_object d"]
        return "\n".join([*lines, *read])
    lines += ["-- the members of an object. Others are ignored."]
    lines += [f"unfoldable pub {codec.reads} : Members → Option {name}", f"{codec.reads} ms = do", *read]
    if codec.is_value:
        lines += ["", "-- an object with these members"]
        lines += [f"unfoldable pub reads_{word} : Data → Option {name}", f"reads_{word} d = do"]
        lines += ["  ms ← as_object d", f"  {codec.reads} ms"]
    return "\n".join(lines)


def names_specs(codec: Codec) -> str:
    word, name = codec.word, codec.type
    made = {each: f"{codec.alias}.{camel(each)}" for each in codec.names}
    tests = [f'if bytes_eq name (codes "{each}") then Some {made[each]}' for each in codec.names]
    return "\n".join(
        [
            f"abbrev pub {word}_name : {name} → List ℕ",
            *(f'{word}_name {made[each]} = codes "{each}"' for each in codec.names),
            "",
            "-- the value with this name",
            f"unfoldable pub {word}_named : List ℕ → Option {name}",
            f"{word}_named name =",
            "    " + "\n    else ".join([*tests, "None"]),
            "",
            "-- the value whose name the data are",
            f"unfoldable pub reads_{word} : Data → Option {name}",
            f"reads_{word} d = do",
            "  name ← as_str d",
            f"  {word}_named name",
        ]
    )


def pattern(codec: Codec, name: str, record: Record | None) -> str:
    """A variant with a name for each of its fields, in parentheses where it has some."""
    fields = [each.name for each in record.read] if record else ["d"]
    made = " ".join([f"{codec.alias}.{name}", *fields])
    return f"({made})" if fields else made


def union_specs(codec: Codec) -> str:
    word, name = codec.word, codec.type
    lines: list[str] = []
    has_entries = any(each.record for each in codec.variants)
    if has_entries:
        lines += ["-- the members, each with its value, or with none where it is left out"]
        lines += [f"abbrev pub {word}_entries : {name} → List Entry"]
        for each in codec.variants:
            assert each.record
            lines += [f"{word}_entries {pattern(codec, each.name, each.record)} =", f"    {entries(each.record)}"]
        lines += ["", f"abbrev pub json_of_{word} : {name} → Data"]
        lines += [f"json_of_{word} {codec.letter} = object_of ({word}_entries {codec.letter})"]
    else:
        lines += [f"abbrev pub json_of_{word} : {name} → Data"]
        for each in codec.variants:
            assert each.codec
            lines += [f"json_of_{word} {pattern(codec, each.name, None)} = json_of_{each.codec.word} d"]
    if codec.held:
        lines += ["", "-- what holds of each value that exists at run time"]
        lines += [f"abbrev pub {codec.held} : {name} → Type 0"]
        for each in codec.variants:
            lines += [f"{codec.held} {pattern(codec, each.name, each.record)} = {variant_condition(each)}"]
    of_type = f"{word}_of_type"
    tests = []
    for each in codec.variants:
        made = pattern(codec, each.name, each.record)
        test = f'if bytes_eq type (codes "{each.tag}")'
        if each.record and len(each.record.read) > 1:
            own = f"{each.tag}_{word}"
            lines += ["", f"-- the members of an object with the type `{each.tag}`"]
            lines += [f"unfoldable pub {own} : Members → Option {name}", f"{own} ms = do", *steps(each.record, made)]
            tests += [f"{test} then {own} ms"]
        elif each.record and not each.record.read:
            tests += [f"{test} then Some {made}"]
        else:
            read = steps(each.record, made) if each.record else [f"  d ← {codec_of(each).reads} ms", f"  Some {made}"]
            tests += ["\n".join([test, "    then (do", *(f"    {line}" for line in read)]) + ")"]
    lines += ["", "-- an object of this type", f"unfoldable pub {of_type} : List ℕ → Members → Option {name}"]
    lines += [f"{of_type} type ms =", "    " + "\n    else ".join([*tests, "None"])]
    lines += ["", "-- an object with one of these types", f"unfoldable pub reads_{word} : Data → Option {name}"]
    lines += [f"reads_{word} d = do", "  ms ← as_object d", '  type ← member_at as_str (codes "type") ms']
    return "\n".join([*lines, f"  {of_type} type ms"])


def codec_of(variant: Variant) -> Codec:
    assert variant.codec
    return variant.codec


def variant_condition(variant: Variant) -> str:
    if variant.codec:
        return f"{variant.codec.held} d"
    assert variant.record
    conditions = [condition(variant.record.of(each), each) for each in variant.record.held]
    return " × ".join(conditions) or "Unit {0}"
