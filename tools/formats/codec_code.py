"""Code that writes and reads types as JSON."""

from formats.codecs import Codec, Field, Record, camel

READING = "using(deno_graph_json::proofs::Reading::reading)"


def tactic(module: str, *unfolded: str, reads_members: bool = True) -> str:
    """The line that names what a proof unfolds, and the lemmas that it uses where members are read."""
    names = ", ".join(f"crate::specs::Json::{module}::{name}" for name in unfolded)
    return f"#[tactic(auto, {f'{READING}, ' * reads_members}unfolding({names}))]"


def code(codec: Codec, module: str, whole: str) -> str:
    """The writer and the reader of a type. `whole` is the type that is read as a whole."""
    if codec.names:
        return names_code(codec, module, whole)
    return union_code(codec, module, whole) if codec.variants else record_code(codec, module, whole)


def list_of(codec: Codec) -> str:
    """The list of the names of a type, or of its variants."""
    return camel(codec.word) + ("s" if codec.names else "Types")


def expected(codec: Codec) -> str:
    return f"Expected::NameIn(NameList::{list_of(codec)})"


def put(value: str, member: Field) -> str:
    key = f'"{member.key}"'
    return {
        "tag": f'out.put_str({key}, "{member.name}")',
        "flag": f"out.put_flag({key}, {value})",
        "list": f"out.put_list({key}, &{value})",
        "optional": f"out.put_some({key}, &{value})",
        "default": f"out.put_unless({value}.{member.test}(), {key}, &{value})",
        "required": f"out.put({key}, &{value})",
    }[member.rule]


def puts(record: Record, indent: str, *, is_borrowed: bool = False) -> str:
    """Writes the members. The fields of a variant are borrowed."""
    lines = []
    for value, member in record.written:
        written = put(value if is_borrowed else f"self.{value.partition('.')[2]}", member)
        lines.append(written.replace(f"&{value}", value) if is_borrowed and "." not in value else written)
    return f"?;\n{indent}".join(lines)


def read(member: Field, reader: str) -> str:
    key = f'"{member.key}"'
    return {
        "flag": f"object.read_or({key}, false)?",
        "list": f"object.read_list({key})?",
        "optional": f"object.read_or({key}, None)?",
        "default": f"object.read_or({key}, {member.type}::{member.default})?",
        "required": f"object.read({key})?",
        "base": f"read_{member.name}({reader})?",
    }[member.rule]


def reads(record: Record, reader: str, indent: str) -> str:
    return "".join(f"{indent}let {each.name} = {read(each, reader)};\n" for each in record.read)


def to_object(codec: Codec, ascends: str, body: str, variants: str = "") -> str:
    held = f"\n    ghost is_held = {{ {codec.held} }};\n" * bool(codec.held)
    return (
        f"impl ToObject for {codec.type} {{\n{variants}    ghost entries = {{ {codec.word}_entries }};\n{held}\n"
        f"    ghost ascends = {{ {ascends} }};\n\n"
        f"    fn put_members(&self, out: &mut JsonWriter) -> Result<(), AllocError> {{\n        {body}\n    }}\n}}\n"
    )


def from_json(codec: Codec, tactics: str, whole: str, body: str) -> str:
    return (
        f"impl FromJson<{whole}> for {codec.type} {{\n    ghost reads = {{ reads_{codec.word} }};\n\n    {tactics}\n"
        f"    fn from_json(alloc: Global, value: Element<'_>) -> Result<{codec.type}, ReadError> {{\n{body}    }}\n}}\n"
    )


def reader(name: str, of: str, codec: Codec, whole: str, body: str) -> str:
    """A function that reads from the members of an object. It is public where other types have the members."""
    visible = "pub" if codec.is_base else "pub(crate)"
    return (
        f"{visible} fn {name}(object: &ObjectReader<{whole}>) -> Result<{codec.type}, ReadError>\n"
        f"    ensures {{ IsReadResult (value_of object.now) ({of} (readable object.now)) result }}\n{{\n{body}}}\n"
    )


def record_code(codec: Codec, module: str, whole: str) -> str:
    record = codec.record
    assert record
    made = f"{codec.type} {{ {', '.join(each.name for each in record.read)} }}"
    object_of = f"        let object = ObjectReader::<{whole}>::new(alloc, value)?;\n"
    parts = [to_object(codec, "λ _ _. refl", puts(record, "        "))]
    if not codec.is_value or codec.is_apart:
        parts += [
            f"/// Reads the members of a `{codec.type}`.\n{tactic(module, codec.reads)}\n"
            + reader(
                f"read_{codec.word}", codec.reads, codec, whole, reads(record, "object", "    ") + f"    Ok({made})\n"
            )
        ]
    if codec.is_value:
        body = object_of + reads(record, "&object", "        ") + f"        Ok({made})\n"
        if codec.is_apart:
            body = object_of + f"        read_{codec.word}(&object)\n"
        parts += [from_json(codec, tactic(module, f"reads_{codec.word}"), whole, body)]
    return "\n".join(parts)


def names_code(codec: Codec, module: str, whole: str) -> str:
    word, name = codec.word, codec.type
    made = {each: f"{name}::{camel(each)}" for each in codec.names}
    names = "".join(f'            {made[each]} => "{each}",\n' for each in codec.names)
    values = "".join(f'        "{each}" => Ok({made[each]}),\n' for each in codec.names)
    body = f"        let name = read_str(alloc, value)?;\n        {word}_named(alloc, name)\n"
    of_name = f"""impl {name} {{
    /// Returns the name in JSON.
    fn name(self) -> &'static str
        ensures {{ result.now ≡ {word}_name self }}
    {{
        match self {{
{names}        }}
    }}
}}

impl ToJson for {name} {{
    ghost json = {{ λ value. string ({word}_name value) }};

    fn write(&self, out: &mut JsonWriter) -> Result<(), AllocError> {{
        out.string(self.name())
    }}
}}
"""
    named = f"""/// Returns the value with this name in JSON.
{tactic(module, f"{word}_named", f"reads_{word}", reads_members=False)}
fn {word}_named(alloc: Global, name: &str) -> Result<{name}, ReadError>
    ensures read {{ IsReadResult (string name.now) ({word}_named name.now) result }}
    ensures expected {{ IfErr result (Expects (NameIn {list_of(codec)})) }}
{{
    match name {{
{values}        _ => Err(ReadError::expected(alloc, {expected(codec)})),
    }}
}}
"""
    return "\n".join([of_name, from_json(codec, tactic(module, f"reads_{word}"), whole, body), named])


def union_code(codec: Codec, module: str, whole: str) -> str:
    word, name = codec.word, codec.type
    if len(codec.variants) != 2:
        raise ValueError(f"{name} must have two variants")
    wrote, arms, readers = "", "", []
    for each in codec.variants:
        if each.codec:
            wrote += f"            {name}::{each.name}(value) => value.write(out),\n"
            arms += f'        "{each.tag}" => {{\n            let value = read_{each.codec.word}(object)?;\n'
            arms += f"            Ok({name}::{each.name}(value))\n        }}\n"
            continue
        assert each.record
        made = constructed(name, each.name, each.record)
        written = puts(each.record, " " * 16, is_borrowed=True)
        wrote += f"            {made} => {{\n                {written}\n            }}\n"
        if len(each.record.read) > 1:
            own = f"{each.tag}_{word}"
            arms += f'        "{each.tag}" => read_{own}(object),\n'
            readers += [
                f"/// Reads the members of a `{name}` of the type `{each.tag}`.\n{tactic(module, own)}\n"
                + reader(f"read_{own}", own, codec, whole, reads(each.record, "object", "    ") + f"    Ok({made})\n")
            ]
        elif each.record.read:
            read_first = reads(each.record, "object", " " * 12)
            arms += f'        "{each.tag}" => {{\n{read_first}            Ok({made})\n        }}\n'
        else:
            arms += f'        "{each.tag}" => Ok({made}),\n'
    has_entries = any(each.record for each in codec.variants)
    body = f"match self {{\n{wrote}        }}"
    parts = [to_object(codec, ascends(codec), body, variants_line(codec)) if has_entries else to_json(codec, body)]
    found = f"{word}_type"
    lines = f"        let object = ObjectReader::<{whole}>::new(alloc, value)?;\n"
    lines += f'        let {found} = object.read_str("type")?;\n        read_{word}({found}, &object)\n'
    parts += [
        from_json(codec, tactic(module, f"reads_{word}"), whole, lines),
        f"/// Reads a `{name}` of the type `{found}`.\n"
        + tactic(module, f"{word}_of_type", reads_members=False)
        + f"\nfn read_{word}({found}: &str, object: &ObjectReader<{whole}>) -> Result<{name}, ReadError>\n"
        f'    ensures read {{ get_member (codes "type") (readable object.now) ≡ Some (string {found}.now)\n'
        f"        → IsReadResult (value_of object.now) ({word}_of_type {found}.now (readable object.now)) result }}\n"
        f"    ensures expected {{ IsNoNameIn {list_of(codec)} (string {found}.now)\n"
        f"        → IfErr result (Expects (NameIn {list_of(codec)})) }}\n"
        f"{{\n    match {found} {{\n{arms}"
        f'        _ => Err(object.member_error("type", {expected(codec)})),\n    }}\n}}\n',
        *readers,
    ]
    return "\n".join(parts)


def constructed(name: str, variant: str, record: Record) -> str:
    """A variant with its fields: without names where it has only the members of another type."""
    fields = [each.name for each in record.read]
    if [each.rule for each in record.read] == ["base"]:
        return f"{name}::{variant}({fields[0]})"
    return f"{name}::{variant} {{ {', '.join(fields)} }}" if fields else f"{name}::{variant}"


def to_json(codec: Codec, body: str) -> str:
    held = f"\n    ghost is_held = {{ {codec.held} }};\n" * bool(codec.held)
    return (
        f"impl ToJson for {codec.type} {{\n    ghost json = {{ json_of_{codec.word} }};\n{held}\n"
        f"    fn write(&self, out: &mut JsonWriter) -> Result<(), AllocError> {{\n        {body}\n    }}\n}}\n"
    )


def ascends(codec: Codec) -> str:
    cases = []
    for each in codec.variants:
        assert each.record
        names = " ".join([f"{codec.alias}.{each.name}", *(member.name for member in each.record.read)])
        cases.append(f"{names} ↦ refl")
    proved = f"has_ascending_keys ({codec.word}_entries x) ≡ true"
    return f"λ x _. elim x as (λ x. {proved})\n        [ {' | '.join(cases)} ]"


def variants_line(codec: Codec) -> str:
    return f"    ghost use VARIANTS.{codec.type}.TheVariants as {codec.alias};\n\n"
