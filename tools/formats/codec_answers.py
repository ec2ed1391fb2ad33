"""Answers: proofs of the goals that the prover leaves open in readers and writers."""

from collections.abc import Iterator

from formats.codecs import Codec, Record

# The number of reads, and of writes, that the prover follows without an answer.
READS = 5
WRITES = 6
CALLS = {
    "tag": "put_str",
    "flag": "put_flag",
    "list": "put_list",
    "optional": "put_some",
    "default": "put_unless",
    "required": "put",
}
MORE = """-- one more entry
more : (k : List ℕ) (o : Option Data) (new old so_far : Output) → new ≡ with_present with_member k o old
    → old ≡ so_far → new ≡ with_present with_member k o so_far
more k o new old so_far put before = put ∙ ap (with_present with_member k o) before
"""


def answers(codec: Codec, whole: str) -> Iterator[tuple[str, str]]:
    """The path of each function with open goals, and its answers."""
    of_whole = "" if codec.type == whole else whole
    from_json = f"{codec.type}FromJson{of_whole}/from_json"
    if codec.variants:
        yield from_json, of_union(codec)
        yield f"read_{codec.word}", of_unknown(codec)
    elif codec.record:
        if len(codec.record.read) >= READS:
            path = from_json if codec.is_value else f"read_{codec.word}"
            yield path, of_reader(codec, codec.record)
        if len(codec.record.written) > WRITES:
            yield f"{codec.type}ToObject/put_members", of_writer(codec.record)


def of_union(codec: Codec) -> str:
    word = codec.word
    return (
        f"pub returns : goal.returns\nunfolding reads_{word}\nreturns c =\n"
        "    object_on _ _ (readable c.in_ok-object.object) _ c.in_ok-object.ensures\n"
        f"    (member_on _ _ _ _ _ _ c.in_ok-{word}_type.ensures\n"
        f"    (c.read_{word}.ensures.read c.in_ok-{word}_type.ensures))\n"
    )


def of_unknown(codec: Codec) -> str:
    word, goal = codec.word, "returns-in_default-clause-read"
    given, members = f"c.args.{word}_type.now", "readable c.args.object.now"
    lines = ["-- The type is none in the list.", f"pub {goal} : goal.{goal}", f"unfolding {word}_of_type"]
    lines += [f"{goal} c = λ here."]
    lines += [f"    let none : {word}_of_type {given} ({members}) ≡ None = search rules in"]
    for each in codec.variants:
        lines += [f'    let no_{each.tag} : bytes_eq {given} (codes "{each.tag}") ≡ false = search rules in']
    differs = ", (".join(f"no_{each.tag}" for each in codec.variants)
    lines += ["    read_error (value_of c.args.object.now) _ c.member_error.result none"]
    ends = ")" * (len(codec.variants) - 1)
    lines += [f"    (c.member_error.ensures.place (string {given}) here ({differs}, tt)){ends}"]
    return "\n".join([*lines, ""])


def in_rows(terms: list[str]) -> str:
    return "rw (\n" + "".join(f"  {term},\n" for term in terms) + ")"


def of_reader(codec: Codec, record: Record) -> str:
    """If one of the last members can't be read, the whole can't: the members before it were read."""
    names = [each.name for each in record.read]
    read = [f"c.in_ok-{name}.ensures" for name in names]
    unfolding = f"unfolding {codec.reads if not codec.is_value else f'reads_{codec.word}'}\n"
    parts = []
    for number, name in enumerate(names[READS:], READS):
        goal = f"returns-in_err-{name}"
        exits = f"(exits _ _ _ _ _ c.from_residual-in_err-{name}.ensures.1 c.in_err-{name}.ensures)"
        is_read = f"{in_rows(read[:number])} {exits}"
        if codec.is_value:
            is_read = f"object_on _ _ (readable c.in_ok-object.object) _ c.in_ok-object.ensures ({is_read})"
        is_read = is_read.replace("\n", "\n    ")
        parts.append(f"pub {goal} : goal.{goal}\n{unfolding}{goal} c =\n    {is_read}\n")
    all_read = ["c.in_ok-object.ensures"] * codec.is_value + read
    parts.append(f"pub returns : goal.returns\n{unfolding}returns c = {in_rows(all_read)}\n")
    comment = "-- If one of the last members can't be read, the whole can't: the members before it were read.\n"
    return comment * (len(parts) > 1) + "\n".join(parts)


def of_writer(record: Record) -> str:
    calls: list[tuple[str, str]] = []
    for _, member in record.written:
        call = CALLS[member.rule]
        number = sum(name.partition("-")[0] == call for name, _ in calls) + 1
        calls.append((f"{call}-{number}" if number > 1 else call, member.name))
    *before, (last, last_name) = [call for call in calls]
    terms = [f"c.in_ok-{call}.ensures{'' if call.startswith('put_str') else '.ok'}" for call, _ in before]
    head = (
        f"pub returns-clause-ok : goal.returns-clause-ok\nreturns-clause-ok c = on_ok_weaker c.{last}.result (λ put. "
    )
    tests = [f"c.{member.test}.ensures" for _, member in record.written if member.rule == "default"]
    if tests:
        return f"{head}{in_rows([*reversed(terms), *tests]).replace('rw (', 'cc (')}) c.{last}.ensures.ok\n"
    first, *others = terms
    more = "more _ _ _ _ _ put\n" + "".join(f"    (more _ _ _ _ _ {term}\n" for term in reversed(others))
    ok = f"{head}{more}    {first}{')' * len(others)}) c.{last}.ensures.ok\n"
    at = {name: f"c.in_ok-{call}.ensures.held" for call, name in before} | {last_name: "held"}
    fields = "".join(f"  {each.name} = {at[each.name]};\n" for each in record.held)
    return (
        f"{MORE}\n{ok}\npub returns-clause-held : goal.returns-clause-held\n"
        f"returns-clause-held c = on_ok_weaker c.{last}.result (λ held. record {{\n{fields}}}) c.{last}.ensures.held\n"
    )
