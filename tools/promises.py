"""Reads the promises of the public functions of crates/*/src, for tools/check-claims.

The rules ask of every public function (S1, S3) that its promise equates its result, and every buffer that it may
write as it is at exit, with a definition, over any input. So for each `pub fn`:
  no `requires`;
  if it returns something, an `ensures` with an equation whose left side is `result`, or `result.now`;
  for each parameter `x` of type `&mut`, an `ensures` with an equation whose left side is `x.new`.
A method of a public trait promises for every type that has the trait, so it is read as a public function is; there a
ghost member of the trait may stand before `result`, as `bits result`, since each type says what it means.
What a function refuses is a `Result` whose error is a numbered reason: its `refusal_number` has to be equated, and the
value that it holds where nothing is refused, by `IfOk result (λ x. x ≡ ..)`, unless that is `()`.
Whether a clause has a name does not matter, nor in how many clauses the equations stand. An equation whose right side
speaks of the result, or of anything at exit, does not count: two of them could lean on each other and say nothing. Nor
does one under a condition, one of a choice or of an equivalence, or one of a value that only is claimed to be there
(`(k : ℕ) × ..`). A relation that a file of specs/ defines counts where its definition so equates: without a condition,
or in both of two cases `a ≡ b → ..` and `a ≢ b → ..`, each of which may be parted again; a relation that it names is
read in its place. A result that is a struct is also known where every field of it is equated.
What else is needed is an exemption with its reason (EXEMPT in tools/check-claims). A function, a clause or a parameter
of a form that is not read here is a fault, so that none goes by unread.
"""
import re

# Under these functions a result or a buffer at exit may be equated: the state that words stand for. What is left open
# then is what the words do not mean.
MEANINGS = ("pair_of", "card_of", "table_of", "ledger_in", "choice_of")
# The same of several buffers that hold one state together: each is an argument.
MEANINGS_TOGETHER = ("replaying_of",)

HEAD = re.compile(r'(?:\b(pub)\s+)?(?:\bextern\s+"C"\s+)?\bfn\s+(\w+)\s*(?:<[^>]*>)?\s*\(')
# What may be a public function, in whatever form. `pub(crate)` is none: the kit hides such a function from other crates.
ANY_HEAD = re.compile(r"\bpub\b(?!\(crate\))[^;{}()]*(?:\([^)]*\)[^;{}()]*)?\bfn\b")
# A clause with its name, if it has one. A starred clause, which speaks of memory, is kept as of another kind.
CLAUSE = re.compile(r"\s*(requires|ensures)\b\s*(\*?)\s*(?:\w+\s*)?\{")
RESULT = re.compile(r"\s*->\s*(.*?)\s*(?=\b(?:ghost|requires|ensures|where)\b|\{)", flags=re.S)
# A parameter that is lent for writing, and its name.
LENT = re.compile(r"(?:(?:mut\s+)?(\w+)\s*:\s*)?&\s*(?:'\w+\s+)?mut\b")
OPENING, CLOSING = "({[", ")}]"
# How a fault begins that is only that something is not equated.
MISSING = "has no `ensures` that equates"


class Function:
    """A function: whether it is public, where it stands and ends, its name, parameters, result, clauses, each clause as
    (kind, text), body, and whether all between its head and its body was read."""

    def __init__(self, head, text, members=(), implements=""):
        # members: the ghost members of the public trait that it is a method of; such a method is public.
        # implements: the trait that the block `impl Trait for ..` around it is of, if it stands in one.
        self.public, self.name = head.group(1) is not None or bool(members), head.group(2)
        self.members, self.implements = members, implements
        end = past(text, head.end() - 1)
        self.parameters = [p.strip() for p in split_at(text[head.end() : end - 1], ",") if p.strip()]
        result = RESULT.match(text, end)
        self.result, self.clauses = result.group(1) if result else "", []
        at = result.end() if result else end
        while clause := CLAUSE.match(text, at):
            at = past(text, clause.end() - 1)
            self.clauses.append((clause.group(1) + clause.group(2), text[clause.end() : at - 1]))
        # A trait's method may end without a body.
        if re.match(r"\s*;", text[at:]):
            self.is_read, self.position, self.end, self.body = True, head.start(), at, ""
            return
        body = text.index("{", at)
        self.is_read = not text[at:body].strip() and len(split_at(self.result, ";")) == 1
        self.position, self.end = head.start(), past(text, body)
        self.body = text[body : self.end]

    def calls(self, name):
        """Whether its body calls what has this name."""
        return re.search(rf"\b{name}\s*\(", self.body) is not None

    def lent_for_writing(self):
        """The names of the parameters that it may write to."""
        found = [LENT.match(p) for p in self.parameters]
        return [m.group(1) or "self" for m in found if m]

    def lent_unread(self):
        """The parameters that lend for writing in another form, such as inside a tuple."""
        return [p for p in self.parameters if not LENT.match(p) and re.search(r"&\s*(?:'\w+\s+)?mut\b", p)]

    def promised(self):
        """The parts of what it promises that stand under no condition and are no choice."""
        for kind, text in self.clauses:
            if kind == "ensures":
                yield from filter(is_plain, conjuncts(text))

    def equations(self):
        """Each equation that it promises, as (left side, right side)."""
        for part in self.promised():
            sides = split_at(part, "≡")
            if len(sides) == 2:
                yield bare(sides[0]), bare(sides[1])

    def relations(self):
        """Each relation that it promises, as (name of the relation, arguments)."""
        for part in self.promised():
            name, *arguments = [bare(term) for term in split_at(part, " ")]
            if re.fullmatch(r"[A-Z]\w*", name):
                yield name, arguments


def without_comments(text):
    """A source with its comments as blanks, so that every position stays."""
    return re.sub(r"//.*", lambda m: " " * len(m.group()), text)


def past(text, start):
    """Where the bracket that opens at start has closed."""
    depth = 0
    for i in range(start, len(text)):
        depth += (text[i] in OPENING) - (text[i] in CLOSING)
        if depth == 0:
            return i + 1
    return len(text)


def split_at(text, sign):
    """A text cut at a sign wherever it stands in no bracket."""
    parts, depth = [""], 0
    for c in text:
        depth += (c in OPENING) - (c in CLOSING)
        if c == sign and depth == 0:
            parts.append("")
        else:
            parts[-1] += c
    return parts


def bare(text):
    """A term on one line, without brackets around the whole of it."""
    text = " ".join(text.split())
    while text.startswith("(") and past(text, 0) == len(text):
        text = text[1:-1].strip()
    return text


def is_plain(text):
    """Whether a proposition is neither under a condition, nor a choice, nor an equivalence."""
    return all(len(split_at(text, sign)) == 1 for sign in "→⊎↔")


def joined(text):
    """The parts of a plain proposition that × joins, up to one that claims of some value what follows."""
    parts = split_at(text, "×")
    some = [at for at, part in enumerate(parts) if re.match(r"[\w' -]+ : ", bare(part))]
    return parts[: some[0]] if some else parts


def conjuncts(text):
    """The parts of a proposition that × joins, at any depth. One under a condition, or a choice, stays whole."""
    text = bare(text)
    parts = joined(text) if is_plain(text) else [text]
    return [text] if parts == [text] else [c for part in parts for c in conjuncts(part)]


TRAIT = re.compile(r"\bpub trait (\w+)[^{;]*\{")
MEMBER = re.compile(r"\bghost (\w+)\s*:")


def traits(text):
    """The public traits of a source, each as (start, end, its ghost members)."""
    for head in TRAIT.finditer(text):
        end = past(text, head.end() - 1)
        yield head.start(), end, tuple(MEMBER.findall(text[head.start() : end])) or ("",)


IMPLEMENTING = re.compile(r"\bimpl(?:<[^>]*>)?\s+(?:\w+::)*(\w+)(?:<[^>]*>)?\s+for\s+[^{]*\{")


def implementing(text):
    """The blocks `impl Trait for ..` of a source, each as (start, end, the trait's name)."""
    for head in IMPLEMENTING.finditer(text):
        yield head.start(), past(text, head.end() - 1), head.group(1)


def trait_names(files):
    """The names of the public traits of sources."""
    found = set()
    for name in files:
        with open(name, encoding="utf-8") as file:
            found.update(TRAIT.findall(without_comments(file.read())))
    return found


def functions(text):
    """The functions of a source. A method in a block `impl Trait for ..` promises what its trait does."""
    text = without_comments(text)
    within, blocks = list(traits(text)), list(implementing(text))
    around = lambda at, of, none: next((what for start, end, what in of if start < at < end), none)
    return [
        Function(head, text, around(head.start(), within, ()), around(head.start(), blocks, ""))
        for head in HEAD.finditer(text)
    ]


def public_functions(text):
    """The public functions of a source."""
    return [function for function in functions(text) if function.public]


def unread_heads(text):
    """Where a source has what may be a public function and is not read as one."""
    text = without_comments(text)
    read = [head.start() for head in HEAD.finditer(text) if head.group(1)]
    return [head.start() for head in ANY_HEAD.finditer(text) if head.start() not in read]


def structs_of(files):
    """The fields of the public structs of sources: of each name its fields; of one declared twice none."""
    found = {}
    for name in files:
        with open(name, encoding="utf-8") as file:
            text = without_comments(file.read())
        for struct in re.finditer(r"\bpub struct (\w+)\s*(?:\{([^}]*)\}|\(([^)]*)\))", text):
            named = re.findall(r"(\w+)\s*:", struct.group(2) or "")
            places = [str(i) for i, t in enumerate(split_at(struct.group(3) or "", ",")) if t.strip()]
            found[struct.group(1)] = [] if struct.group(1) in found else named or places
    return found


def relations_of(files):
    """The relations that files of specs/ define: of each name its definitions, as (parameters, cases). A case is
    (conditions, left side, right side) of an equation."""
    texts = {}
    for name in files:
        with open(name, encoding="utf-8") as file:
            text = re.sub(r"--[ -].*", "", file.read())
        for match in re.finditer(r"^([A-Z]\w*)((?: [\w'-]+)*) =((?:.*\n)(?:[ \t]+.*\n)*)", text, flags=re.M):
            texts.setdefault(match.group(1), []).append((match.group(2).split(), match.group(3)))
    return {n: [(ps, list(cases(body, (), texts))) for ps, body in of] for n, of in texts.items()}


def cases(text, conditions, texts):
    """The equations of a proposition, each with the conditions under which it says them. A relation of texts that it
    names, and that has one definition, is read in its place."""
    parts = split_at(bare(text), "→")
    if len(parts) > 1:
        named = tuple(bare(part) for part in parts[:-1])
        # `(x : T) →` says for all x, which is no condition.
        yield from cases(parts[-1], conditions + tuple(c for c in named if not re.match(r"[\w' -]+ : ", c)), texts)
        return
    if not is_plain(bare(text)):
        return
    parts = joined(bare(text))
    if parts != [bare(text)]:
        for part in parts:
            yield from cases(part, conditions, texts)
        return
    sides = split_at(bare(text), "≡")
    if len(sides) == 2:
        yield conditions, bare(sides[0]), bare(sides[1])
        return
    name, *arguments = split_at(bare(text), " ")
    if len(texts.get(name, ())) == 1 and len(arguments) == len(texts[name][0][0]):
        parameters, body = texts[name][0]
        yield from cases(replaced(body, dict(zip(parameters, arguments))), conditions, texts)


def replaced(text, terms):
    """A text with names replaced by terms, all at once. A term of several words stays one, also before a field."""
    terms = {name: f"({term})" if " " in term else term for name, term in terms.items()}
    return re.sub(r"(?<![\w'.-])[\w'-]+", lambda m: terms.get(m.group(), m.group()), text)


def determines(definition, at, unknown):
    """Whether a relation's definition equates its parameter at this index, in every case, with what is known: with
    neither that parameter nor one at the unknown indices."""
    parameters, equations = definition
    subject = parameters[at] if at < len(parameters) else None
    if subject is None:
        return False
    others = [parameters[i] for i in {at, *unknown} if i < len(parameters)]
    equating = [(c, right) for c, left, right in equations if is_left(left, subject)]
    return covers({c for c, right in equating if not any(speaks_of(right, other) for other in others)})


def equated(definition, at):
    """Whether a relation's definition equates its parameter at this index with something, in whatever case."""
    parameters, equations = definition
    return at < len(parameters) and any(is_left(left, parameters[at]) for _, left, _ in equations)


def covers(where):
    """Whether lists of conditions leave no case out: one has no condition, or two first conditions are contrary, and
    behind each of them no case is left out."""
    heads = {c[0] for c in where if c}
    behind = {head: {c[1:] for c in where if c and c[0] == head} for head in heads}
    contrary = [(head, head.replace("≢", "≡")) for head in heads if "≢" in head]
    return () in where or any(b in heads and covers(behind[a]) and covers(behind[b]) for a, b in contrary)


def forms_of(function, subject):
    """How a promise of the function may name the subject."""
    refuses = subject == "result" and function.result.startswith("Result<")
    return {subject, f"{subject}.now"} | ({f"refusal_number {subject}"} if refuses else set())


def related(function, subject, relations, lets_off):
    """Whether a relation that the function promises equates the subject. lets_off says of a relation whether the cases
    in which it does are all, though they are not each other's contrary."""
    for name, arguments in function.relations():
        unknown = [at for at, argument in enumerate(arguments) if not is_given(argument)]
        for at, argument in enumerate(arguments):
            if argument in forms_of(function, subject) and name in relations:
                if all(determines(definition, at, unknown) for definition in relations[name]):
                    return True
                if all(equated(definition, at) for definition in relations[name]) and lets_off(name):
                    return True
    return False


def is_left(left, subject, members=()):
    """Whether the left side of an equation is the subject itself, or what it means, also by a trait's ghost member."""
    forms = {subject, f"{subject}.now"}
    meaning, *arguments = [bare(term) for term in split_at(left, " ")]
    if meaning in MEANINGS or meaning in members:
        return len(arguments) == 1 and arguments[0] in forms
    return left in forms or meaning in MEANINGS_TOGETHER and bool(forms & set(arguments))


def speaks_of(side, subject):
    """Whether one side of an equation names the subject."""
    return re.search(rf"(?<![\w'.]){re.escape(subject)}(?![\w'])", side) is not None


def is_given(side):
    """Whether one side of an equation is known from what was handed in: it names neither the result nor an exit."""
    return not speaks_of(side, "result") and not re.search(r"\.\s*(?:new|exit)\b", side)


def equates(function, subject, relations, lets_off):
    """Whether a promise of the function says what the subject is, by an equation or a relation."""
    if related(function, subject, relations, lets_off):
        return True
    return any(is_left(left, subject, function.members) and is_given(right) for left, right in function.equations())


# A promise on the value of a `Result` where nothing is refused.
IF_OK = re.compile(r"IfOk result \(λ (\w+)\. (.*)\)")


def equates_number(function, relations, lets_off):
    """Whether a promise of the function says which reason it refuses for, if any."""
    if related(function, "result", relations, lets_off):
        return True
    return any(left == "refusal_number result" and is_given(right) for left, right in function.equations())


def equates_value(function, structs):
    """Whether a promise of the function says which value it returns where it refuses nothing: as a whole, or each field
    of it."""
    value = re.match(r"Result<(.*), \w+>$", function.result).group(1)
    if value == "()":
        return True
    said = set()
    for part in function.promised():
        if found := IF_OK.fullmatch(bare(part)):
            name, body = found.groups()
            for fact in conjuncts(body):
                sides = [bare(side) for side in split_at(fact, "≡")]
                if len(sides) == 2 and is_given(sides[1]) and not speaks_of(sides[1], name):
                    said.add("" if is_left(sides[0], name) else sides[0].removeprefix(name))
    fields = structs.get(value, [])
    return "" in said or fields != [] and all(f".{field}" in said for field in fields)


def equates_result(function, relations, structs, lets_off):
    """Whether a promise of the function says what it returns: as a whole, or each field of it."""
    if re.match(r"Result<.*, \w+>$", function.result):
        if any(is_left(left, "result") and is_given(right) for left, right in function.equations()):
            return True
        if equates_number(function, relations, lets_off) and equates_value(function, structs):
            return True
    elif equates(function, "result", relations, lets_off):
        return True
    said = [left for left, right in function.equations() if is_given(right)]
    fields = structs.get(function.result, [])
    return fields != [] and all(any(is_left(left, f"result.{field}") for left in said) for field in fields)


def faults(function, relations, structs, lets_off):
    """What is missing in a function's promise, in words."""
    if not function.is_read:
        yield "has a clause of a form that is not read"
    if any(kind.startswith("requires") for kind, _ in function.clauses):
        yield "has a `requires`"
    if function.result not in ("", "()") and not equates_result(function, relations, structs, lets_off):
        yield f"{MISSING} its result"
    for parameter in function.lent_unread():
        yield f"lends for writing in a form that is not read: {bare(parameter)}"
    for parameter in function.lent_for_writing():
        if not equates(function, f"{parameter}.new", relations, lets_off):
            yield f"{MISSING} {parameter} at exit"
