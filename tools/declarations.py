"""Holds the C header and the Rust crate to the code: to the exports, which crates/ffi_c, ffi_intake_c, ffi_orbit_c and ffi_message_c have, the
names of the calls and of each the number, the order and the width of its parameters, what it hands back, and the fields of the structs; to
crates/ffi, ffi_intake, ffi_orbit and ffi_message the parameters and the contract of each export, which say what those say of their own; to
crates/refusals the numbers; to the crates that have them the limits, sizes, bands, kinds, forms and ageing rules; to the definitions of
crates/paper the order of refusals in the header's comments; and to each other names, texts, codes and versions. And holds the pages to
the tree: the numbers and the orders of docs/STORE.md, 14, the numbers of docs/ANSWER.md, the crates of README.md, and the functions, wrong
answers, crates and counts of docs/PROMISES.md.

usage: declarations.py [--quiet]      in the repository's top folder; --quiet: says only what differs
"""
import glob
import re
import sys

HEADER, SYS, RUST = "include/dawnstook.h", "rust/src/sys.rs", "rust/src/"
README, STORE, ANSWER, PROMISES = "README.md", "docs/STORE.md", "docs/ANSWER.md", "docs/PROMISES.md"

# the crates whose functions the archive has, each under the same contract from a static library of this name and _c
EXPORTS = ["ffi", "ffi_intake", "ffi_orbit", "ffi_message"]

# a slice is a pointer and a length, an array a pointer alone: its length is one of CONSTANTS
RATTLE = {"&mut [u8]": ["*mut u8", "usize"], "&[u8]": ["*const u8", "usize"], "&mut [u8; READER]": ["*mut u8"]}
C = {
    "uint8_t": "u8", "uint16_t": "u16", "uint32_t": "u32", "int32_t": "i32", "size_t": "usize", "bool": "bool",
    "double": "f64", "uint8_t *": "*mut u8", "const uint8_t *": "*const u8",
}

# the crates that have the structs which the exports hand back, and those inside of them; and the Rust files, the declarations' first
STRUCTS = ["ffi", "intake", "fields", "orbit", "ffi_orbit", "ffi_message"]
RUST_STRUCTS = [SYS, RUST + "orbit.rs"]

# the code's names of structs that are others outside, where they are for those who read them
RENAMED_STRUCTS = {"OrbitRead": "Orbit", "TimingRead": "Timing"}

# a constant of the header and of the crate, and the code's: its crate and its name there
CONSTANTS = {
    "MOST_ROWS": ("layout", "MOST_ROWS"), "MOST_SLOTS": ("layout", "MOST_SLOTS"), "MOST_ROOM": ("layout", "MOST_ROOM"),
    "HEADER_BYTES": ("layout", "HEADER"), "ROW_HEAD_BYTES": ("layout", "ROW_HEAD"), "SLOT_BYTES": ("layout", "SLOT"),
    "CED_BITS": ("records", "Ced::BITS"), "CED_BYTES": ("records", "Ced::BYTES"),
    "TIMING_BITS": ("records", "Timing::BITS"), "TIMING_BYTES": ("records", "Timing::BYTES"), "MOST_COUNT": ("records", "MOST_COUNT"),
    "LEAST_COUNT": ("ask", "LEAST_COUNT"), "MOST_SATELLITES": ("svn", "MOST_SATELLITES"), "WORD_BYTES": ("limits", "WORD_BYTES"),
    "WEEK_SECONDS": ("gst", "WEEK_SECONDS"), "SUBFRAME_SECONDS": ("gst", "SUBFRAME_SECONDS"),
    "MOST_SUBFRAMES": ("gst", "MOST_SUBFRAMES"), "READER_BYTES": ("intake", "READER"), "LONGEST_LINE": ("lines", "LONGEST_LINE"),
    "MOST_MESSAGE_WEEK": ("message", "MOST_WEEK"), "MOST_COUNTER": ("message", "MOST_COUNTER"),
    "CED_MESSAGE_BYTES": ("message", "CED_MESSAGE"), "TAG0_MESSAGE_BYTES": ("message", "TAG0_MESSAGE"),
    "TIMING_MESSAGE_BYTES": ("message", "TIMING_MESSAGE"),
}

# the definition of crates/paper that has the order of a call's refusals, and the family where it goes by that
ORDERS = {
    "fresh": ("fresh_number", None), "feed": ("feed_number", None), "candidate": ("candidate_number", None), "tag": ("tag_number", None),
    "get_ced_and_status": ("ask_number", None), "get_timing_parameters": ("ask_number", None), "reset_authbits": ("reset_number", None),
    "get_orbit": ("numbers_number", "CED"), "get_timing_numbers": ("numbers_number", "Timing"),
    "build_message": ("build_number", None), "read_message": ("read_number", None),
}

# the codes of the header and of the crate, whose names are galileo-osnma's but for the forms and the ageing rules
CODES = {
    "band": ("InavBand", {"E1B": "E1B", "E5B": "E5B"}),
    "kind": ("Adkd", {"CED": "InavCed", "TIMING": "InavTiming", "SLOW_CED": "SlowMac"}),
    "status": ("NmaStatus", {"RESERVED": "Reserved", "TEST": "Test", "OPERATIONAL": "Operational", "DONT_USE": "DontUse"}),
    "form": ("Form", {"FORM_CED": "Ced", "FORM_TAG0": "Tag0", "FORM_TIMING": "Timing"}),
    "ageing": ("Ageing", {"AGE_BY_MOVES": "Moves", "AGE_BY_TIME": "Time"}),
}


def read(name):
    with open(name, encoding="utf-8") as file:
        return file.read()


def without_comments(text):
    return re.sub(r"//[^\n]*|/\*.*?\*/", "", text, flags=re.S)


def code_of(crate):
    return without_comments(read(f"crates/{crate}/src/lib.rt"))


def split(parameters):
    return [p.strip() for p in parameters.split(",") if p.strip() and p.strip() != "void"]


def camel(name):
    return "".join(word.capitalize() for word in name.split("_"))


# Calls and structs.

def structs_like_rust(text):
    found = {}
    for name, body in re.findall(r"#\[repr\(C\)\]\s*(?:#\[[^\]]*\]\s*)*pub struct (\w+) \{(.*?)\}", text, re.S):
        found[name] = [tuple(re.fullmatch(r"pub (\w+): (\w+)", f).groups()) for f in split(body)]
    return found


def exports_of(crate):
    """Name to parameters, result and clauses, as the crate has them."""
    pattern = r"#\[unsafe\(no_mangle\)\]\s*(?:#\[tactic\(.*?\)\]\s*)?pub extern \"C\" fn (\w+)\((.*?)\)\s*(?:->\s*(?:\w+::)?(\w+))?(.*?)^\{"
    return {name: (parameters, result, clauses.split()) for name, parameters, result, clauses in re.findall(pattern, code_of(crate), re.S | re.M)}


def of_rattle():
    calls, structs = {}, {}
    for name, (parameters, result, _) in (export for crate in EXPORTS for export in exports_of(crate + "_c").items()):
        types = []
        for p in split(parameters):
            kind = p.split(":", 1)[1].strip()
            types += RATTLE.get(kind, [kind])
        calls[name] = (types, RENAMED_STRUCTS.get(result, result))
    for crate in STRUCTS:
        structs.update({RENAMED_STRUCTS.get(n, n): fields for n, fields in structs_like_rust(code_of(crate)).items()})
    return calls, structs


def of_rust():
    calls, structs = {}, {}
    for name, parameters, result in re.findall(r"pub fn (\w+)\((.*?)\)\s*(?:->\s*(\w+))?;", without_comments(read(SYS)), re.S):
        calls[name] = ([p.split(":", 1)[1].strip() for p in split(parameters)], result)
    for file in RUST_STRUCTS:
        structs.update(structs_like_rust(without_comments(read(file))))
    return calls, structs


def c_type(text):
    text = " ".join(text.replace("*", " * ").split())
    return camel(text[len("dawnstook_"):]) if text.startswith("dawnstook_") else C.get(text, text)


def of_header(text):
    calls, structs = {}, {}
    for body, name in re.findall(r"typedef struct \w+ \{(.*?)\} (\w+);", text, re.S):
        fields = [f.strip() for f in body.split(";") if f.strip()]
        structs[c_type(name)] = [(f.split()[-1], c_type(" ".join(f.split()[:-1]))) for f in fields]
    for result, name, parameters in re.findall(r"^(\w+) (dawnstook_\w+)\(([^{}]*?)\);", text, re.S | re.M):
        types = [c_type(re.fullmatch(r"(.*?)(\w+)", p, re.S).group(1)) for p in split(parameters)]
        calls[name] = (types, c_type(result))
    return calls, structs


# Numbers, codes and constants.

def enum_of_header(text, name):
    body = re.search(r"enum dawnstook_" + name + r" \{(.*?)\}", text, re.S).group(1)
    return {n: int(v) for n, v in re.findall(r"DAWNSTOOK_(\w+) = (\d+)", body)}


def numbers_of_code():
    """Name to number: the cases of `Refusal`."""
    body = re.search(r"^pub enum Refusal \{(.*?)^\}", code_of("refusals"), re.S | re.M)
    if not body:
        sys.exit("outside: no numbers found in crates/refusals")
    return {n: int(v) for n, v in re.findall(r"^    (\w+) = (\d+),$", body.group(1), re.M)}


def texts_of_header(text):
    return dict(re.findall(r'case DAWNSTOOK_(\w+): return "\1: (.*)";', text))


def refusals_of_rust(text):
    """Name to number and text, of the macro's table."""
    return {n: (int(v), t) for n, v, t in re.findall(r'^    (\w+) = (\d+): "(.*)",$', text, re.M)}


def value(expression, known):
    """An expression of C or Rust in sums, differences and products, with the names in known."""
    expression = re.sub(r"\(size_t\)|\bas \w+|(?<=\d)_(?=\d)", "", expression)
    expression = expression.replace("DAWNSTOOK_", "").replace("::", ".")
    names = set(re.findall(r"[A-Za-z_][\w.]*", expression))
    if not re.fullmatch(r"[\w\s.()+*/,-]+", expression) or not names <= set(known):
        return None
    for name in sorted(names, key=len, reverse=True):
        expression = re.sub(r"(?<![\w.])" + re.escape(name) + r"(?![\w.])", f"known[{name!r}]", expression)
    return eval(expression.replace("/", "//"), {"known": known})  # its characters and names are tested above


def solve(expressions, known):
    """The values of named expressions, in whichever order they rest on each other."""
    known = dict(known)
    left = dict(expressions)
    while left:
        found = {n: v for n, v in ((n, value(e, known)) for n, e in left.items()) if v is not None}
        if not found:
            break
        known.update(found)
        left = {n: e for n, e in left.items() if n not in found}
    return known


def constants_of_crate(crate):
    """Its constants as crate.NAME or crate.Type.NAME, and the names in their expressions so too, since crates may have different constants
    of one name: a name is of the crate that it says, or that a `use` says, or else the crate's own."""
    text, kind, expressions = code_of(crate), "", {}
    uses = re.findall(r"^use (\w+)::(?:\{([^}]*)\}|(\w+));", text, re.M)
    used = {name.strip(): other for other, several, one in uses for name in (several or one).split(",")}

    def whole(name):
        first, *rest = name.group(0).split("::")
        return ".".join(([] if rest and first.islower() else [used.get(first, crate)]) + [first, *rest])

    for line in text.splitlines():
        opened = re.match(r"impl (\w+) \{", line)
        kind = opened.group(1) + "." if opened else "" if line.startswith("}") else kind
        constant = re.match(r"\s*(?:pub )?const (\w+): \w+ = (.*);", line)
        if constant:
            expression = re.sub(r"\bas \w+", "", constant.group(2))
            expressions[f"{crate}.{kind}{constant.group(1)}"] = re.sub(r"\b[A-Za-z_][\w:]*", whole, expression)
    return expressions


def constants_of_code():
    expressions = {}
    for file in sorted(glob.glob("crates/*/src/lib.rt")):
        expressions.update(constants_of_crate(file.split("/")[1]))
    return solve(expressions, {})


def constant_of(crate, name, code):
    found = code.get(f"{crate}.{name}".replace("::", "."))
    if found is None:
        sys.exit(f"outside: crates/{crate}: no constant {name}")
    return found


def constants_of_header(text):
    size = re.search(r"#define DAWNSTOOK_ROOM_SIZE\(d, n\) \\\n(.*)", text).group(1)
    found = dict(re.findall(r"^#define DAWNSTOOK_([A-Z0-9_]+) +([^\"\n{]+)$", text, re.M))
    return constants_with(found, size)


def constants_of_rust(text):
    size = re.search(r"pub const fn room_size.*?return 0;\s*\}\s*(.*?)\n\}", text, re.S).group(1)
    return constants_with(dict(re.findall(r"^pub const (\w+): \w+ = (.*);", text, re.M)), size)


def constants_with(expressions, size):
    plain = solve({n: e for n, e in expressions.items() if "(" not in e}, {})
    known = dict(plain, ROOM_SIZE=lambda d, n: value(size, dict(plain, d=d, n=n)))
    known["room_size"] = known["ROOM_SIZE"]
    known = solve({n: e for n, e in expressions.items() if "(" in e}, known)
    return {n: known.get(n) for n in expressions}


def tag_lengths(text, pattern):
    return [int(n) for n in re.search(pattern, text).group(1).replace(" ", "").split(",")]


def deepest_stacks():
    """Of the table of docs/SPEED.md: the largest number of the calls, that of a reader's and that of those that read numbers."""
    rows = re.search(r"\| stack of a call.*?(?=\| code and constants)", read("docs/SPEED.md"), re.S).group(0)
    parts = re.split(r"^\| (?:a part of an input|an orbit)", rows, flags=re.M)
    return [max(int(n) for n in re.findall(r"\| (\d+) \|$", part, re.M)) for part in parts]


def behind(tokens, i):
    """Where the argument that starts at token i has ended."""
    depth = 0
    while True:
        depth += {"(": 1, ")": -1}.get(tokens[i], 0)
        i += 1
        if depth == 0:
            return i


def order_of(name, bodies):
    """The numbers of a nest of `unless TEST NUMBER LATER`, in the order of their tests. A number may be that of a call, under a name that
    stands before the nest: `let k = CALL in unless TEST k LATER` has the numbers of CALL there."""
    tokens, order, i = re.findall(r"[()]|[^\s()]+", bodies[name]), [], 0
    calls = [tokens[at + 1] for at, token in enumerate(tokens) if token == "let" and tokens[at + 3] in bodies]
    while i < len(tokens):
        if tokens[i] == "unless":
            i = behind(tokens, i + 1)
            if tokens[i] not in calls:
                order.append(int(tokens[i]))
        elif tokens[i] in bodies:
            order += order_of(tokens[i], bodies)
        i += 1
    return order


def orders_of_definitions():
    text = "\n\n".join(re.sub(r"--[^\n]*", "", read(f"crates/paper/specs/{file}.antt")) for file in ("Answer", "Orbit", "Message"))
    bodies = dict(re.findall(r"^((?:until|from)_\w+|\w+_number) [^:=\n]*=(.*?)(?=\n\n|\Z)", text, re.S | re.M))
    families = {f: dict(re.findall(rf"^(\w+_tests) {f} [^:=\n]*=(.*)$", text, re.M)) for f in ("CED", "Timing")}
    return {call: order_of(name, dict(bodies, **families.get(family, {}))) for call, (name, family) in ORDERS.items()}


def orders_of_header(text):
    found = {}
    for comment, below in re.findall(r"^/\*((?:(?!\*/).)*)\*/\n((?:\w+ dawnstook_\w+\([^;{]*\);\n)+)", text, re.S | re.M):
        numbers_said = re.search(r"((?:\d+, )*\d+)\. $", comment)
        for name in re.findall(r"dawnstook_(\w+)\(", below):
            found[name] = [int(n) for n in numbers_said.group(1).split(", ")] if numbers_said else None
    return found


# Pages.

def table_of(page, head):
    """The first table behind a text of a page: the cells of its rows."""
    rows, behind = [], read(page).partition(head)[2]
    for line in behind.splitlines():
        if line.startswith("|"):
            rows.append([cell.strip() for cell in line.strip("|").split("|")])
        elif rows:
            break
    if len(rows) < 3:
        sys.exit(f"outside: {page}: no table behind '{head}'")
    return rows[2:]


def quoted(text):
    """The names between back quotes."""
    return re.findall(r"`([\w:]+)`", text)


def said_in(page, pattern):
    """The numbers of the one sentence of a page that has this form."""
    found = list(re.finditer(pattern, read(page), re.M))
    if len(found) != 1:
        sys.exit(f"outside: {page}: {len(found)} sentences of the form '{pattern}'")
    return [int(n) for n in found[0].groups()]


def crates_of_tree():
    return re.findall(r"^(\w+)(?: staticlib)?:", read("crates.txt"), re.M)


def public_functions():
    """Crate and name of each, as `gst Gst::add_seconds`: what is `pub`, a public trait's own, as `gst Chained::add_seconds`, and what a
    conversion of the library's is here, as `svn Svn::try_from`. The archive's crates have none of their own: their exports are those of
    EXPORTS."""
    found = []
    for file in sorted(glob.glob("crates/*/src/**/*.rt", recursive=True)):
        if file.split("/")[1] in (crate + "_c" for crate in EXPORTS):
            continue
        private = re.findall(r"^(?:struct|enum) (\w+)", read(file), re.M)
        kind, every = "", False
        for line in without_comments(read(file)).splitlines():
            opened = re.match(r"impl (\w+) \{|pub trait (\w+)|impl (?:Try)?From<.*> for (\w+) \{", line)
            if opened:
                kind, every = next(filter(None, opened.groups())) + "::", not opened.group(1)
                if opened.group(3) in private:
                    every = False
            elif line.startswith("}"):
                kind, every = "", False
            named = re.match(r'\s*(pub )?(?:extern "C" )?fn (\w+)', line)
            if named and (named.group(1) or every):
                found.append(f"{file.split('/')[1]} {kind}{named.group(2)}")
    return found


def per_file(pattern, form):
    """What a pattern finds in each file whose name has a form."""
    return {file: re.findall(form, read(file), re.M) for file in sorted(glob.glob(pattern))}


class Held:
    """Counts what differs, and prints it."""

    def __init__(self):
        self.wrong = 0

    def same(self, what, found, expected):
        if found != expected:
            print(f"outside: {what}: {found}, but it is to be {expected}")
            self.wrong += 1

    def members(self, what, found, expected):
        """Each of the expected once, and nothing else."""
        for name in sorted(set(found) | set(expected)):
            self.same(f"{what}: how often {name} stands there", found.count(name), expected.count(name))

    def done(self, before, text):
        if self.wrong == before and "--quiet" not in sys.argv:
            print("outside: " + text)


def calls(held, header):
    exports = of_rattle()
    if not exports[0]:
        sys.exit("outside: no exports found in crates/" + ", crates/".join(crate + "_c" for crate in EXPORTS))
    before = held.wrong
    for crate in EXPORTS:
        library, archive = exports_of(crate), exports_of(crate + "_c")
        for name in sorted(set(library) | set(archive)):
            held.same(f"crates/{crate}_c: parameters, result and clauses of {name}", archive.get(name), library.get(name))
    held.done(before, f"the archive has the {len(exports[0])} functions of crates/{', '.join(EXPORTS)} under their contracts")
    for where, other in ((HEADER, of_header(header)), (SYS, of_rust())):
        before = held.wrong
        for i, what in enumerate(("call", "struct")):
            for name in sorted(set(exports[i]) | set(other[i])):
                held.same(f"{where}: {what} {name}", other[i].get(name), exports[i].get(name))
        held.done(before, f"{where} declares the {len(exports[0])} exports and their {len(exports[1])} structs")


def numbers(held, header):
    before = held.wrong
    code = numbers_of_code()
    of_c, texts = enum_of_header(header, "number"), texts_of_header(header)
    of_rust_table = refusals_of_rust(read(RUST + "refusal.rs"))
    held.same(f"{HEADER}: numbers", {camel(n): v for n, v in of_c.items()}, dict(Done=0, **code))
    held.same(f"{RUST}refusal.rs: numbers", {n: v for n, (v, _) in of_rust_table.items()}, code)
    held.same(f"{HEADER}: numbers that have a text", sorted(texts), sorted(of_c))
    held.same(f"{RUST}refusal.rs: texts", {n: t for n, (_, t) in of_rust_table.items()},
              {camel(n): t for n, t in texts.items() if n != "DONE"})
    held.done(before, f"header and crate have the {len(code)} numbers of crates/refusals, and one text for each")


def orders(held, _):
    before = held.wrong
    said, expected = orders_of_header(read(HEADER)), orders_of_definitions()
    for call in ORDERS:
        held.same(f"{HEADER}: numbers at the end of the comment on dawnstook_{call}", said.get(call), expected[call])
    held.done(before, f"the header has the order of refusals of the {len(ORDERS)} calls on a room or a message as crates/paper has it")


def codes(held, header):
    before = held.wrong
    rust = read(RUST + "store.rs") + read(RUST + "message.rs")
    for name, (rust_name, names) in CODES.items():
        of_c = enum_of_header(header, name)
        body = re.search(r"^    " + rust_name + r": \w+ \{(.*?)^    \}", rust, re.S | re.M).group(1)
        in_rust = {n: int(v) for n, v in re.findall(r"^ +(\w+) = (\d+),$", body, re.M)}
        held.same(f"{RUST}: {rust_name}", in_rust, {names.get(n): v for n, v in of_c.items()})
    code = constants_of_code()
    bands = {"E1B": 0, "E5B": constant_of("limits", "E5B", code)}
    held.same(f"{HEADER}: bands", enum_of_header(header, "band"), bands)
    kinds = {n: constant_of("limits", n + "_KIND", code) for n in CODES["kind"][1]}
    held.same(f"{HEADER}: kinds", enum_of_header(header, "kind"), kinds)
    forms = {n: constant_of("message", n[len("FORM_"):] + "_FORM", code) for n in CODES["form"][1]}
    held.same(f"{HEADER}: forms", enum_of_header(header, "form"), forms)
    rules = {"AGE_BY_MOVES": 0, "AGE_BY_TIME": constant_of("layout", "TIME_RULE", code)}
    held.same(f"{HEADER}: ageing rules", enum_of_header(header, "ageing"), rules)
    held.done(before, "header and crate have the same codes, bands and kinds those of crates/limits, the forms those of crates/message, the "
              "rule by time that of crates/layout")


def scales(held, _):
    """The k of each scaled field, in the documentation of the crate's whole numbers."""
    before = held.wrong
    code = {n: k for n, k in constants_of_code().items() if re.match(r"orbit\.Scaled(Timing)?\.", n)}
    said = re.findall(r"\[`(Scaled|ScaledTiming)::(\w+)`\] times 2\^(\d+)\.", read(RUST + "orbit.rs"))
    held.same(f"{RUST}orbit.rs: powers of two", {f"orbit.{kind}.{name.upper()}": int(k) for kind, name, k in said}, code)
    held.done(before, f"the crate has the powers of two of the {len(code)} scaled fields as crates/orbit has them")


def constants(held, header):
    before = held.wrong
    code = constants_of_code()
    expected = {n: constant_of(*at, code) for n, at in CONSTANTS.items()}
    limits = code_of("limits")
    expected["MOST_COP"] = int(re.search(r"\bcop <= (\d+)", limits).group(1))
    expected["STACK_BYTES"], expected["READER_STACK_BYTES"], expected["NUMBERS_STACK_BYTES"] = deepest_stacks()
    of_c, rust = constants_of_header(header), without_comments(read(RUST + "limits.rs"))
    held.same(f"{HEADER}: constants", {n: v for n, v in of_c.items() if not n.startswith("VERSION_")}, expected)
    held.same(f"{RUST}limits.rs: constants", constants_of_rust(rust), expected)
    lengths = [int(n) for n in re.findall(r"\d+", re.search(r"matches!\(bits, ([\d |]+)\)", limits).group(1))]
    held.same(f"{HEADER}: lengths of a tag", tag_lengths(header, r"#define DAWNSTOOK_TAG_BITS \{(.*)\}"), lengths)
    held.same(f"{RUST}limits.rs: lengths of a tag", tag_lengths(rust, r"TAG_BITS: \[u8; \d+\] = \[(.*)\];"), lengths)
    held.done(before, f"header and crate have the {len(expected)} limits and sizes and the {len(lengths)} lengths of a tag of the code")
    before = held.wrong
    version = re.search(r'^version = "(.*)"$', read("rust/Cargo.toml"), re.M).group(1)
    held.same(f"{HEADER}: version", re.search(r'#define DAWNSTOOK_VERSION "(.*)"', header).group(1), version)
    held.same(f"{HEADER}: version's parts", ".".join(str(of_c[f"VERSION_{p}"]) for p in ("MAJOR", "MINOR", "PATCH")), version)
    held.same(f"{HEADER}: version at its head", re.match(r"/\* Dawnstook (\S+):", read(HEADER)).group(1), version)
    held.done(before, f"header and crate are of version {version}")


def numbers_on_pages(held, _):
    before = held.wrong
    every = [0, *numbers_of_code().values()]
    held.members(f"{STORE}, 14.1", [int(row[0]) for row in table_of(STORE, "**14.1 ")], every)
    of_inputs = said_in(ANSWER, r"^(\d+) and (\d+) are of inputs alone")
    controller = [int(row[0]) for row in table_of(ANSWER, "What a crane does with a refusal")]
    held.members(f"{ANSWER}, what a crane does and the sentence behind it", controller + of_inputs, every)
    held.done(before, f"{STORE}, 14.1, and {ANSWER} have the {len(every)} numbers")


def orders_on_page(held, _):
    """Calls on a time are held to the header. The numbers of a part and of an end are their input's (STORE 17.8)."""
    before = held.wrong
    expected = {**orders_of_header(read(HEADER)), **orders_of_definitions()}
    rows = [(name, re.match(r"(?:\d+, )*\d+", row[3])) for row in table_of(STORE, "**14.2 ") for name in re.findall(r"`dawnstook_(\w+)`", row[2])]
    held.members(f"{STORE}, 14.2", [name for name, _ in rows], [name for name in expected if name != "room_size"])
    for name, order in rows:
        if name not in ("part", "end"):
            held.same(f"{STORE}, 14.2: order of dawnstook_{name}", order and [int(n) for n in order.group(0).split(", ")], expected.get(name))
    held.done(before, f"{STORE}, 14.2, has the order of refusals of the {len(rows)} exports")


def crates_on_pages(held, _):
    before = held.wrong
    crates = crates_of_tree()
    rows = table_of(README, "## Where things stand")
    held.members(f"{README}, where things stand", quoted(" ".join(row[1] for row in rows)), crates)
    held.members(f"{PROMISES}, seconds", [row[0] for row in table_of(PROMISES, "## Seconds that each crate takes")], crates)
    held.done(before, f"{README} and {PROMISES} have the {len(crates)} crates")


def promises_on_page(held, _):
    before = held.wrong
    face, inner = table_of(PROMISES, "## The face"), table_of(PROMISES, "## Inner functions")
    functions = public_functions()
    held.members(f"{PROMISES}, functions", [f"{row[0]} {name}" for row in face + inner for name in quoted(row[1])], functions)
    asks = per_file("crates/*/proofs/Asks.antt", r"^pub \w+_asks_nothing :")
    held.members(f"{PROMISES}, crates of the face", [row[0] for row in face], [file.split("/")[1] for file, found in asks.items() for _ in found])
    wrong = per_file("crates/*/must-fail/*.edit", r"^wrong: (\w+)$")
    rounds = {file: found for file, found in wrong.items() if re.search(r"/round_\d+\.edit$", file)}
    tried = {name for found in wrong.values() for name in found}
    held.same(f"{PROMISES}: wrong answers that it does not name", sorted(tried - set(quoted(read(PROMISES)))), [])
    named = {name for row in face + inner for name in quoted(row[4])}
    held.same(f"{PROMISES}: wrong answers that are not there", sorted(named - tried), [])
    theorems, answers, in_rounds = (sum(map(len, of.values())) for of in (asks, wrong, rounds))
    held.same(f"{PROMISES}: theorems `NAME_asks_nothing`", said_in(PROMISES, r"That is (\d+) theorems `NAME_asks_nothing`"), [theorems])
    counts = [len(functions), theorems, len(functions) - theorems, answers, len(wrong), in_rounds, len(rounds), answers - in_rounds]
    form = (r"^(\d+) public functions: (\d+) of the face, (\d+) inner\. "
            r"(\d+) wrong answers in (\d+) edits: (\d+) in (\d+) rounds, and (\d+) with a file of their own\.$")
    held.same(f"{PROMISES}: counts", said_in(PROMISES, form), counts)
    held.done(before, f"{PROMISES} has the {len(functions)} public functions and the {answers} wrong answers")


def main():
    held, header = Held(), without_comments(read(HEADER))
    for part in (calls, numbers, orders, scales, codes, constants, numbers_on_pages, orders_on_page, crates_on_pages, promises_on_page):
        part(held, header)
    sys.exit(1 if held.wrong else 0)


main()
