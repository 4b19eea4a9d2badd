#!/usr/bin/env python3
# The numbers on which the tests of `cors_table_tests` insist come from its table alone, by another program in another
# language. Reads the policies, the requests and the inner service's replies of `crates/cors_table_tests/src`. Answers
# each request under each policy and over each reply by the CORS protocol (Fetch Standard) with the choices of
# `docs/DECISIONS.md`, and writes each answer as a response of HTTP/1.1 (RFC 9112). Counts the kinds of answers and
# digests all their bytes.
#
# It prints a line for each of the two tests. It fails where a number is another than the one that the test expects, and
# where the sources have a form that it does not know. It runs no code of the crates.
import collections
import dataclasses
import os
import re
import sys

# What the sources say: a name, perhaps with arguments in parentheses or with fields in braces.
Call = collections.namedtuple("Call", "name arguments")
Record = collections.namedtuple("Record", "name fields")

# Each field is a pair of its name in lower case and its value. Methods, fields and bodies are bytes.
Request = collections.namedtuple("Request", "method fields")
Reply = collections.namedtuple("Reply", "is_error status fields body")

NOTHING = Call("None", ())


class Fault(Exception):
    """The sources have a form that is not known here."""


# The sources.

TOKEN = re.compile(
    r"""(?P<blank>\s+|//[^\n]*)
    |(?P<bytes>b"(?:[^"\\]|\\.)*")
    |(?P<text>"(?:[^"\\]|\\.)*")
    |(?P<number>[0-9]+)\b
    |(?P<word>[A-Za-z_][A-Za-z0-9_]*)
    |(?P<mark>[&(){}\[\],:;])""",
    re.VERBOSE,
)

ESCAPE = re.compile(r"\\(x[0-9A-Fa-f]{2}|.)")

ESCAPED = {"n": "\n", "r": "\r", "t": "\t", "0": "\0", "\\": "\\", '"': '"', "'": "'"}

CLOSING = {"(": ")", "[": "]"}


def unescaped_character(escape):
    """The character that an escape stands for."""
    name = escape[1]
    if len(name) == 3:
        return chr(int(name[1:], 16))
    if name not in ESCAPED:
        raise Fault(f"unknown escape {escape[0]}")
    return ESCAPED[name]


def unescaped(quoted):
    """The bytes of a literal's inside."""
    if not quoted.isascii():
        raise Fault(f"a literal is not ASCII: {quoted}")
    return ESCAPE.sub(unescaped_character, quoted).encode("latin-1")


def checked(value, kind):
    """The value, which must be of that kind."""
    if type(value) is not kind:
        raise Fault(f"{value!r} stands where {kind.__name__} is known")
    return value


class Source:
    """A file with constants, and a place in it."""

    def __init__(self, folder, name):
        self.path = os.path.join(folder, name)
        with open(self.path, encoding="utf-8") as file:
            self.text = file.read()
        self.place = 0

    def fail(self, message):
        """Says where it is."""
        line = self.text.count("\n", 0, self.place) + 1
        raise Fault(f"{self.path}:{line}: {message}")

    def token(self):
        """The next token, which is not taken yet."""
        found = TOKEN.match(self.text, self.place)
        while found and found.lastgroup == "blank":
            self.place = found.end()
            found = TOKEN.match(self.text, self.place)
        return found or self.fail("unknown token")

    def taken(self):
        """The next token, which is taken."""
        found = self.token()
        self.place = found.end()
        return found

    def stands(self, mark):
        """Whether the mark is next. Then it is taken."""
        if self.token()[0] != mark:
            return False
        self.taken()
        return True

    def expect(self, mark):
        """Takes the mark, which must be next."""
        if not self.stands(mark):
            self.fail(f"{self.token()[0]} stands where {mark} is known")

    def list_of(self, item, closing):
        """The items up to the closing mark, with a comma between two and perhaps behind the last."""
        items = []
        has_more = not self.stands(closing)
        while has_more:
            items.append(item())
            if self.stands(","):
                has_more = not self.stands(closing)
            else:
                self.expect(closing)
                has_more = False
        return tuple(items)

    def entry(self):
        """A field's name and its value."""
        name = self.taken()
        self.expect(":")
        return name[0], self.value()

    def named(self, name):
        """What begins with the name."""
        if self.stands("("):
            return Call(name, self.list_of(self.value, ")"))
        if self.stands("{"):
            entries = self.list_of(self.entry, "}")
            if len(dict(entries)) != len(entries):
                self.fail("a field stands twice")
            return Record(name, dict(entries))
        if name in ("true", "false"):
            return name == "true"
        return Call(name, ())

    def value(self):
        """A number, a text, bytes, a list or a name. A reference is what it refers to."""
        found = self.taken()
        if found.lastgroup == "number":
            return int(found[0])
        if found.lastgroup == "text":
            return unescaped(found[0][1:-1]).decode("ascii")
        if found.lastgroup == "bytes":
            return unescaped(found[0][2:-1])
        if found.lastgroup == "word":
            return self.named(found[0])
        if found[0] == "&":
            return self.value()
        if found[0] in CLOSING:
            return self.list_of(self.value, CLOSING[found[0]])
        return self.fail(f"no value begins with {found[0]}")

    def constant(self, name):
        """The constant's value. It is declared once, and has as many items as its type says."""
        pattern = rf"^(?:pub\(crate\) )?const {name}:([^=]*)="
        declared = list(re.finditer(pattern, self.text, re.MULTILINE))
        if len(declared) != 1:
            raise Fault(f"{self.path}: {name} is declared {len(declared)} times")
        self.place = declared[0].end()
        value = self.value()
        self.expect(";")
        count = re.search(r"; *([0-9]+)\]\s*$", declared[0][1])
        if count and len(value) != int(count[1]):
            self.fail(f"{name} has {len(value)} items here")
        return value


# The policies.

# Stands for every text, where otherwise a set of texts stands.
ALL = "all"

# The methods of HTTP (RFC 9110, section 9, and RFC 5789).
METHODS = frozenset((b"GET", b"HEAD", b"POST", b"PUT", b"DELETE", b"CONNECT", b"OPTIONS", b"TRACE", b"PATCH"))


@dataclasses.dataclass(frozen=True)
class Policy:
    """Nothing is allowed, but what is said otherwise."""

    origins: object = frozenset()
    rules: tuple = ()
    methods: frozenset = frozenset()
    headers: object = frozenset()
    exposed: object = frozenset()
    max_age: object = None
    preflight: bool = True
    wildcard: bool = False
    credentials: bool = False
    vary: bool = True
    block: bool = False


PERMISSIVE = Policy(origins=ALL, methods=METHODS, headers=ALL, exposed=ALL, max_age=3600, credentials=True)

# Calls of the builder that set a part of the policy.
SETTINGS = {
    "AnyOrigin": ("origins", ALL),
    "AnyMethod": ("methods", METHODS),
    "AnyHeader": ("headers", ALL),
    "ExposeAny": ("exposed", ALL),
    "Wildcard": ("wildcard", True),
    "Credentials": ("credentials", True),
    "NoVary": ("vary", False),
    "NoPreflight": ("preflight", False),
    "Block": ("block", True),
}

# Calls of the builder that add a text to a part of the policy, and whether it is compared without regard to case.
ADDITIONS = {
    "Origin": ("origins", False),
    "Method": ("methods", False),
    "Header": ("headers", True),
    "Expose": ("exposed", True),
}

# Which origins a rule allows, by the request's method.
RULES = {
    "UnderExample": lambda origin, method: origin.endswith(b".example.org"),
    "OfPosts": lambda origin, method: method == b"POST",
}


def with_text(policy, name, text):
    """One more text. Behind all texts it is the only one."""
    part, in_any_case = ADDITIONS[name]
    text = text.lower().encode() if in_any_case else text.encode()
    present = getattr(policy, part)
    present = frozenset() if present == ALL else present
    return dataclasses.replace(policy, **{part: present | {text}})


def with_rule(policy, rule):
    """One more rule."""
    if rule.name not in RULES or rule.arguments:
        raise Fault(f"unknown rule {rule}")
    return dataclasses.replace(policy, rules=policy.rules + (rule.name,))


def with_age(policy, age):
    """The age that a preflight's answer may have, or none."""
    if age == NOTHING:
        return dataclasses.replace(policy, max_age=None)
    if age.name != "Some" or len(age.arguments) != 1:
        raise Fault(f"unknown age {age}")
    return dataclasses.replace(policy, max_age=checked(age.arguments[0], int))


def with_step(policy, step):
    """The policy after one call of the builder."""
    name, arguments = checked(step, Call)
    if name == "Permissive" and not arguments:
        return PERMISSIVE
    if name in SETTINGS and not arguments:
        part, value = SETTINGS[name]
        return dataclasses.replace(policy, **{part: value})
    if len(arguments) != 1:
        raise Fault(f"unknown step {step}")
    if name in ADDITIONS:
        return with_text(policy, name, checked(arguments[0], str))
    if name == "AlsoBy":
        return with_rule(policy, checked(arguments[0], Call))
    if name == "Age":
        return with_age(policy, checked(arguments[0], Call))
    raise Fault(f"unknown step {step}")


def policy_of(_source, steps):
    """The policy after all calls, which must be one that the middleware takes."""
    policy = Policy()
    for step in checked(steps, tuple):
        policy = with_step(policy, step)
    if policy.origins == ALL and policy.wildcard and policy.credentials:
        raise Fault(f"the middleware takes no such policy: {steps}")
    return policy


# The requests, and the replies of the inner service.

# The writer of responses answers for these itself.
FRAMING_NAMES = {b"connection", b"content-length", b"transfer-encoding"}

REASON_PHRASES = {
    200: b"OK",
    204: b"No Content",
    206: b"Partial Content",
    400: b"Bad Request",
    503: b"Service Unavailable",
}


def field_of(source, field):
    """A name and a value, which may stand in a constant."""
    if type(field) is Call and not field.arguments:
        field = source.constant(field.name)
    if len(checked(field, tuple)) != 2:
        raise Fault(f"unknown field {field}")
    return checked(field[0], str).lower().encode(), checked(field[1], bytes)


def fields_of(source, fields):
    """Names and values, in order."""
    return tuple(field_of(source, field) for field in checked(fields, tuple))


def request_of(source, asked):
    """A method and its fields, or a preflight for a header with a long name."""
    name, arguments = checked(asked, Call)
    if name == "By" and len(arguments) == 2:
        return Request(checked(arguments[0], str).encode(), fields_of(source, arguments[1]))
    if name == "ForLongName" and len(arguments) == 1:
        long_name = ("Access-Control-Request-Headers", b"a" * checked(arguments[0], int))
        return Request(b"OPTIONS", fields_of(source, (Call("A", ()), Call("PUT", ()), long_name)))
    raise Fault(f"unknown request {asked}")


def reply_of(source, record):
    """What the inner service gives to each request."""
    name, parts = checked(record, Record)
    if name != "Reply" or set(parts) != set(Reply._fields):
        raise Fault(f"unknown reply {record}")
    fields = fields_of(source, parts["fields"])
    if parts["status"] not in REASON_PHRASES or FRAMING_NAMES & {name for name, _ in fields}:
        raise Fault(f"unknown reply {record}")
    return Reply(checked(parts["is_error"], bool), parts["status"], fields, checked(parts["body"], str).encode())


# What becomes of a request. Its name is that of the tally's count.

KINDS = (
    "granted",
    "not_granted",
    "preflights",
    "no_origin",
    "origin_not_allowed",
    "method_not_allowed",
    "bad_headers",
    "headers_not_allowed",
    "blocked",
    "other_refusals",
)

TOKEN_BYTES = frozenset(b"!#$%&'*+-.^_`|~0123456789abcdefghijklmnopqrstuvwxyzABCDEFGHIJKLMNOPQRSTUVWXYZ")

LONGEST_NAME = 65535


def first_value(fields, name):
    """The first value of the name, or None."""
    return next((value for other, value in fields if other == name), None)


def is_token(text):
    """Whether the text is one or more bytes of a token (RFC 9110, section 5.6.2)."""
    return len(text) > 0 and TOKEN_BYTES.issuperset(text)


def is_preflight(request):
    """Whether the request asks beforehand: it is OPTIONS and names a method."""
    method = first_value(request.fields, b"access-control-request-method")
    return request.method == b"OPTIONS" and method is not None and is_token(method)


def kind_of_origin(policy, request):
    """Whether the origin is granted, or why the request is refused."""
    if policy.origins == ALL and not policy.rules:
        return "granted"
    origin = first_value(request.fields, b"origin")
    if origin is None:
        return "no_origin"
    if policy.origins != ALL and origin in policy.origins:
        return "granted"
    if any(RULES[rule](origin, request.method) for rule in policy.rules):
        return "granted"
    return "origin_not_allowed" if policy.block else "not_granted"


def kind_of_asked_headers(policy, request):
    """Whether a preflight that asks for these headers is answered, or why it is refused."""
    asked = first_value(request.fields, b"access-control-request-headers")
    if policy.headers == ALL or asked is None:
        return "preflights"
    names = [item.strip(b" \t") for item in asked.split(b",")]
    if not all(is_token(name) and len(name) <= LONGEST_NAME for name in names):
        return "bad_headers"
    if not all(name.lower() in policy.headers for name in names):
        return "headers_not_allowed"
    return "preflights"


def kind_of_preflight(policy, request):
    """Its origin is judged, then the method, then the headers. An origin that is not granted is refused."""
    kind = kind_of_origin(policy, request)
    if kind == "not_granted":
        return "origin_not_allowed"
    if kind != "granted":
        return kind
    if first_value(request.fields, b"access-control-request-method") not in policy.methods:
        return "method_not_allowed"
    return kind_of_asked_headers(policy, request)


def kind_of(policy, request):
    """A preflight is answered, unless the policy disables that. A request without an origin is handed on."""
    if policy.preflight and is_preflight(request):
        return kind_of_preflight(policy, request)
    if first_value(request.fields, b"origin") is None:
        return "not_granted"
    kind = kind_of_origin(policy, request)
    return "blocked" if kind == "origin_not_allowed" else kind


# The answers.

VARY = b"Origin, Access-Control-Request-Method, Access-Control-Request-Headers"

REFUSALS = {
    "no_origin": b"Request header `Origin` is required but was not provided",
    "origin_not_allowed": b"Origin is not allowed to make this request",
    "blocked": b"Origin is not allowed to make this request",
    "method_not_allowed": b"Requested method is not allowed",
    "bad_headers": b"Request header `Access-Control-Request-Headers` has an invalid value",
    "headers_not_allowed": b"One or more request headers are not allowed",
}


def joined(names):
    """The names in the order of their bytes, or None for none."""
    return b", ".join(sorted(names)) if names else None


def replaced(fields, name, value):
    """The value stands in place of the first of its name, or else last; the others of its name go."""
    if value is None:
        return fields
    place = next((number for number, field in enumerate(fields) if field[0] == name), len(fields))
    behind = tuple(field for field in fields[place:] if field[0] != name)
    return fields[:place] + ((name, value),) + behind


def with_vary(policy, fields):
    """The answer names what it depends on, behind what the first `Vary` names."""
    if not policy.vary:
        return fields
    present = first_value(fields, b"vary")
    return replaced(fields, b"vary", VARY if present is None else present + b", " + VARY)


def granted_value(policy, request):
    """`*`, or the request's origin."""
    if policy.origins == ALL and policy.wildcard:
        return b"*"
    return first_value(request.fields, b"origin")


def preflight_fields(policy, request):
    """What a preflight's answer allows. Where no set of headers is given, the headers asked for are allowed."""
    headers = None if policy.headers == ALL else joined(policy.headers)
    if headers is None:
        headers = first_value(request.fields, b"access-control-request-headers")
    fields = (
        (b"access-control-allow-origin", granted_value(policy, request)),
        (b"access-control-allow-methods", joined(policy.methods)),
        (b"access-control-allow-headers", headers),
        (b"access-control-allow-credentials", b"true" if policy.credentials else None),
        (b"access-control-max-age", None if policy.max_age is None else b"%d" % policy.max_age),
    )
    return with_vary(policy, tuple(field for field in fields if field[1] is not None))


def augmented_fields(policy, grant, fields):
    """What the policy writes into a reply: the grant, the headers a page may read, the credentials, `Vary`."""
    fields = replaced(fields, b"access-control-allow-origin", grant)
    exposed = {name for name, _ in fields} if policy.exposed == ALL else policy.exposed
    fields = replaced(fields, b"access-control-expose-headers", joined(exposed))
    fields = replaced(fields, b"access-control-allow-credentials", b"true" if policy.credentials else None)
    return with_vary(policy, fields)


def written(status, fields, body):
    """The bytes of the response (RFC 9112). One with status 204 has no body, and no length either."""
    lines = [b"HTTP/1.1 %d %s" % (status, REASON_PHRASES[status])]
    lines += [name + b": " + value for name, value in fields]
    if status == 204:
        body = b""
    else:
        lines.append(b"content-length: %d" % len(body))
    return b"".join(line + b"\r\n" for line in lines) + b"\r\n" + body


def answer(policy, request, reply):
    """The kind of the answer, its bytes, and whether it is an error's."""
    kind = kind_of(policy, request)
    if kind in ("granted", "not_granted"):
        grant = granted_value(policy, request) if kind == "granted" else None
        fields = augmented_fields(policy, grant, reply.fields)
        return kind, written(reply.status, fields, reply.body), reply.is_error
    if kind == "preflights":
        return kind, written(200, preflight_fields(policy, request), b""), False
    fields = with_vary(policy, ()) if kind == "blocked" else ()
    return kind, written(400, fields, REFUSALS[kind]), False


# The numbers.


def digest_with(digest, text):
    """The digest with more bytes."""
    for byte in text:
        digest = (digest * 31 + byte) & 0xFFFFFFFF
    return digest


def tally_of(policies, replies, requests):
    """The counts and the digest of each policy's answers over each reply to each request."""
    tally = dict.fromkeys(("pairs", "digest") + KINDS, 0)
    for policy in policies:
        for reply in replies:
            for request in requests:
                kind, text, is_error = answer(policy, request, reply)
                tally["pairs"] += 1
                tally[kind] += 1
                tally["digest"] = digest_with(digest_with(tally["digest"], text), (is_error,))
    return tally


def is_as_expected(shown, tally, expected):
    """Prints the tally, and each number that is not expected."""
    kinds = ", ".join(f"{kind} {tally[kind]}" for kind in KINDS)
    print(f"{shown}: {tally['pairs']} pairs, {kinds}, digest {tally['digest']}")
    tally = dict(tally, first_other=NOTHING)
    others = [name for name in sorted({*tally, *expected}) if tally.get(name) != expected.get(name)]
    for name in others:
        print(f"failed: {shown}: {name} is {tally.get(name)}, but {expected.get(name)} is expected")
    return not others


def items_of(source, name, meaning):
    """What the items of the constant mean."""
    return [meaning(source, item) for item in checked(source.constant(name), tuple)]


def expected_of(source, name):
    """The numbers that the test expects."""
    record = checked(source.constant(name), Record)
    if record.name != "Tally":
        raise Fault(f"unknown tally {record}")
    return record.fields


def are_as_expected(folder):
    """Whether both tables have the numbers that the test expects."""
    policies = items_of(Source(folder, "policies.rt"), "POLICIES", policy_of)
    parts = ("ORIGINS", "OTHERS", "METHODS", "HEADERS")
    requests = [it for part in parts for it in items_of(Source(folder, "requests.rt"), part, request_of)]
    long_names = items_of(Source(folder, "requests.rt"), "LONG_NAMES", request_of)
    replies = items_of(Source(folder, "inner.rt"), "REPLIES", reply_of)
    expected = expected_of(Source(folder, "comparing.rt"), "EXPECTED")
    expected_of_long_names = expected_of(Source(folder, "comparing.rt"), "EXPECTED_OF_LONG_NAMES")
    first = is_as_expected("the table", tally_of(policies, replies, requests), expected)
    second = is_as_expected("long names", tally_of(policies, replies[:1], long_names), expected_of_long_names)
    return first and second


def main():
    """The repository's top may be given."""
    top = sys.argv[1] if len(sys.argv) > 1 else os.path.dirname(os.path.dirname(os.path.abspath(__file__)))
    try:
        passed = are_as_expected(os.path.join(top, "crates", "cors_table_tests", "src"))
    except (Fault, OSError) as fault:
        sys.exit(f"failed: {fault}")
    sys.exit(0 if passed else 1)


if __name__ == "__main__":
    main()
