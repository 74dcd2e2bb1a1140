"""The names that each client must have: those of its calls, options and failures, and of what a report tells of a tenant, in the form of
its language, looked for in its source.

Used by: scripts/check-clients. A further call is a word of CALLS, a further failure one of FAILURES. A further client has a row in FORMS.
"""
import re
from pathlib import Path
from typing import Callable, Dict, List, NamedTuple, Sequence

CLIENTS = Path(__file__).resolve().parent.parent.parent / "clients"
CALLS = {"Client": ("words", "get", "get_many", "stable", "read", "cas", "reconnect", "close"),
         "Administrator": ("report", "reconnect", "close"), "Counted": ("cas", "settle")}
OPTIONS = ("timeout", "patience", "within", "reconnects")
FIELDS = ("name", "words", "quota", "places", "under_way", "up")
"""Of a tenant in a report."""
FAILURES = ("Lost", "Full", "Unknown", "Busy", "Fault", "Worn", "Refused")
MORE_FAILURES = ("Invalid", "Moved")
"""Those that Python and Java have of their own."""
BRACE, NEXT = r"(?:(?!^\}).)*?", r"(?:(?!^class ).)*?"
"""What may be in a type between its first line and a name: nothing that ends it."""


class Form(NamedTuple):
    """How a client's source names things: its files; patterns of a call of a type, of an option, of a tenant's field in a report and of a
    failure, all of the name in the form of the language; and patterns of what begins a client, an administrator and a count."""
    files: Sequence[str]
    named: Callable[[str], str]
    call: Callable[[str, str], str]
    option: Callable[[str], str]
    field: Callable[[str], str]
    failure: Callable[[str], str]
    begins: Sequence[str]
    failures: Sequence[str] = FAILURES + MORE_FAILURES


def pascal(name: str) -> str:
    """As GetMany; CAS is short for three words."""
    return "CAS" if name == "cas" else "".join(part.capitalize() for part in name.split("_"))


def camel(name: str) -> str:
    """As getMany."""
    first, *more = name.split("_")
    return first + "".join(part.capitalize() for part in more)


def of_python(file: str) -> Form:
    """A client of the package in Python."""
    begins = [rf"^class {owner}\b{NEXT}^    def __init__\(self, {first}" for owner, first in
              (("Client", "server: str, tenant: str"), ("Administrator", "server: str"), ("Counted", "client: Client, address: int, wait: float"))]
    return Form([f"python/mondlexi/{file}", "python/mondlexi/errors.py", "python/mondlexi/_protocol.py"], str,
                lambda owner, name: rf"^class (?:{owner}|_Blocking|_Awaited)\b{NEXT}^    (?:async )?def {name}\(self",
                lambda name: rf"^class Client\b{NEXT}^    def __init__\([^)]*\b{name}: ", lambda name: rf"^class TenantReport:{NEXT}^    {name}: ",
                lambda name: rf"^class {name}\(", begins, FAILURES)


FORMS: Dict[str, Form] = {
    "python": of_python("_client.py"),
    "asyncio": of_python("aio.py"),
    "c": Form(["c/mondlexi.h"], str, lambda owner, name: rf"^\w[^/\n]*\bmondlexi_{'counted_' * (owner == 'Counted')}{name}\(",
              lambda name: rf"^typedef struct \{{{BRACE}^    int {name};{BRACE}^\}} mondlexi_options;",
              lambda name: rf"^typedef struct \{{{BRACE}^    \w+ {name}\b{BRACE}^\}} mondlexi_tenant;", lambda name: rf"^    MONDLEXI_{name.upper()},?$",
              (r"^mondlexi_status mondlexi_connect\(", r"^mondlexi_status mondlexi_connect_administrator\(", r"^mondlexi_status mondlexi_counted_begin\(")),
    "rust": Form(["rust/src/client.rs", "rust/src/counted.rs", "rust/src/error.rs", "rust/src/protocol.rs", "rust/src/session.rs"], str,
                 lambda owner, name: rf"^impl {owner} \{{{BRACE}^    pub fn {name}\(&", lambda name: rf"^pub struct Options \{{{BRACE}^    pub {name}: ",
                 lambda name: rf"^pub struct TenantReport \{{{BRACE}^    pub {name}: ", lambda name: rf"^pub enum Error \{{{BRACE}^    {name}\b",
                 [rf"^impl {owner} \{{{BRACE}^    pub fn {name}\(" for owner, name in
                  (("Client", "connect"), ("Administrator", "connect"), ("Counted", "begin"))]),
    "go": Form(["go/client.go", "go/counted.go", "go/mondlexi.go", "go/protocol.go", "go/session.go"], pascal,
               lambda owner, name: rf"^func \(\w+ \*{owner}\) {name}\(", lambda name: rf"^type Options struct \{{{BRACE}^\t{name} ",
               lambda name: rf"^type TenantReport struct \{{{BRACE}^\t{name}\b", lambda name: rf"^\tErr{name} = ",
               (r"^func Connect\(", r"^func ConnectAdministrator\(", r"^func BeginCounted\(")),
    "node": Form(["node/index.d.ts"], camel, lambda owner, name: rf"^export class {owner} \{{{BRACE}^  (?:get )?{name}\(",
                 lambda name: rf"^export interface Options \w.*?\{{{BRACE}^  {name}\?: ", lambda name: rf"^export interface TenantReport \{{{BRACE}^  {name}: ",
                 lambda name: rf"^export class {name} extends ",
                 [rf"^export class {owner} \{{{BRACE}^  static {name}\(" for owner, name in
                  (("Client", "connect"), ("Administrator", "connect"), ("Counted", "begin"))]),
    "java": Form(["java/src/mondlexi/*.java"], camel,
                 lambda owner, name: rf"^public final class {owner}\b{BRACE}^    public (?:synchronized )?[\w\[\]]+ {name}\(",
                 lambda name: rf"^public record Options\([^)]*\b{name}\b", lambda name: rf"^public record TenantReport\([^)]*\b{name}\b",
                 lambda name: rf"^    public static (?:final|sealed) class {name} extends ",
                 [rf"^public final class {owner}\b{BRACE}^    public static {owner} {name}\(" for owner, name in
                  (("Client", "connect"), ("Administrator", "connect"), ("Counted", "begin"))], FAILURES),
}


def missing_names(client: str) -> List[str]:
    """A line for each name that a client's source hasn't."""
    form = FORMS[client]
    text = "\n".join(path.read_text() for name in form.files for path in sorted(CLIENTS.glob(name)))
    wanted = {f"{owner}.{name}": form.call(owner, form.named(name)) for owner, names in CALLS.items() for name in names}
    wanted.update({f"the option {name}": form.option(form.named(name)) for name in OPTIONS})
    wanted.update({f"the field {name} of a tenant's report": form.field(form.named(name)) for name in FIELDS})
    wanted.update({f"the failure {name}": form.failure(name) for name in form.failures})
    wanted.update({f"what begins {what}": pattern for what, pattern in zip(("a client", "an administrator", "a count"), form.begins)})
    return [f"{what} isn't in {', '.join(form.files)}" for what, pattern in wanted.items() if not re.search(pattern, text, re.MULTILINE | re.DOTALL)]
