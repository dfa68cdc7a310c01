"""The statuses of the desk, as docs/reference/requests.md lists them: each with its body.

The order is the one in which the desk decides. The causes stand here. A body without a cause is a
finding, and so is a cause of a body that the desk never sends.
"""

import re

from claims_lib import meanings
from claims_lib.tree import text_of, without_comments

SOURCES = (
    "crates/acct_desk/src/refusals.rt",
    "crates/acct_desk/src/handling.rt",
    "crates/acct_desk/src/pages.rt",
    "crates/acct_desk_pages/src/json_response.rt",
)
NUMBERS = {
    "OK": 200, "CREATED": 201, "BAD_REQUEST": 400, "UNAUTHORIZED": 401, "PAYMENT_REQUIRED": 402,
    "FORBIDDEN": 403, "NOT_FOUND": 404, "METHOD_NOT_ALLOWED": 405, "CONFLICT": 409, "PAYLOAD_TOO_LARGE": 413,
    "UNPROCESSABLE_ENTITY": 422, "SERVICE_UNAVAILABLE": 503,
}
# Whose key has a role.
BEARERS = dict(Account="a guest's", Cashier="a cashier's", Clerk="an `accounts`",
               Logins="the front's")


def bodies():
    """The status and the kind of each body, by its words."""
    found = {}
    for path in SOURCES:
        text = without_comments(text_of(path))
        call = r'(error|result)_octets\(\s*alloc,\s*StatusCode::(\w+),\s*([^;]*?)"([a-z ]+)",?\s*\)'
        for kind, status, _, words in re.findall(call, text):
            found[words] = (NUMBERS[status], kind)
        told = r'error_value\(alloc, "([a-z ]+)"\)\?;\s*Ok\(Told \{\s*status: StatusCode::(\w+)'
        for words, status in re.findall(told, text):
            found[words] = (NUMBERS[status], "error")
    return found


def rows(checker):
    found = bodies()
    yield "| Status | Body | Cause |"
    yield "|---|---|---|"
    for words, cause, _ in meanings.compared(checker, "statuses", found):
        status, kind = found.get(words, ("", ""))
        yield f'| {status} | `"{kind}"`: `"{words}"` | {cause} |'
    yield "| 200 | a page | a question was answered |"


def requests(checker):
    """Each path of the desk with its method, whose key it takes, and what is there."""
    routes, asking = text_of("crates/acct_desk/src/routes.rt"), text_of("crates/acct_desk/src/asking.rt")
    found = re.findall(r"    /// `(/[A-Za-z/\[\]]+)`: (.+?)\.\n    (\w+),", routes)
    for path, about, name in found:
        method = "POST" if re.search(rf"Endpoint::{name} => \"POST\"", routes) else "GET"
        role = re.search(rf"Endpoint::{name}, Role::(\w+)", asking) or ("", "Account")
        yield f"- {method} `{path}`, by {BEARERS[role[1]]} key: {about}"
    fixed = {it[0] for it in found if it[0].islower()}
    if fixed != set(re.findall(r'router.insert\("([^"]+)"', routes)):
        checker.find(1, "a path of the desk has no comment")


MAKERS = {"statuses": rows, "requests": requests}
