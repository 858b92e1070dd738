"""What the models say of a query's text: its first fault, or the query."""
import model
import query_model
from query_model import MOST_TEXT

from .limit_faults import of_limit, of_passed_limit
from .looks import Looked
from .renaming import near
from .shape_faults import of_policy, of_shape
from .token_faults import of_bad_token, of_syntax, of_wrong_bytes


def looked(content):
    """What the models say of the bytes of a text, and what stands near its fault."""
    its = first_fault(content)
    return its if its.sign is None or its.sign.number == "10" or its.sign.what == "bytes" else its._replace(
        near=near(content.decode(), its.at))


def first_fault(content):
    """What they say, in the order in which the program tells faults."""
    if len(content) > MOST_TEXT:
        return of_limit("text", MOST_TEXT, f"the text has {len(content)} bytes, and {MOST_TEXT} may be")
    if not model.is_utf8(content):
        return of_wrong_bytes(content)
    text = content.decode()
    try:
        query = query_model.parse(text)
    except query_model.Refused as why:
        name, detail, *_ = why.args
        looks = {"BadToken": of_bad_token, "Syntax": of_syntax, "LeftOut": of_syntax, "Limit": of_passed_limit}
        return looks[name](text, detail)
    return of_shape(text, query) or of_policy(query) or Looked(None, 0, "the text has no fault", None, query=query)
