"""Terms as the model has them, and how they are printed. No two terms are equal, of whatever kinds they are."""
import re
from collections import namedtuple

XSD = b"http://www.w3.org/2001/XMLSchema#"
XSD_STRING = XSD + b"string"
LANG_STRING = b"http://www.w3.org/1999/02/22-rdf-syntax-ns#langString"
ESCAPES = {b'"': b'\\"', b"\\": b"\\\\", b"\t": b"\\t", b"\n": b"\\n", b"\r": b"\\r"}

# the log is document 1; each kind of term has another row of fields, so that none is equal to one of another kind
Iri = namedtuple("Iri", "name")
Blank = namedtuple("Blank", "label document", defaults=[1])
Literal = namedtuple("Literal", "lexical datatype")
Tagged = namedtuple("Tagged", "lexical language datatype", defaults=[LANG_STRING])


def printed(term):
    if isinstance(term, Iri):
        return b"<%s>" % term.name
    if isinstance(term, Blank):
        return b"_:b%dx%s" % (term.document, term.label)
    text = b'"%s"' % re.sub(rb'["\\\t\n\r]', lambda found: ESCAPES[found[0]], term.lexical)
    if isinstance(term, Tagged):
        return text + b"@" + term.language
    return text if term.datatype == XSD_STRING else b"%s^^<%s>" % (text, term.datatype)


def is_absolute(name):
    return re.match(rb"[A-Za-z][A-Za-z0-9+.-]*:", name) is not None
