"""What is told of a refused text of a query, 7 to 14: its place, what could stand there, and what the tables of QUERIES say."""
from . import differing
from .findings import Finding
from .limits import SECONDS, within_limits
from .marks import MARK, of_mark
from .mistakes import TEXTS, advice
from .pages import QUERIES, limit_of, page_of, paragraph
from .refusals import details_of, kind_of
from .stands import in_words
from .texts import looked

NUMBERS = range(7, 15)
UNREAD = f"the model hasn't read this text in {SECONDS} seconds, so this is its place alone"


def of_text(text, content, why):
    """A refusal of a text, whose bytes are a front of those that stand there: behind them may stand the `@end` of a block."""
    details, its = details_of(why), within_limits(looked, content)
    if its is None:
        at, (page, sentence) = details.get("at", 0), of_reports(why)
        return Finding(text.place(at), kind_of(why), UNREAD, sentence, page, text.shown(at))
    if its.why != why:
        raise differing.from_model(text.place(min(details.get("at", 0), len(content))), why, its.why)
    if content.startswith(MARK, its.at):
        return of_mark(text.place(its.at), kind_of(why), text.line(its.at))
    write, page = what_to_write(its, why, content[its.at:].decode("utf-8", "replace"))
    return Finding(text.place(its.at), kind_of(why), its.said, write, page, text.shown(its.at))


def what_to_write(its, why, rest):
    """What could stand there and what is meant; where neither is known, what REPORTS says; and the page for it."""
    could = None if its.could is None else in_words(its.could)
    found = its.sign and advice(its, rest)
    if found:
        return "\n".join(filter(None, [could, f"write instead: {found[0]}"])), found[1]
    if could:
        return could, page_of(QUERIES, TEXTS)
    page, sentence = of_reports(why)
    return sentence, page


def of_reports(why):
    """The page and the sentence of REPORTS; of a limit its row."""
    page, sentence = paragraph(kind_of(why))
    return page, f"at most {limit_of(details_of(why)['what'])}" if kind_of(why) == "10 Limit" else sentence
