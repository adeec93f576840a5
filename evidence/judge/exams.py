"""Counts what is wrong in the symbols of an exam, of all pairs of version and level."""
import goqlanis
import reading
from damage import bounds, wrong_in
from looks import square_of

# The headers of contents; of structured append without its parity.
HEADERS = {"eci": [("ECI", 26)], "fnc1": [("FNC1",)], "append": [("symbol", 1, 2)]}


def complaint(question, whole):
    """Returns what is wrong with a question, whose symbol was `whole`."""
    version, level = question.symbol.version, question.symbol.level
    most, required = bounds(version, level)
    count = {"whole": 0, "most": most, "beyond": most + 1}[question.damage]
    words, formats, versions, others = wrong_in(square_of(whole), square_of(question.symbol),
                                                version, level, whole.mask)
    bits = {0 if question.damage == "whole" else 3}
    if {*words} != {count} or {*formats, *versions} != bits or others:
        return f"{question.name}: {words}, {formats}, {versions}, {others} are wrong"
    if (question.must_read, question.goqlanis_reads) != (count <= required, count <= most):
        return f"{question.name}: {most} wrong codewords are corrected, {required} must be"
    if not question.goqlanis_reads:
        return ""
    bits, said = reading.read_headed(square_of(question.symbol))
    found = *bits[:4], said.data, [it[:3] for it in said.headers]
    own = (version, level, whole.mask, sum(words), question.data,
           HEADERS.get(question.name.split("-")[2], []))
    return f"{question.name}: {found}" if found != own else ""


def questions():
    """The symbols of an exam have the damage and the data that it says"""
    exam = {}
    for it in goqlanis.exam():
        exam.setdefault((it.symbol.version, it.symbol.level), []).append(it)
    # The three questions of a symbol of each version and level, of all contents in turn.
    asked = [it for at, own in enumerate(exam.values()) for it in own[3 * at % len(own):][:3]]
    kinds = {it.name.split("-")[2] for it in asked}
    found = [complaint(it, asked[at // 3 * 3].symbol) for at, it in enumerate(asked)]
    # Where no segment is full, few symbols have no room for 13 bits more.
    read = [reading.read_headed(square_of(it.symbol)) for it in asked[::3]]
    full = sum(len(bits.bits) - said.length < 13 for bits, said in read)
    is_whole = len(exam) == 168 and len(kinds) == 9 and 3 * full > len(exam)
    return found + ["no exam"] * (not is_whole), f"{len(asked)} symbols"


TESTS = [questions]
