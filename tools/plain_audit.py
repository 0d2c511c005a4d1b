#!/usr/bin/env python3
"""The rules of a trace, plainly: each line is tested by searches of all lines before it. It is slow and stands apart from the program, so that
the two can be compared (pair_to_trace.py).

usage: tools/plain_audit.py < TRACE
"""
import re
import sys
import xml.parsers.expat

HTTPBIND = "http://jabber.org/protocol/httpbind"
GREATEST = 9007199254740991


class Element:
    """An element of a text: its attributes, and the bytes of each child."""

    def __init__(self, text):
        self.text = text
        self.attributes = {}
        self.children = []
        self.depth = 0
        self.is_new = False
        self.stray = False
        parser = xml.parsers.expat.ParserCreate("utf-8")
        parser.StartElementHandler = self.start
        parser.EndElementHandler = self.end
        parser.CharacterDataHandler = self.data
        parser.CommentHandler = parser.ProcessingInstructionHandler = parser.StartDoctypeDeclHandler = self.forbidden
        self.parser = parser
        parser.Parse(text, True)

    def forbidden(self, *_):
        raise ValueError("a construct that no body has")

    def start(self, name, attributes):
        if self.depth == 0:
            self.name, self.attributes = name, attributes
        if self.depth == 1:
            self.children.append(self.parser.CurrentByteIndex)
        self.depth += 1
        self.is_new = True

    def end(self, _):
        self.depth -= 1
        if self.depth == 1:
            begin = self.children.pop()
            at = self.parser.CurrentByteIndex
            is_empty = self.is_new and self.text[at - 2:at] == b"/>"
            self.children.append(self.text[begin:at if is_empty else self.text.index(b">", at) + 1])
        self.is_new = False

    def data(self, text):
        self.is_new = False
        if self.depth == 1 and text.strip(" \t\r\n"):
            self.stray = True


def element_of(text):
    """The element that the text is, or None."""
    try:
        return Element(text)
    except (xml.parsers.expat.ExpatError, ValueError):
        return None


def stanzas_of(row):
    """The stanzas of a row with nothing between them."""
    return Element(b"<row>" + row + b"</row>").children


def is_stanza(text):
    return text.startswith(b"<") and text.endswith(b">") and element_of(text) is not None


def body_of(text):
    body = element_of(text)
    if body is None or body.name != "body" or body.stray:
        return None
    return body


def is_typed(text):
    body = body_of(text)
    return body is not None and "type" in body.attributes


def number_of(text):
    """A request id in plain decimal, or None."""
    if re.fullmatch(r"[1-9][0-9]{0,15}", text) and int(text) <= GREATEST:
        return int(text)
    return None


class Request:
    def __init__(self, body, rid):
        self.rid = rid
        self.body = body.text
        self.creates = "sid" not in body.attributes
        self.terminates = body.attributes.get("type") == "terminate"
        restarts = not self.creates and body.attributes.get("xmpp:restart") in ("true", "1")
        self.items = body.children + ([b"restart"] if restarts else [])


FLAG = r"true|1|false|0"
NUMBER = r"[0-9]{1,9}"
LATER_FORMS = {"type": "terminate", "pause": NUMBER, "ack": r"[1-9][0-9]*", "xmpp:restart": FLAG}
FIRST_FORMS = {"wait": NUMBER, "hold": NUMBER, "ver": NUMBER + r"\." + NUMBER, "ack": "1", "xmpp:restart": FLAG}


def in_form(attributes, rid, creates):
    """Whether the attributes by which a request is read are in their forms."""
    forms = FIRST_FORMS if creates else LATER_FORMS
    if any(name in attributes and not re.fullmatch(form, attributes[name]) for name, form in forms.items()):
        return False
    if creates:
        return "type" not in attributes
    return int(attributes.get("pause", "1")) > 0 and ("ack" not in attributes or int(attributes["ack"]) < rid)


def request_of(text):
    """The request that a body makes, where it is for the session's one stream, or None."""
    body = body_of(text)
    if body is None or body.attributes.get("xmlns") != HTTPBIND or "stream" in body.attributes:
        return None
    rid = number_of(body.attributes.get("rid", ""))
    if rid is None or not in_form(body.attributes, rid, "sid" not in body.attributes):
        return None
    request = Request(body, rid)
    is_empty = not request.items and not request.terminates and "pause" not in body.attributes
    return None if not request.creates and "to" in body.attributes and is_empty else request


class Told:
    """What the lines so far tell, each kind in its order."""

    def __init__(self):
        self.gave, self.sent, self.came, self.passed, self.answers, self.took, self.got = [], [], [], [], [], [], []

    def counted(self):
        """The first answer without a type for each id: the id, the body and its payloads."""
        firsts = []
        for rid, body in self.answers:
            if rid not in [first[0] for first in firsts]:
                firsts.append((rid, body, body_of(body).children))
        return firsts

    def inward(self):
        items = []
        for request in self.sent:
            if request.rid not in self.came:
                break
            items += request.items
            if request.terminates:
                break
        return items

    def taken(self):
        payloads = []
        for rid, _, row in self.counted():
            if rid not in self.took:
                break
            payloads += row
        return payloads

    def answer_breaks(self, rid, text):
        body = body_of(text)
        if body is None or body.attributes.get("xmlns") != HTTPBIND:
            return "body"
        if rid not in self.came:
            return "order"
        if "type" in body.attributes:
            return None
        counted = self.counted()
        earlier = [first[1] for first in counted if first[0] == rid]
        if earlier:
            return None if earlier[0] == text else "changed"
        lowest = [request.rid for request in self.sent if request.rid not in [first[0] for first in counted]]
        if not lowest or lowest[0] != rid:
            return "order"
        handed = sum(len(first[2]) for first in counted)
        return None if self.gave[handed:handed + len(body.children)] == body.children else "payload"

    def breaks(self, word, rest):
        """The first rule that the line breaks, or None."""
        if word == b"sent":
            request = request_of(rest)
            if request is None or request.creates == bool(self.sent):
                return "body"
            return "number" if self.sent and self.sent[-1].rid + 1 != request.rid else None
        if word == b"came":
            request = request_of(rest)
            return None if request and rest in [sent.body for sent in self.sent if sent.rid == request.rid] else "altered"
        if word == b"in":
            return None if self.inward()[len(self.passed):][:1] == [rest] else "inward"
        if word == b"answer":
            rid, body = rest
            return self.answer_breaks(rid, body)
        if word == b"took":
            return None if rest in [first[0] for first in self.counted()] else "took"
        if word == b"got":
            return None if self.taken()[len(self.got):][:1] == [rest] else "got"
        return None

    def add(self, word, rest):
        if word == b"gave":
            self.gave.append(rest)
        elif word == b"sent":
            self.sent.append(request_of(rest))
        elif word == b"came":
            self.came.append(request_of(rest).rid)
        elif word == b"in":
            self.passed.append(rest)
        elif word == b"answer" and not is_typed(rest[1]):
            self.answers.append(rest)
        elif word == b"took":
            self.took.append(rest)
        elif word == b"got":
            self.got.append(rest)


def read_line(line):
    """The word of a line and what follows it, or None where it is no line of a trace."""
    word, space, rest = line.partition(b" ")
    if line == b"end" or space and word in (b"sent", b"came"):
        return word, rest
    if space and (word in (b"gave", b"got", b"in") and is_stanza(rest) or (word, rest) == (b"in", b"restart")):
        return word, rest
    if space and word == b"took" and number_of(rest.decode("latin-1")):
        return word, number_of(rest.decode("latin-1"))
    if space and word == b"answer":
        rid, space, body = rest.partition(b" ")
        if space and number_of(rid.decode("latin-1")):
            return word, (number_of(rid.decode("latin-1")), body)
    return None


def outcome_of(lines):
    told = Told()
    for number, line in enumerate(lines, 1):
        read = read_line(line)
        if read is None:
            return b"bad %d grammar" % number
        if read[0] == b"end":
            return b"yes %d %d %d" % (len(told.sent), len(told.passed), len(told.got))
        rule = told.breaks(*read)
        if rule:
            return b"no %d %s" % (number, rule.encode())
        told.add(*read)
    return b"bad %d end" % (len(lines) + 1)


def first_word(line):
    return line.split(b" ", 1)[0]


def why_yes(kind, concerned, before, after):
    """Why a trace of which these lines were dropped, doubled, altered or exchanged still holds."""
    words = [first_word(line).decode() for line in concerned]
    if before == after:
        return "nothing changed"
    if kind == "exchanged":
        return f"{' and '.join(sorted(words))} don't depend on each other there"
    word = words[0]
    if kind == "doubled":
        return {"came": "a copy came again", "answer": "the answer was given again", "took": "it was taken again", "gave": "one more was given and not handed out"}.get(word, word)
    if kind == "dropped":
        repeats = before.count(concerned[0]) > 1
        again = {"came": "a copy came again", "answer": "the answer was given again", "took": "it was taken again"}
        if repeats and word in again:
            return "one of several: " + again[word]
        return {"sent": "the last request, and it didn't come", "came": "nothing of it or above it went inward, nor was it answered", "answer": "the last one, and not taken; or it has a type",
                "took": "nothing of it or above it was got", "in": "the last that went inward", "got": "the last that was got", "gave": "it was not handed out"}[word]
    return {"gave": "it was not handed out", "sent": "it didn't come", "answer": "its payloads are as they were, and it wasn't given again; or it has a type",
            "took": "another one was taken, and nothing of it or above it was got"}.get(word, word)


def main():
    print(outcome_of(sys.stdin.buffer.read().split(b"\n")[:-1]).decode())


if __name__ == "__main__":
    main()
