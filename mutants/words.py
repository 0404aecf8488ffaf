"""The words of Rattle's code, without comments, strings, clauses and ghost items."""
import re

WORD = re.compile(
    r"""(?P<space>\s+|//[^\n]*)
      | (?P<nested>/\*)
      | (?P<text>[bc]?r(?P<marks>\#*)"(?s:.*?)"(?P=marks) | [bc]?"(?s:\\.|[^"\\])*" | b?'(?:\\(?:u\{\w+\}|x\w\w|.)|[^'\\])')
      | (?P<code>'?\w+|.)""",
    re.X,
)
# Antt's text has other comments, and strings as Rust has them.
ANTT = re.compile(r"--[^\n]*|\{-|\"(?:\\.|[^\"\\])*\"|[{}]")
CLAUSES = ("requires", "ensures", "ghost")


def words_of(text):
    """Yields each word of the code with the number of its line."""
    at, line = 0, 1
    while at < len(text):
        found = WORD.match(text, at)
        end = found.end()
        if found["nested"]:
            end = end_of_nested(text, at, "/*", "*/")
        elif found["code"] in CLAUSES:
            end = end_of_clause(text, end)
        elif found["code"]:
            yield line, found["code"]
        line += text.count("\n", at, end)
        at = end


def end_of_nested(text, at, opens, closes):
    """Where a comment ends that begins here, and that may hold others."""
    depth = 0
    for found in re.finditer(f"{re.escape(opens)}|{re.escape(closes)}", text[at:]):
        depth += 1 if found[0] == opens else -1
        if not depth:
            return at + found.end()
    return len(text)


def end_of_clause(text, at):
    """Where a clause or a ghost item ends, whose first word ends here: after `;` for an import, else after its last block in braces."""
    if re.match(r"\s*use\b", text[at:]):
        return text.find(";", at) % (len(text) + 1) + 1
    while True:
        opens = text.find("{", at)
        if opens < 0:
            return len(text)
        at = end_of_antt(text, opens)
        if not re.match(r"\s*(?:=|by\b)", text[at:]):
            return at


def end_of_antt(text, at):
    """Where antt's text ends whose opening brace stands here."""
    depth, found = 0, None
    while found := ANTT.search(text, at):
        at = found.end()
        if found[0] == "{-":
            at = end_of_nested(text, found.start(), "{-", "-}")
        depth += (found[0] == "{") - (found[0] == "}")
        if not depth:
            return at
    return len(text)
