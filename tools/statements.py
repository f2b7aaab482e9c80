#!/usr/bin/env python3
"""Says what the crates below a crate state, as one SHA-256. A must-fail edit of a crate rests on the crate's own text and on
that: where both are as they were when the prover refused the edit, it needn't be tried again.

  tools/statements.py          prints each crate of crates.txt with the sum of what the crates below it state
  tools/statements.py FILE..   prints what is left of these files

What a crate states is its specs/ without comments, and its src/ without comments, without the bodies of functions, without
attributes `tactic`, which say how to prove, and without private functions, which no other crate can call: those that are
neither `pub` nor members of a trait or of a trait's impl. All else counts: signatures, clauses, types, constants (with
`const fn`, bodies too), ghost items, macros, derives, imports, names of files. The libraries of the kit count by its logic.
"""
import hashlib
import os
import re
import subprocess
import sys

TOP = os.path.dirname(os.path.dirname(os.path.realpath(__file__)))
RUST = re.compile(
    r"""\s+ | //[^\n]* | /\*
    | [bc]?r(?P<hashes>\#*)".*?"(?P=hashes) | [bc]?"(?:[^"\\]|\\.)*"
    | '(?:[^'\\\n]|\\[^\n][^'\n]*)' | '[A-Za-z_]\w*
    | r\#[A-Za-z_]\w* | \w+ | -> | => | .""",
    re.S | re.X,
)
# In antt's text, as in a clause, `--` opens a comment where no name goes on, and a quote mark is part of a name.
ANTT = re.compile(r"""{-|(?<![^\s(){}.;,@"»])--[^\n]*|"(?:[^"\\\n]|\\[^\n])*"|[^-{}"⟦]+|.""", re.S)
# The last words before the brace that opens antt's text; `{}` stands for such a text.
HEAD = re.compile(r" (?:(?:requires|ensures)(?: \*)?(?: \w+)?|ghost|ghost \w+ (?::|: (?:owns|lends)|=)|(?P<after>{} (?:=|by)))$")
OPENS, CLOSES = {*"([{"}, {*")]}"}


def end_of_nested(text, at, opens, closes):
    """Returns where the text ends that opens at `at` and may hold others of its kind."""
    depth = 0
    for it in re.compile(f"{re.escape(opens)}|{re.escape(closes)}").finditer(text, at):
        depth += 1 if it[0] == opens else -1
        if not depth:
            return it.end()
    raise ValueError(f"{opens} isn't closed")


def without_blank_lines(text):
    return "\n".join(it.rstrip() for it in text.split("\n") if it.strip())


def antt_text(text, at=0, is_in_braces=False):
    """Returns antt's text from `at` without comments, and where it ends: in braces before the one that closes them."""
    found, depth = [], 0
    while at < len(text):
        word = ANTT.match(text, at)[0]
        end = at + len(word)
        if word == "}" and is_in_braces and not depth:
            return without_blank_lines("".join(found)), at
        if word == "{-":
            word, end = " ", end_of_nested(text, at, "{-", "-}")
        elif word == "⟦":
            end = end_of_nested(text, at, "⟦", "⟧")
            word = text[at:end]
        elif word.startswith("--"):
            word = ""
        depth += (word == "{") - (word == "}")
        found.append(word)
        at = end
    if is_in_braces:
        raise ValueError("the braces of a clause or a ghost item aren't closed")
    return without_blank_lines("".join(found)), at


def words_of(text):
    """Returns the words of a .rt file without comments. A clause's or ghost item's text with its braces is one word."""
    found, at, is_typed = [], 0, False
    while at < len(text):
        word = RUST.match(text, at)[0]
        end = at + len(word)
        if word == "/*":
            end = end_of_nested(text, at, "/*", "*/")
        elif word == "{":
            last = ["{}" if len(it) > 1 and it[0] == "{" else it for it in found[-4:]]
            head = HEAD.search(" " + " ".join(last))
            if head and (is_typed or not head["after"]):
                is_typed = last[-2:-1] != ["{}"] and last[-1] in (":", "owns", "lends")
                inner, closed = antt_text(text, end, True)
                word, end = f"{{{inner}}}", closed + 1
            found.append(word)
        elif not word.isspace() and word[:2] != "//":
            found.append(word)
        at = end
        if found[-2:] == ["ghost", "use"]:
            end = text.index(";", at)
            found.append(text[at:end].strip())
            at = end
    return found


def end_of_group(words, at):
    """Returns where the group ends that opens at `at`."""
    depth = 0
    for end in range(at, len(words)):
        depth += (words[end] in OPENS) - (words[end] in CLOSES)
        if not depth:
            return end + 1
    raise ValueError(f"{words[at]} isn't closed")


def end_of_head(words, at):
    """Returns where the body of the function begins whose head is at `at`, or where its `;` stands."""
    angles = 0
    while words[at] != ";" and (angles or words[at] != "{"):
        angles += (words[at] == "<") - (words[at] == ">")
        at = end_of_group(words, at) if words[at] in OPENS else at + 1
    return at


def is_name(word):
    return word[0].isalpha() or word[0] == "_"


def is_macro(words, at):
    """Returns where the arguments of the macro whose `!` is at `at` open, or 0 where it is another `!`."""
    after = words[at + 1 : at + 3]
    if words[at] != "!" or not at or not is_name(words[at - 1]) or not after:
        return 0
    is_named = len(after) == 2 and is_name(after[0]) and after[1] in OPENS
    return at + 1 if after[0] in OPENS else at + 2 if is_named else 0


def is_private(head):
    """Returns whether what stands before `fn` leaves a function to its crate."""
    return "pub" not in head or head[head.index("pub") + 1 : head.index("pub") + 2] == ["("]


def kept_of(words):
    """Returns those of the words of a .rt file that state something to other crates."""
    # An item begins at `start`, and after its attributes at `plain`. `private` says of each open block whether a function in it
    # needs `pub` to be seen.
    found, start, plain, private, at = [], 0, 0, [True], 0
    while at < len(words):
        word, end = words[at], at + 1
        if word == "#" and words[end] in ("[", "!"):
            opened = end + (words[end] == "!")
            end = end_of_group(words, opened)
            found += words[at:end] if words[opened + 1] != "tactic" else []
            plain = len(found)
        elif is_macro(words, at):
            end = end_of_group(words, is_macro(words, at))
            found += words[at:end]
        elif word == "fn" and is_name(words[end]):
            body = end_of_head(words, at)
            end = body + 1 if words[body] == ";" else end_of_group(words, body)
            if "const" in found[plain:]:
                found += words[at:end]
            elif private[-1] and is_private(found[plain:]):
                del found[start:]
            else:
                found += [*words[at:body], ";"]
            start = plain = len(found)
        else:
            if word == "{":
                private.append("mod" in found[plain:] or ("impl" in found[plain:] and "for" not in found[plain:]))
            elif word == "}":
                private.pop()
            found.append(word)
            start, plain = (len(found),) * 2 if word in ("{", "}", ";") else (start, plain)
        at = end
    return found


def statements_in(path, text):
    """Returns what a file of specs/ or src/ states: all of it where this program can't read it, so that any change counts."""
    try:
        return antt_text(text)[0] if path.endswith(".antt") else " ".join(kept_of(words_of(text)))
    except (ValueError, IndexError):
        return text


def sum_of_crate(folder):
    """Returns the sum of what one crate states."""
    found = hashlib.sha256()
    for part in ("specs", "src"):
        paths = [f"{at}/{name}" for at, _, names in os.walk(f"{folder}/{part}") for name in names]
        for path in sorted(it for it in paths if it.endswith((".rt", ".antt"))):
            with open(path, encoding="utf-8", errors="replace") as file:
                found.update(repr((os.path.relpath(path, folder), statements_in(path, file.read()))).encode())
    return found.hexdigest()


def crates_below(top):
    """Returns the crates of crates.txt, each with the names of the repository's crates below it."""
    with open(f"{top}/crates.txt", encoding="utf-8") as file:
        rows = [it.partition("#")[0].partition(":") for it in file]
    uses = {name.split()[0]: below.replace(",", " ").split() for name, _, below in rows if name.strip()}
    found = {}
    for name in uses:
        below, left = set(), [*uses[name]]
        while left:
            it = left.pop()
            if it in uses and it not in below:
                below.add(it)
                left += uses[it]
        found[name] = sorted(below)
    return found


def sums(top, logic):
    """Returns for each crate of the repository at `top` the sum of what the crates below it state, under this logic."""
    below = crates_below(top)
    own = {name: sum_of_crate(f"{top}/crates/{name}") for name in below}
    text = {name: f"{logic}\n" + "".join(f"{it} {own[it]}\n" for it in below[name]) for name in below}
    return {name: hashlib.sha256(text[name].encode()).hexdigest() for name in below}


def logic_of(kit):
    """Returns the logic that the line of a kit names, as `logic dac8208d650f15bf`."""
    return " ".join(kit.split()[1:])


def main(words):
    for path in words:
        with open(path, encoding="utf-8") as file:
            print(statements_in(path, file.read()))
    if not words:
        kit = subprocess.run(["rt", "version"], stdout=subprocess.PIPE, text=True, check=True).stdout
        for name, found in sums(TOP, logic_of(kit)).items():
            print(name, found)


if __name__ == "__main__":
    main(sys.argv[1:])
