"""Reads the code of the crates for tools/places: functions, types and constants by their text alone, without the kit."""
import io
import os
import re
import subprocess
import tarfile
from types import SimpleNamespace

ROOT = os.path.dirname(os.path.dirname(os.path.abspath(__file__)))


def read(commit):
    """{path: text} of the code, the proofs and the pages."""
    def git(*words):
        done = subprocess.run(["git", "-C", ROOT, *words], stdout=subprocess.PIPE)
        if done.returncode:
            raise SystemExit(2)
        return done.stdout

    if commit:
        tar = tarfile.open(fileobj=io.BytesIO(git("archive", commit)))
        files = {m.name: tar.extractfile(m).read() for m in tar if m.isfile()}
    else:
        names = [n for n in git("ls-files", "-z", "-co", "--exclude-standard").decode().split("\0") if os.path.isfile(os.path.join(ROOT, n))]
        files = {n: open(os.path.join(ROOT, n), "rb").read() for n in names}
    return {n: t.decode() for n, t in sorted(files.items()) if n.endswith((".rt", ".antt", ".md", "crates.txt"))}


def bare(text):
    """The text without comments and without what stands in quotes, every other character at its place."""
    blank = lambda m: re.sub(r"[^\n]", " ", m[0]) if m[0][0] == "/" else m[0][:-1].translate(dict.fromkeys(range(40, 127), "_")) + m[0][-1]
    return re.sub(r"""//[^\n]*|b?"(?:\\.|[^"\\])*"|b?'(?:\\[^']+|[^'\\\n])'""", blank, text)


def past(text, at, ends=""):
    """The place behind the bracket that opens at `at`; with `ends`, the place of the first of these outside brackets."""
    depth = 0
    for i in range(at, len(text)):
        if ends and depth == 0 and text[i] in ends:
            return i
        depth += (text[i] in "([{") - (text[i] in ")]}")
        if ends == "," and i:
            # brackets of types have a word in front; where something is compared, a space
            depth += (text[i] == "<" and text[i - 1] not in " <") - (text[i] == ">" and text[i - 1] not in " -=")
        if not ends and depth == 0:
            return i + 1
    return len(text)


def flat(text):
    return re.sub(r"\s+", " ", text).strip()


def parts(text):
    """What the commas outside brackets part."""
    found, at = [], 0
    while at < len(text):
        end = past(text, at, ",")
        found.append(flat(text[at:end]))
        at = end + 1
    return [f for f in found if f]


def parsed(path, text):
    """A file of code: its functions, its enums and structs, its constants."""
    code, f = bare(text), SimpleNamespace(path=path, crate=path.split("/")[1], functions=[], types=[], consts=[])
    thing = lambda at, **more: SimpleNamespace(file=f, at=at, line=code.count("\n", 0, at) + 1, code=code, **more)
    impls = [(m.start(), past(code, m.end() - 1), m[1]) for m in re.finditer(r"^[ ]*impl\b([^{;]*)\{", code, re.M)]
    for m in re.finditer(r"\bfn\s+(\w+)[^(]*\(", code):
        i = past(code, m.end() - 1)
        params, clauses, result = [re.sub(r"^mut ", "", p) for p in parts(code[m.end():i - 1])], [], None
        while True:
            j = past(code, i, "{;")
            clause = re.search(r"\b(requires|ensures)\s*(\w+)?\s*$", code[i:j])
            result = flat(re.split(r"\b(?:where|requires|ensures)\b", code[i:j])[0]).removeprefix("-> ") if result is None else result
            if not clause:
                break
            i = past(code, j)
            clauses.append(f"{clause[1]} {{ {flat(text[j + 1:i - 1])} }}")
        owner = next((o for start, end, o in impls if start < m.start() < end), "")
        of = re.match(r"\s*(?:<[^>]*>)?\s*(\w+)", owner)
        if code[j:j + 1] == "{":
            f.functions.append(thing(m.start(), name=m[1], params=params, clauses=clauses, result=result, by_trait=" for " in owner, start=j + 1,
                                     of=of[1] if of else "", body=code[j + 1:past(code, j) - 1], text=text[j:past(code, j)]))
    for m in re.finditer(r"\b(enum|struct)\s+(\w+)(?:<[^>{(]*>)?\s*([{(])", code):
        inner = parts(re.sub(r"#\[[^]]*\]|\bpub(\([a-z]+\))?", "", code[m.end():past(code, m.end() - 1) - 1]))
        split = [re.match(r"(\w+)\s*:\s*(.*)" if (m[1], m[3]) == ("struct", "{") else r"(\w*)(.*)", p) for p in inner]
        fields = [p.groups() for p in split]
        f.types.append(thing(m.start(), kind=m[1], name=m[2], fields=[(n, v.strip()) for n, v in fields]))
    f.consts = [thing(m.start(), name=m[1], type=flat(m[2]), value=m[3]) for m in re.finditer(r"\bconst (\w+): ([^=]+?) = ([^;]+);", code)]
    return f


def arms(body):
    """(where, what is switched on, [(pattern, what it comes to)]) of each match."""
    for m in re.finditer(r"\bmatch\s+([^{;]*?)\s*\{", body):
        rest, found = body[m.end():past(body, m.end() - 1) - 1], []
        while "=>" in rest:
            pattern, rest = (p.strip() for p in rest.split("=>", 1))
            end = past(rest, 0) if rest.startswith("{") else past(rest, 0, ",")
            found.append((flat(pattern), re.sub(r"^\{ (.*) \}$", r"\1", flat(rest[:end]))))
            rest = rest[end:].lstrip(", \n")
        yield m.start(), m[1], found
