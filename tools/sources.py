"""Reads the sources for the tools that write pages: words and laws of `.antt` files with their comments, and clauses of public calls."""
import os
import re

TOP = os.path.dirname(os.path.dirname(os.path.realpath(__file__)))
USE = re.compile(r"\buse Rattle\.(btree_\w+)\.((?:specs|proofs)\.[\w.+]+?)(?:\.\{([^}]*)\}| as (\w+))")
PASSED_ON = re.compile(r"^pub use Rattle\.(btree_\w+)\.((?:specs|proofs)\.[\w.+]+?)(?: as (\w+))?$", re.M)
LAW = re.compile(r"^( *)pub ((?:[\w◌≡≤<]+-)+[\w◌≡≤<-]+) :")
SHORTER = re.compile(r" g g' g'' s s'|\.Denot\b|(?<=Type) \d\b")
USUAL = {
    "cmp": "K → K → Ordering", "s": "TreeState K V", "old": "TreeState K V", "new": "TreeState K V", "a": "Address", "b": "Address",
    "k": "K", "x": "K × V", "id": "ℕ", "place": "ℕ", "index": "ℕ", "levels": "ℕ", "value": "V", "was": "V", "is": "V", "w": "V",
    "K": "RattleType", "V": "RattleType", "C": "RattleType", "O": "RattleType", "cause": "Cause", "MayRefuse": "Content (Node K V) → Type",
}
FUNCTION = re.compile(r"^( *)(pub(?:\([\w:]+\))? )?(?:const |unsafe )*fn (\w+)")
OPENS = re.compile(r"^(?:pub )?(trait|impl)\b(.*)$")
ALIAS = re.compile(r"^pub type (\w+)[^=]* = (\w+)", re.M)
MOST_SHOWN = 240
WORD = re.compile(r"^( *)(?:abbrev pub|pub record|pub data) (\S+) (.*)$")


def read(path):
    with open(f"{TOP}/{path}", encoding="utf-8") as file:
        return file.read()


def write(path, text):
    with open(f"{TOP}/{path}", "w", encoding="utf-8") as file:
        file.write(text)


def is_file(path):
    return os.path.isfile(f"{TOP}/{path}")


def crates():
    """The names of crates.txt, in its order."""
    return [line.split(":")[0] for line in read("crates.txt").splitlines() if line and line[0] != "#"]


def files_below(folder, ending):
    """The files below a folder, by their path in the repository, those of a folder after the file with its name."""
    found = [os.path.relpath(os.path.join(at, name), TOP) for at, _, names in os.walk(f"{TOP}/{folder}") for name in names if name.endswith(ending)]
    return sorted(found, key=lambda it: it.removesuffix(ending).split("/"))


def listed_files(folder):
    """The files of a folder of specs or proofs, by their path, in the order of its `Lib.antt`."""
    if not is_file(f"{folder}/Lib.antt"):
        return []
    names = re.findall(r"^(?:pub )?mod (\w+)", read(f"{folder}/Lib.antt"), re.M)
    return [it for name in names for it in (f"{folder}/{name}.antt", *files_below(f"{folder}/{name}", ".antt")) if is_file(it)]


def passed_on():
    """The name under which `btree_slab` or `btree_save` passes a file on, by the crate and the file."""
    names = {}
    for library in ("btree_save", "btree_slab"):
        for crate, module, name in PASSED_ON.findall(read(f"crates/{library}/specs/Lib.antt")):
            names[crate, module] = f"{library}.specs.{name or module.split('.')[-1]}"
    return names


def comment_above(lines, at):
    """The comment right above a line, as one text; a heading of a section is none."""
    words = []
    while at > 0 and lines[at - 1].strip().startswith("--") and not lines[at - 1].strip().startswith("-- --"):
        at -= 1
        words.insert(0, lines[at].strip().lstrip("-").strip())
    return " ".join(words)


def head(path):
    """The comment with which a file begins, as one text."""
    words = []
    for line in read(path).splitlines():
        if not line.startswith("--"):
            break
        words.append(line.lstrip("-").strip())
    return " ".join(words)


def statement(lines, at):
    """The statement of the law that begins at a line, on one line."""
    indent = len(lines[at]) - len(lines[at].lstrip())
    words, name = [lines[at].split(" : ", 1)[1]], lines[at].split()[1]
    for line in lines[at + 1 :]:
        if not line.strip() or len(line) - len(line.lstrip()) <= indent or line.strip().startswith(f"{name} "):
            break
        words.append(line.strip())
    return " ".join(words)


def explicit(text):
    """A list of parameters, or a type, without what is in braces."""
    kept, depth = "", 0
    for sign in text:
        depth += sign == "{"
        kept += "" if depth else sign
        depth -= sign == "}"
    parts = [it for it in re.sub(r"\s+", " ", kept).strip().split(" → ") if it.strip()]
    return " → ".join(it.strip().removeprefix("→ ") for it in parts).replace(" )", ")").replace("(Unit)", "Unit")


def parameters(lines, at):
    """The explicit parameters of the modules without a name that a line stands in."""
    modules = []
    for here, line in enumerate(lines[: at + 1]):
        indent = len(line) - len(line.lstrip())
        if line.strip() and not line.strip().startswith("--"):
            modules = [it for it in modules if it[0] < indent]
        if line.strip().startswith("module _"):
            text, to = line.strip(), here
            while not text.endswith("where"):
                to += 1
                text += " " + lines[to].strip()
            modules.append((indent, explicit(text.removeprefix("module _").removesuffix("where"))))
    return " ".join(it[1] for it in modules if it[1])


def shortened(text):
    """A list of parameters, or a type, as the pages print it."""
    return re.sub(r"\(([\w ]+) : ((?:[^()]|\([^()]*\))*)\)", usual, SHORTER.sub("", text))


def fields_of(path, word):
    """The fields of a record, each with its type."""
    lines, found = read(path).splitlines(), []
    at = next((at for at, line in enumerate(lines) if re.match(rf" *pub record {re.escape(word)}(?: |$)", line)), None)
    for line in lines[at + 1 :] if at is not None else []:
        indent = len(lines[at]) - len(lines[at].lstrip())
        if not line.strip() or len(line) - len(line.lstrip()) <= indent:
            if line.strip():
                break
            continue
        field = re.match(r" *pub (\w+) : (.*)$", line)
        if field:
            found.append([field.group(1), field.group(2)])
        elif found and not line.strip().startswith("--") and len(line) - len(line.lstrip()) > indent + 2:
            found[-1][1] += " " + line.strip()
        elif found and not line.strip().startswith("--"):
            break
    return [f"{name} : {SHORTER.sub('', explicit(of))}" for name, of in found]


def meaning_of(path, word):
    """What a word stands for, if it is short: the right sides of its equations, each with its left one."""
    lines, found = read(path).splitlines(), []
    at = next((at for at, line in enumerate(lines) if re.match(rf" *(?:abbrev|unfoldable) pub {re.escape(word)}(?: |$)", line)), None)
    if at is None:
        return []
    indent = len(lines[at]) - len(lines[at].lstrip())
    for line in lines[at + 1 :]:
        deep = len(line) - len(line.lstrip())
        if not line.strip() or deep < indent or (deep == indent and not line.strip().startswith(f"{word} ")):
            break
        if deep == indent:
            found.append(line.strip())
        elif found:
            found[-1] += " " + line.strip()
    return found if sum(map(len, found)) <= MOST_SHOWN else []


def usual(binder):
    """A list of parameters with one type, without the type if it is the usual one of these names."""
    names, of = binder.group(1), binder.group(2)
    return names if all(USUAL.get(name) == of for name in names.split()) else binder.group()


def words_of(path):
    """The words that a file of specs defines: for each its signature without implicit arguments, and its comment."""
    lines, modules, found = read(path).splitlines(), [], {}
    for at, line in enumerate(lines):
        indent = len(line) - len(line.lstrip())
        if line.strip() and not line.strip().startswith("--"):
            modules = [it for it in modules if it[0] < indent]
        if line.strip().startswith("module _"):
            text, to = line.strip(), at
            while not text.endswith("where"):
                to += 1
                text += " " + lines[to].strip()
            modules.append((indent, explicit(text.removeprefix("module _").removesuffix("where"))))
            continue
        word = WORD.match(line)
        if not word:
            continue
        text = word.group(3)
        for more in lines[at + 1 :]:
            deep = len(more) - len(more.lstrip()) > indent
            if not deep or text.endswith(" where") or not (more.strip()[0] in "(→{:" or text[-1] in "→:"):
                break
            text += " " + more.strip()
        text = text.removesuffix(" where")
        own, _, of = text.rpartition(": ") if line.strip().startswith("pub ") else text.partition(": ")
        given = " ".join(it for it in (*(it[1] for it in modules), explicit(own)) if it)
        given = re.sub(r"\(([\w ]+) : ((?:[^()]|\([^()]*\))*)\)", usual, SHORTER.sub("", given))
        signature = word.group(2) + (f" {given}" if given else "") + f" : {SHORTER.sub('', explicit(of))}"
        found[word.group(2)] = (signature, comment_above(lines, at))
    return found


def names_of(text):
    """The names in a list of names that are imported: for each what it is called here, and what there."""
    pairs = [it.strip().split(" as ") for it in text.split(",") if it.strip()]
    return {it[-1].strip(): it[0].strip() for it in pairs}


def imports(lines):
    """What the `use` lines import from files of specs or proofs: for each name its crate, file and name there; a file's name has none there."""
    found = {}
    for line in lines:
        for crate, module, names, alias in USE.findall(line):
            if alias:
                found[alias] = (crate, module, None)
            for here, there in names_of(names).items():
                found[here] = (crate, module, there)
    return found


def cited(text, known):
    """The imported words that a text cites, each with its crate and file."""
    found = set()
    for name in re.findall(r"[\w◌≡.]+", text):
        first, _, rest = name.partition(".")
        crate, module, there = known.get(first, (None, None, None))
        if crate:
            found.add((crate, module, there or rest.split(".")[0]))
    return found


def exported():
    """The names that `btree_slab` and `btree_save` export, by the crate that has them."""
    found = {}
    for library in ("btree_slab", "btree_save"):
        for crate, names in re.findall(r"pub use (\w+)(?:::\w+)*::\{?([\w\s,]+)\}?;", read(f"crates/{library}/src/lib.rt")):
            own = crate if crate.startswith("btree_") else library
            found.setdefault(own, set()).update(it.strip() for it in names.split(",") if it.strip())
    return found


def public_types(exports, order):
    """The types and traits that are exported, those that an exported name stands for included."""
    types = {name for names in exports.values() for name in names}
    for crate in order:
        for path in files_below(f"crates/{crate}/src", ".rt"):
            types |= {of for name, of in ALIAS.findall(read(path)) if name in types}
    return types


def without_parameters(text):
    """What follows the parameters in angle brackets with which a text may begin."""
    depth = 0
    for at, sign in enumerate(text):
        depth += (sign == "<") - (sign == ">" and text[at - 1] != "-")
        if depth == 0:
            return text[at + (sign == ">") :].strip()
    return text


def block(lines, at):
    """The lines from one to the brace that ends its block at the same indentation."""
    indent = len(lines[at]) - len(lines[at].lstrip())
    for to in range(at + 1, len(lines)):
        if lines[to].startswith(" " * indent + "}"):
            return lines[at : to + 1]
    return lines[at:]


def signature(lines, at):
    """The signature and the clauses of the function that begins at a line."""
    indent, found, clauses = len(lines[at]) - len(lines[at].lstrip()), [], False
    for line in lines[at:]:
        if line.strip() in ("{", "{}") and len(line) - len(line.lstrip()) == indent:
            break
        found.append(line)
        clauses = clauses or bool(re.match(r" *(requires|ensures)\b", line))
        if line.endswith(";") or (not clauses and line.endswith("{")):
            break
    return found


def opened(inner):
    """What the block of a trait or an impl is about: its type, whether it is a trait, and whether it is the impl of one."""
    opens = OPENS.match(inner[0])
    header = next(to for to, text in enumerate(inner) if "{" in text)
    is_trait, of = opens.group(1) == "trait", without_parameters(" ".join([opens.group(2), *(it.strip() for it in inner[1 : header + 1])]))
    of, _, subject = of.partition(" for ") if not is_trait and " for " in of else ("", "", of)
    subject = re.match(r"&?(?:'\w+ )?(?:mut )?(\w+)", subject)
    return subject.group(1) if subject else None, is_trait, bool(of)


def comment(lines, at):
    """The lines of the comment right above a line of code."""
    to = at
    while to > 0 and lines[to - 1].strip().startswith("//"):
        to -= 1
    return lines[to:at]
