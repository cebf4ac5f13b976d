"""What the sources say of themselves: the functions of a crate with the names of their clauses, and the definitions of `specs/`.

Sources are read as text, since neither a prover nor a compiler is needed for names. Of a source comments and strings are left out.
"""

import collections
import glob
import os
import re

from progress import text_of

# A function: its crate, its file and line, what it belongs to (`impl` or `trait`, as it is written), its name, whether a user of
# the crate can call it (or reads it, as of a program), its parameters, and its clauses, each with its kind (`requires` or `ensures`), its name, or None, and its text.
Function = collections.namedtuple("Function", "crate path line owner name public parameters clauses")
# A definition: its crate and file, its name, the names that lie in it (fields or constructors), and its text.
Definition = collections.namedtuple("Definition", "crate path name parts text")

HIDES = re.compile(r'//[^\n]*|b?"(?:[^"\\]|\\.)*"|b?\'(?:[^\'\\\n]|\\(?:x..|u\{[^}]*\}|.))\'', re.S)
OPENS, CLOSES = "({[", ")}]"
BLOCK = re.compile(r"^ *(?:pub(?:\([^)]*\))? )?(trait|impl)\b([^;{]*)\{", re.M)
HEAD = re.compile(r"^ *(pub(?:\([^)]*\))? )?(?:const )?fn (\w+)", re.M)
NEXT = re.compile(r"\b(ensures|requires|measure)\b\s*(\w+)?\s*\{|[({[;]")
IMPORT = re.compile(r"^ *(?:ghost )?use Rattle\.(\w+)\.specs\.([\w.]+?)(?:\.\{([^}]*)\}| as (\w+))?;?$", re.M)
EXPORTS = re.compile(r"^pub (?:use ([\w:]+?)(?:::(\w+)|::\{([^}]*)\});|mod (\w+);)", re.M)
DEFINES = re.compile(r"^( *)(?:(abbrev|pub (?:record|data)|record|data)\b(?: pub)? +|(pub) (?=\S+ :))([^\s:]+)")
PART = re.compile(r"^ +(?:pub )?([^\s:()→]+) :", re.M)
WORD = re.compile(r"[^\W\d][\w-]*(?:'|₁)*")


def bare(text):
    """Returns the text of a source with spaces in the place of comments, strings and characters, line by line as long as it was."""
    return HIDES.sub(lambda it: re.sub(r"[^\n]", " ", it[0]), text)


def end_of(text, at):
    """Returns the place after the bracket that closes the one at this place."""
    depth = 0
    for place in range(at, len(text)):
        depth += (text[place] in OPENS) - (text[place] in CLOSES)
        if not depth:
            return place + 1
    return len(text)


def without_types(text):
    """Returns a head without what stands in angle brackets, which may be nested."""
    text, before = text.replace("->", ""), None
    while text != before:
        text, before = re.sub(r"<[^<>]*>", "", text), text
    return " ".join(text.split())


def owners_in(code):
    """Returns each `impl` and `trait` of a source: from where to where it goes, which of the two it is, and its head in one line."""
    found = []
    for it in BLOCK.finditer(code):
        head = re.sub(r",? >", ">", " ".join(it[2].split()).partition(" where ")[0].replace("< ", "<"))
        head = re.sub(r"^<[^<>]*(?:<[^<>]*(?:<[^<>]*>[^<>]*)*>[^<>]*)*> ?", "", head) if it[1] == "impl" else head.partition(":")[0]
        found.append((it.end(), end_of(code, it.end() - 1), it[1], head.strip()))
    return found


def contract_at(code, at):
    """Returns the parameters of the function whose name ends here, and its clauses, each with its kind, its name and its text."""
    parameters, found = None, []
    while True:
        it = NEXT.search(code, at)
        if not it or it[0] == ";" or it[0] == "{":
            return parameters or [], found
        at = end_of(code, it.end() - 1)
        if it[0] == "(" and parameters is None:
            parameters = re.findall(r"(?<![:\w])(\w+)\s*:(?!:)", code[it.end() : at])
        if it[1] and it[1] != "measure":
            found.append((it[1], it[2], code[it.end() : at - 1]))


def words_of(owner):
    """Returns the names by which what a function belongs to may be called: of `Reads for Wired<S>` both `Reads` and `Wired`."""
    return re.findall(r"[A-Za-z_]\w*", without_types(owner).replace(" for ", " "))


def exported(crate, top):
    """Returns the names of its own modules that a crate shows, and its public modules."""
    source = f"{top}/crates/{crate}/src"
    path = next((it for it in (f"{source}/lib.rt", f"{source}/main.rt") if os.path.exists(it)), None)
    names, modules = set(), set()
    for of, one, many, module in EXPORTS.findall(bare(text_of(path))) if path else ():
        if os.path.exists(f"{source}/{of.split('::')[0]}.rt"):
            names |= {it.split(" as ")[-1].strip() for it in [one, *many.split(",")]} - {""}
        modules |= {module} - {""}
    return names, modules


def functions_of(crate, top, with_tests=False):
    """Returns the functions of a crate, without those of its tests unless they are asked for."""
    names, modules = exported(crate, top)
    found, is_program = [], not os.path.exists(f"{top}/crates/{crate}/src/lib.rt")
    for path in sorted(glob.glob(f"{top}/crates/{crate}/src/**/*.rt", recursive=True)):
        if with_tests or not re.search(r"/tests(_\w+)?(\.rt$|/)", path):
            module = os.path.basename(path)[: -len(".rt")]
            found += functions_in(text_of(path), crate, os.path.relpath(path, top), names, module in modules)
    # Nothing stands on a program, so all of it is shown.
    return [it._replace(public=True) for it in found] if is_program else found


def functions_in(text, crate, path, names, is_shown):
    """Returns the functions of a source of a crate that shows these names; `is_shown` where the module itself is public."""
    code = bare(text)
    owners, found = owners_in(code), []
    for it in HEAD.finditer(code):
        inside = [own for own in owners if own[0] <= it.start() < own[1]]
        kind, owner = (inside[-1][2], inside[-1][3]) if inside else ("", "")
        seen = set(words_of(owner)[-1:]) if owner else {it[2]}
        is_open = it[1] == "pub " or (kind and (kind == "trait" or " for " in f" {owner} "))
        is_public, line = bool(is_open and (is_shown or seen & names)), code.count("\n", 0, it.start()) + 1
        found.append(Function(crate, path, line, owner, it[2], is_public, *contract_at(code, it.end())))
    return found


def module_file(crate, module, top):
    """Returns the path of the file of this module of a crate's `specs`, or None: what the toolchain generates of sources has none."""
    path = f"crates/{crate}/specs/{module.replace('.', '/')}.antt"
    return path if os.path.exists(f"{top}/{path}") else None


def imports_in(text, top):
    """Returns what a file brings in of our definitions: each name, or alias of a module, with the file that it stands in."""
    found = {}
    for crate, module, names, alias in IMPORT.findall(text):
        path = module_file(crate, module, top)
        if not path:
            continue
        for name in names.split(",") if names else [f"{alias or module.split('.')[-1]}"]:
            words = name.strip().split(" as ")
            found[words[-1]] = (path, words[0] if names else None)
    return found


def definitions_in(text, crate, path):
    """Returns the definitions of a file of `specs`."""
    found, head, indent = [], "", 0
    lines = [it.partition("--")[0] for it in text.split("\n")]
    for line in lines:
        it = DEFINES.match(line)
        is_part = it and it[3] and found and len(it[1]) > indent and re.match(r" *(?:pub )?(?:record|data)\b", found[-1][1])
        if it and not is_part:
            indent = len(it[1])
            found.append([it[4], line])
        elif line.startswith("module "):
            head = line
        elif found:
            found[-1][1] += "\n" + line
    head = head and f"\n{head}"
    return [Definition(crate, path, name, parts_of(body), body + (head if body.startswith(" ") else "")) for name, body in found]


def parts_of(body):
    """Returns the fields of a record or the constructors of a data type."""
    return PART.findall(body.partition("\n")[2]) if re.match(r" *(?:pub )?(?:record|data)\b", body) else []


def definitions_of(crate, top):
    """Returns the definitions of a crate."""
    paths = sorted(glob.glob(f"{top}/crates/{crate}/specs/**/*.antt", recursive=True))
    return [it for path in paths for it in definitions_in(text_of(path), crate, os.path.relpath(path, top))]


def crates_in(text):
    """Returns, by the text of crates.txt, each crate of it with those that it names."""
    lines = [it.split(":", 1) for it in text.splitlines() if ":" in it and not it.startswith("#")]
    return {head.split()[0]: words.split() for head, words in lines}
