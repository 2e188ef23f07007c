"""Functions as they stand in the sources of a crate, and the paths by which the prover names them: for tests/edits and
tools/changed."""
import os
import re


def text_of(path):
    with open(path, encoding="utf-8") as file:
        return file.read()


def module_of(file):
    return [it for it in file.removeprefix("src/").removesuffix(".rt").split("/") if it not in ("lib", "main")]


def home_of(owner, folder, file):
    """The module that declares the type, which may be another one than that of its methods."""
    for at, _, names in os.walk(f"{folder}/src"):
        for name in names:
            if re.search(rf"^(?:pub(?:\([a-z]+\))? )?(?:struct|enum) {owner}\b", text_of(f"{at}/{name}"), re.M):
                return module_of(os.path.relpath(f"{at}/{name}", folder))
    return module_of(file)


# its own parameters, the trait with what it is given, and the type with what it is given
IMPL = r"^impl(?:<([^>{]*)>)? (?:(\w+)(?:<(.*)>)? for )?(\w+)(?:<([^{]*)>)?"


def words_beyond(own, given):
    """The words of what the type is given, where some are no parameters of the impl, as of an impl for one type of a
    generic one."""
    own_names = re.findall(r"(?:^|, *)(?:const )?(\w+)", own)
    words = re.findall(r"\w+", re.sub(r"'\w+", "", given))
    return words if set(words) - set(own_names) else []


def function_at(folder, file, text, at):
    """The path below the crate of the function of src/ that the text stands in: module, type (with its trait), name;
    None outside of any. Of an impl for one type of a generic struct it is the impl's module, not the struct's, and the
    type with all its words, as `Shared+Core+N`."""
    before = text[: text.index("\n", at)]
    found = re.findall(r"^( *)(?:pub(?:\([a-z]+\))? )?(?:const )?fn (\w+)", before, re.M)
    if not found:
        return None
    indent, name = found[-1]
    if not indent:
        return "::".join([*module_of(file), name])
    own, trait, words, owner, given = re.findall(IMPL, before, re.M)[-1]
    of_one_type = [] if trait else words_beyond(own, given)
    if of_one_type:
        return "::".join([*module_of(file), "+".join([owner, *of_one_type]), name])
    whose = owner if trait == "Drop" else owner + trait + re.sub(r"\W", "", words)
    return "::".join([*home_of(owner, folder, file), whose, name])


def around(text, at):
    """The text of the function that stands at a place, from `fn` to the brace that closes it; all the text outside of
    any."""
    heads = list(re.finditer(r"^( *)(?:pub(?:\([a-z]+\))? )?(?:const )?fn \w+", text[: text.index("\n", at)], re.M))
    end = text.find(f"\n{heads[-1][1]}}}\n", at) if heads else -1
    return text[heads[-1].start() : end] if end >= 0 else text
