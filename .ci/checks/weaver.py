"""A second weaver, for checks alone: the text that `agxx weave` is to write of a correct program whose guarded classes are named, each with its
code. It works on lists of lines, as `.ci/checks/reading.py` gives them."""

import itertools
import re
from dataclasses import dataclass

import reading
from reading import Class, Function

UNSIGNED = {"int": "uint32_t", "unsigned": "uint32_t"}


def unsigned(kind):
    """The unsigned type of a member's width."""
    return UNSIGNED.get(kind) or (kind if kind.startswith("u") else "u" + kind)


def width(kind):
    """The bits of a member."""
    return int(re.sub(r"\D", "", unsigned(kind)))


def calls(word, parts):
    return [f"__gop_{word}_{part}();" for part in parts]


def wrapped(function, parts):
    """A function's body that enters parts at its beginning and leaves them before each of its exits."""
    leaves, lines, returns = calls("leave", reversed(parts)), calls("enter", parts), 0
    for line in function.body:
        margin, value = re.fullmatch(r"( *)(?:return( .*)?;|.*)", line).groups()
        if not line.lstrip().startswith("return"):
            lines.append(line)
            continue
        if value:
            returns += 1
            lines.append(f"{margin}{function.result} __gop_r_{returns} ={value};")
        lines += [margin + leave for leave in leaves]
        lines.append(f"{margin}return __gop_r_{returns};" if value else line)
    if not (function.body and function.body[-1].startswith("return")):
        lines += leaves
    return Function(function.result, function.name, function.head, lines)


@dataclass
class Added:
    """What a code adds to a class with a part: members, which are pairs of a type and a name, and the lines of two functions."""

    members: list
    repair: list
    renew: list


def vote_lines(number, kind, name):
    word, first, second, vote = unsigned(kind), f"__gop_c1_{name}", f"__gop_c2_{name}", f"__gop_m_{number}"
    votes = f"({word}({name}) & {first}) | ({word}({name}) & {second}) | ({first} & {second})"
    return [f"{word} {vote} = {votes};", *(f"{place} = {vote};" for place in (name, first, second))]


def copies(_, members):
    """Two copies of each member. Each bit becomes what two of the three words have."""
    extra = [(unsigned(kind), f"__gop_c{copy}_{member}") for copy in (1, 2) for kind, member in members]
    repair = [line for number, member in enumerate(members, 1) for line in vote_lines(number, *member)]
    return Added(extra, repair, [f"__gop_c{copy}_{member} = {member};" for _, member in members for copy in (1, 2)])


def check_words(members):
    """How many check words so many members have: the least number whose positions are enough for the words and for no fault at all."""
    return next(count for count in itertools.count(1) if 2**count >= members + count + 1)


def positions(members):
    """The positions of so many members: the numbers from 3 on that are no power of two, which are those of check words."""
    return list(itertools.islice((at for at in itertools.count(3) if at & (at - 1)), members))


def mask(kind):
    """What keeps the bits of a member's width, or nothing where these are all."""
    bits = width(kind)
    return [] if bits == 64 else [f"{2**bits - 1}ull"]


def hamming(part, members):
    """Check words across the words of the members and a parity word over all. Each bit place is a code by itself: the sums that aren't 0 are
    the digits of the position that is wrong there."""
    places, digits = positions(len(members)), range(check_words(len(members)))
    checks, parity = [f"__gop_h_{digit}_{part}" for digit in digits], f"__gop_p_{part}"
    words = [f"__gop_x_{number}" for number in range(1, len(members) + 1)]
    sums, faults = [f"__gop_s_{digit}" for digit in digits], [f"__gop_e_{number}" for number in range(1, len(members) + 1)]
    check_faults = [f"__gop_f_{digit}" for digit in digits]
    taken = [f"uint64_t {word} = uint64_t({unsigned(kind)}({name}));" for word, (kind, name) in zip(words, members)]
    counted = [[word for word, place in zip(words, places) if place >> digit & 1] for digit in digits]

    def found(name, place, *more):
        """The bit places at which the word of a position is the wrong one."""
        signs = ["" if place >> digit & 1 else "~" for digit in digits]
        terms = ["__gop_q", *(sign + one for sign, one in zip(signs, sums)), *more]
        return f"uint64_t {name} = {' & '.join(terms)};"

    repair = [
        *taken,
        *(f"uint64_t {one} = {' ^ '.join([check, *of])};" for one, check, of in zip(sums, checks, counted)),
        f"uint64_t __gop_q = {' ^ '.join([parity, *checks, *words])};",
        f"uint64_t __gop_y = {' | '.join(sums)};",
        *(found(name, place, *mask(kind)) for name, place, (kind, _) in zip(faults, places, members)),
        *(found(name, 2**digit) for digit, name in enumerate(check_faults)),
        f"uint64_t __gop_b = __gop_y & ~({' | '.join(faults + check_faults)});",
        "if (__gop_b != 0ull) {",
        "    std::abort();",
        "}",
        *(f"{name} = {word} ^ {wrong};" for (_, name), word, wrong in zip(members, words, faults)),
        *(f"{check} = {check} ^ {wrong};" for check, wrong in zip(checks, check_faults)),
        f"{parity} = {parity} ^ (__gop_q & ~__gop_y);",
    ]
    renew = [*taken, *(f"{check} = {' ^ '.join(of)};" for check, of in zip(checks, counted)), f"{parity} = {' ^ '.join(checks + words)};"]
    return Added([("uint64_t", name) for name in (*checks, parity)], repair, renew)


CODES = {"GOP_Copies": copies, "GOP_Hamming": hamming}


def part_items(it, code):
    """What a part adds to its class: the words of its code, counter, lock and four functions."""
    name, added = it.name, CODES[code](it.name, it.members())
    counter, lock = f"__gop_n_{name}", f"__gop_l_{name}"
    items = [*added.members, ("uint32_t", counter), ("std::mutex", lock)]
    when_zero = [f"if ({counter} == 0u) {{", "", "}"]
    enter = [f"{lock}.lock();", *when_zero, f"{counter} = {counter} + 1u;", f"{lock}.unlock();"]
    leave = [f"{lock}.lock();", f"{counter} = {counter} - 1u;", *when_zero, f"{lock}.unlock();"]
    enter[2], leave[3] = f"    __gop_repair_{name}();", f"    __gop_renew_{name}();"
    for word, body in (("repair", added.repair), ("renew", added.renew), ("enter", enter), ("leave", leave)):
        called = f"__gop_{word}_{name}"
        items.append(Function("void", called, f"void {called}()", body))
    return [("public", item) for item in items]


def parts_of(classes, guarded):
    """For each class the classes with a part, itself and its ancestors, the topmost first."""
    parts = {}
    for it in classes:
        parts[it.name] = parts.get(it.base, []) + [it.name] * (it.name in guarded and bool(it.members()))
    return parts


def woven(text, guarded):
    """The text of a program with these classes guarded, by the names of their codes."""
    declarations = reading.read(text)
    classes = [it for it in declarations if isinstance(it, Class)]
    parts = parts_of(classes, guarded)
    for it in classes:
        own = part_items(it, guarded[it.name]) if it.name in parts[it.name] else []
        if parts[it.name]:
            it.items = [(access, wrapped(item, parts[it.name]) if isinstance(item, Function) else item) for access, item in it.items]
        it.items += own
    return reading.text_of(declarations)


def guarded_by(*texts):
    """The names that guard files have, each with the code of its aspect."""
    plain = "".join(re.sub(r"//[^\n]*|/\*.*?\*/", " ", text, flags=re.S) for text in texts)
    aspects = re.findall(r":\s*public\s+(\w+)\s*\{([^}]*)\}", plain)
    return {name: code for code, body in aspects for name in re.findall(r'"(\w+)"', body)}


def exchanged(aspects):
    """A guard file in which each of the two codes stands for the other."""
    first, second = CODES
    return re.sub("|".join(CODES), lambda found: second if found[0] == first else first, aspects)
