"""Makes a text of the language compute with tangents: each of its words becomes one that carries its tangent, of the module in tangents.f90.

A unit P becomes P_TG, in free form. Variables, the variables of DO loops among them, have the type TG_DUAL; literals become TG_NUMBER(..), and
subscripts, bounds and extents take the value of theirs. The members of a COMMON block B are the variables of a module TG_COMMON_B, by their places. Comments, and so the
marks of loops, are left out. It is a converter for texts that the tool takes: it looks for no faults.
"""
import re

RENAMED = {"IABS": "ABS", "MAX0": "MAX", "MIN0": "MIN"}
TOKEN = re.compile(r"\.[A-Z]+\.|\*\*|[A-Z][A-Z0-9_]*|[0-9]+|.")


def statements(text):
    """The statements as pairs of their label and of their characters, in capitals and without blanks."""
    joined = []
    for line in text.splitlines():
        if line[:5].upper() == "$DATA":
            break
        if re.match(r"[Cc*]", line) or not line[:72].strip(" "):
            continue
        if not line[:5].strip(" ") and line[5:6] not in ("", " ", "0"):
            joined[-1] += line[6:72]
        else:
            joined.append(line[:72])
    return [(line[:5].replace(" ", "").lstrip("0"), line[6:].replace(" ", "").upper()) for line in joined]


def closing(text, at):
    """The place of the parenthesis that closes the one at this place."""
    depth = 0
    for k in range(at, len(text)):
        depth += (text[k] == "(") - (text[k] == ")")
        if depth == 0:
            return k
    raise ValueError(text)


def cut(text):
    """The parts of a text between its open commas."""
    parts, depth = [""], 0
    for letter in text:
        depth += (letter == "(") - (letter == ")")
        if letter == "," and depth == 0:
            parts.append("")
        else:
            parts[-1] += letter
    return parts


def open_equals(text):
    """The place of the first `=` outside parentheses, or -1."""
    depth = 0
    for k, letter in enumerate(text):
        depth += (letter == "(") - (letter == ")")
        if letter == "=" and depth == 0:
            return k
    return -1


class Unit:
    def __init__(self, name, dummies):
        self.name, self.dummies = name, dummies
        self.scalars, self.arrays, self.body = [], {}, []
        # the members of each block, in order
        self.blocks = {}
        # the open loops: the label of each, its variable, and the counter in its place
        self.loops, self.counters = [], 0

    def declare(self, items):
        for item in cut(items):
            name, _, extents = item.partition("(")
            if extents:
                self.arrays[name] = extents[:-1].split(",")
            else:
                self.scalars.append(name)

    def share(self, block, items):
        """Takes a COMMON statement: an item without extents may be declared before or after."""
        for item in cut(items):
            if "(" in item:
                self.declare(item)
        self.blocks.setdefault(block, []).extend(x.partition("(")[0] for x in cut(items))

    def layout(self, block):
        return "".join(f"TYPE(TG_DUAL) :: TG_M{k}{'(' + ','.join(self.arrays[x]) + ')' if x in self.arrays else ''}\n" for k, x in enumerate(self.blocks[block]))

    def value(self, text):
        return f"TG_VALUE({self.expression(text)})"

    def expression(self, text):
        made, at = "", 0
        while at < len(text):
            token = TOKEN.match(text, at)[0]
            at += len(token)
            if token in self.arrays and text[at:at + 1] == "(":
                end = closing(text, at)
                made += token + "(" + ",".join(self.value(x) for x in cut(text[at + 1:end])) + ")"
                at = end + 1
            elif token.isdigit():
                made += f"TG_NUMBER({token}_8)"
            elif text[at:at + 1] == "(":
                made += RENAMED.get(token, token)
            else:
                made += token
        return made

    def add(self, statement):
        self.body.append(statement)

    def simple(self, text):
        """An assignment or a CALL."""
        if not re.match(r"CALL[A-Z]", text) or open_equals(text) >= 0:
            at = open_equals(text)
            return self.expression(text[:at]) + " = " + self.expression(text[at + 1:])
        name, _, actuals = text[4:].partition("(")
        actuals = actuals[:-1]
        return f"CALL {name}_TG(" + ", ".join(self.expression(x) for x in cut(actuals) if x) + ")"

    def begin_loop(self, label, variable, bounds):
        self.counters += 1
        counter = f"TG_{self.counters}"
        self.loops.append((label, variable, counter))
        self.add(f"DO {counter} = " + ", ".join(self.value(x) for x in bounds))
        self.add(f"{variable} = TG_NUMBER({counter})")

    def end_loop(self):
        _, variable, counter = self.loops.pop()
        self.add("END DO")
        if variable:
            self.add(f"{variable} = TG_NUMBER({counter})")

    def take(self, label, text):
        loop = re.match(r"DO(\d*),?([A-Z][A-Z0-9_]*)=", text)
        if loop and len(cut(text[loop.end():])) > 1:
            self.begin_loop(loop[1].lstrip("0"), loop[2], cut(text[loop.end():]))
        elif text.startswith("IF(") and re.match(r"[A-Z]", text[closing(text, 2) + 1:]):
            end = closing(text, 2)
            rest = text[end + 1:]
            self.add(f"IF ({self.expression(text[3:end])}) " + (rest if rest == "THEN" else self.simple(rest)))
        elif open_equals(text) >= 0:
            self.add(self.simple(text))
        elif text.startswith("ELSEIF("):
            self.add(f"ELSE IF ({self.expression(text[7:closing(text, 6)])}) THEN")
        elif text.startswith("DOWHILE("):
            self.loops.append(("", "", ""))
            self.add(f"DO WHILE ({self.expression(text[8:-1])})")
        elif text == "ENDDO":
            self.end_loop()
        elif text == "CONTINUE":
            while label and self.loops and self.loops[-1][0] == label:
                self.end_loop()
        elif text in ("ELSE", "ENDIF"):
            self.add(text)
        elif re.match(r"INTEGER(\*8)?[A-Z]", text):
            self.declare(re.sub(r"^INTEGER(\*8)?", "", text))
        elif text.startswith("COMMON/"):
            self.share(*text[7:].split("/"))
        elif text.startswith("CALL"):
            self.add(self.simple(text))
        elif text not in ("IMPLICITNONE", "RETURN", "END"):
            raise ValueError(text)

    def text(self):
        lines = [f"SUBROUTINE {self.name}_TG({', '.join(self.dummies)})", "USE TANGENTS"]
        for block, members in self.blocks.items():
            lines += [f"USE TG_COMMON_{block}, ONLY: {x} => TG_M{k}" for k, x in enumerate(members)]
        lines.append("IMPLICIT TYPE(TG_DUAL)(I-N)")
        shared = {x for members in self.blocks.values() for x in members}
        lines += [f"TYPE(TG_DUAL) :: {x}" for x in self.scalars if x not in shared]
        for name, extents in self.arrays.items():
            if name not in shared:
                lines.append(f"TYPE(TG_DUAL) :: {name}({', '.join(x if x.isdigit() else x + '%V' for x in extents)})")
        lines += [f"INTEGER(8) :: TG_{k}" for k in range(1, self.counters + 1)]
        return "".join(x + "\n" for x in lines + self.body + ["END SUBROUTINE"])


def overloaded(text):
    units = []
    for label, statement in statements(text):
        heading = re.match(r"SUBROUTINE([A-Z][A-Z0-9_]*)(\((.*)\))?$", statement)
        if heading:
            units.append(Unit(heading[1], [x for x in (heading[3] or "").split(",") if x]))
        else:
            units[-1].take(label, statement)
    firsts = {block: u for u in reversed(units) for block in u.blocks}
    modules = [f"MODULE TG_COMMON_{block}\nUSE TANGENTS\n{u.layout(block)}END MODULE\n" for block, u in firsts.items()]
    return "".join(modules + [u.text() for u in units])
