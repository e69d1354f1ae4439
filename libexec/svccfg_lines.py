"""What manifest2cfg and unit2cfg share: what lines of svccfg make, their values, and commands by smf_exec.

It is no program. They find it by their own place, as ../libexec/svccfg_lines.py.
"""

import argparse
import re
import shlex
import sys
from dataclasses import dataclass, field

# A group has at most so many properties, a property so many values, a service or an instance so many groups.
MANY = 1000
LONGEST_TEXT = 4096
LONGEST_NAME = 512
LONGEST_COMPONENT = 255
LONGEST_LINE = 65536
MOST_LINES = 1000000

COMPONENT = r"[A-Za-z0-9][A-Za-z0-9_.,-]*"
SERVICE = re.compile(rf"{COMPONENT}(?:/{COMPONENT})*")
NAME = re.compile(rf"svc:/(?:/localhost/)?({SERVICE.pattern})(?::({COMPONENT}))?")
NUMBER = re.compile(r"([-+]?)(?:0[xX]([0-9a-fA-F]{1,40})|(0[0-7]{0,40})|([1-9][0-9]{0,40}))")
TIME = re.compile(r"([0-9]{1,40})(?:\.([0-9]{1,9}))?")
BOOLEANS = {"true": "true", "t": "true", "1": "true", "false": "false", "f": "false", "0": "false"}
METHODS = ("start", "stop", "refresh")
BUILT_IN = re.compile(r":true|:kill(?: -[A-Z0-9]+)?")


class Refused(Exception):
    """Why a text is refused, with its name and the line."""


class LeftOut(Exception):
    """Why a part of a text becomes no line."""


# ---- what the lines make


@dataclass
class Property:
    kind: str
    values: list


@dataclass
class Group:
    """A group. Its source is the element or the directive that it comes of; its context is that of a method alone."""

    name: str
    source: object
    type: str
    properties: dict = field(default_factory=dict)
    context: dict = field(default_factory=dict)

    def put(self, properties):
        """Puts all of these properties, or none."""
        for name in properties:
            if not is_component(name):
                raise LeftOut("its name is no name of a property")
            if name in self.properties:
                raise LeftOut(f"its group has a property {name!r} already")
        if len(self.properties) + len(properties) > MANY:
            raise LeftOut(f"its group would have more than {MANY} properties")
        self.properties.update(properties)


@dataclass
class Owner:
    """A service or an instance, with the context of its methods, and the comments that stand before its lines."""

    fmri: str
    groups: dict = field(default_factory=dict)
    instances: dict = field(default_factory=dict)
    context: dict = field(default_factory=dict)
    comments: list = field(default_factory=list)

    def group(self, source, name, group_type):
        """The group of this name and type, which is made if it is not there."""
        if not is_component(name) or not is_component(group_type):
            raise LeftOut("its name or its type is none of a group")
        if name == "restarter" and is_instance(self.fmri):
            raise LeftOut("smf makes the group 'restarter' of an instance itself")
        if name not in self.groups and len(self.groups) >= MANY:
            raise LeftOut(f"{self.fmri} has {MANY} groups already")
        group = self.groups.setdefault(name, Group(name, source, group_type))
        if group.type != group_type:
            raise LeftOut(f"{self.fmri} has a group of this name, of type {group.type!r}")
        return group


def is_instance(fmri):
    return NAME.fullmatch(fmri)[2] is not None


def is_component(name):
    return re.fullmatch(COMPONENT, name) is not None and len(name) <= LONGEST_COMPONENT


# ---- values


def read_boolean(text):
    return BOOLEANS.get(text)


def read_number(text, least, greatest):
    found = NUMBER.fullmatch(text)
    if found is None:
        return None
    sign, hexadecimal, octal, decimal = found.groups()
    number = int(hexadecimal, 16) if hexadecimal else int(octal, 8) if octal else int(decimal)
    number = -number if sign == "-" else number
    return str(number) if least <= number <= greatest else None


def read_count(text):
    """A manifest writes the greatest count as -1: a method without a timeout."""
    return read_number(str(2**64 - 1) if text == "-1" else text, 0, 2**64 - 1)


def read_integer(text):
    return read_number(text, -(2**63), 2**63 - 1)


def read_time(text):
    found = TIME.fullmatch(text)
    if found is None or int(found[1]) >= 2**63:
        return None
    return f"{int(found[1])}.{(found[2] or '').ljust(9, '0')}"


def read_ustring(text):
    has_controls = any(byte < 32 or byte == 127 for byte in text.encode())
    return None if has_controls or len(text.encode()) > LONGEST_TEXT else text


def read_astring(text):
    return read_ustring(text) if text.isascii() else None


def read_fmri(text):
    """A name in its short form."""
    found = NAME.fullmatch(text)
    if found is None or len(found[2] or "") > LONGEST_COMPONENT:
        return None
    name = f"svc:/{found[1]}:{found[2]}" if found[2] else f"svc:/{found[1]}"
    return name if len(name) <= LONGEST_NAME else None


KINDS = {
    "boolean": read_boolean,
    "count": read_count,
    "integer": read_integer,
    "time": read_time,
    "astring": read_astring,
    "ustring": read_ustring,
    "fmri": read_fmri,
}


def read_property(kind, texts):
    """A property of these values, each as smf spells it."""
    if kind not in KINDS:
        raise LeftOut(f"smf has no kind {kind!r}")
    if len(texts) > MANY:
        raise LeftOut(f"it has more than {MANY} values")
    values = [KINDS[kind](text) for text in texts]
    for text, value in zip(texts, values):
        if value is None:
            raise LeftOut(f"{text!r} is not a value of {kind}")
    return Property(kind, values)


# ---- commands by smf_exec

# The parts of a context, each a list of words of a shell, in the order in which they stand before a command.
PARTS = ("user", "folder", "variables", "mask", "limits", "niceness", "capabilities", "privileges")
ACCOUNT = re.compile(r"[A-Za-z0-9_][A-Za-z0-9_.-]*")
VARIABLE = re.compile(r"[A-Za-z_][A-Za-z0-9_]*")
OWN_VARIABLES = ("SMF_CONTRACT", "SMF_FMRI", "SMF_LIBEXEC", "SMF_METHOD", "SMF_RESTARTER")
# A command of these is the same to a shell and without one, but for the quotes, if no word of a shell's own begins it.
PLAIN = re.compile(r"""(?:[A-Za-z0-9_@%+=:,./^-]|'[^']*'|"[^"$`\\]*"|[ \t])+""")
SHELL_WORDS = frozenset(
    """. : alias bg break builtin case cd command continue declare do done elif else esac eval exec exit export fg fi for
    function getopts hash if jobs let local read readonly return select set shift source then time times trap type typeset
    ulimit umask unalias unset until wait while""".split()
)


def exec_word(text):
    """A text as a word of an exec, in which the shell and the tokens leave it as it is."""
    return shlex.quote(text.replace("%", "%%"))


def needs_shell(command):
    """Whether a shell does more with a command than to split it into words."""
    first = command.split(maxsplit=1)[0] if command.strip() else ""
    return PLAIN.fullmatch(command) is None or "=" in first or first in SHELL_WORDS


def context_words(context, parts=PARTS):
    """The options of smf_exec that make a context."""
    return [word for part in parts for word in context.get(part, ())]


def prefixed(command, context):
    """A command in a context. A built-in needs none."""
    words = context_words(context)
    command = command.strip()
    if not words or BUILT_IN.fullmatch(command):
        return command
    bare = re.sub(r"exec[ \t]+", "", command, count=1) if re.match(r"exec[ \t]", command) else command
    if needs_shell(bare):
        bare = f"/bin/sh -c {shlex.quote(command)}"
    return f"exec $SMF_LIBEXEC/smf_exec {' '.join(words)} -- {bare}"


def account(text):
    """The name or the number of a user or a group."""
    if ACCOUNT.fullmatch(text) is None:
        raise LeftOut(f"{text!r} names no user or group")
    return text


def user_words(user, group, more):
    """The user, the group and more groups. If there are more and no group, the shell looks up the user's."""
    if not group and not more:
        return ["-u", user]
    text = f"{user}:{'+'.join([group or f'$(id -gn {user})', *more])}"
    return ["-u", text if group else f'"{text}"']


def home_word(user):
    """The home of a user, which the shell looks up."""
    if re.fullmatch(r"[A-Za-z_][A-Za-z0-9_-]*", user) is None:
        raise LeftOut(f"a shell does not look up the home of {user!r}")
    return f"~{user}"


def folder_words(text):
    if not text.startswith("/") or read_astring(text) is None:
        raise LeftOut(f"{text!r} is no whole name of a folder in ASCII")
    return ["-d", exec_word(text)]


def variable_words(name, value):
    if VARIABLE.fullmatch(name) is None:
        raise LeftOut(f"{name!r} is no name of a variable")
    if name in OWN_VARIABLES:
        raise LeftOut(f"smf sets {name} itself")
    if read_astring(value) is None:
        raise LeftOut("a value has to be one line of ASCII")
    return ["-e", exec_word(f"{name}={value}")]


# ---- what is left out


class Notes:
    """What of some files is left out. What is noted about has a file and a line."""

    def __init__(self):
        self.files = []
        self.notes = []

    def add_file(self, file):
        self.files += [file] if file not in self.files else []

    def add(self, source, words, line=None):
        line = line or source.line
        self.notes.append((self.files.index(source.file), line, f"{source.file}:{line}: {words}"))

    def told(self):
        """All of it, in the order of the files and their lines."""
        return list(dict.fromkeys(words for _file, _line, words in sorted(self.notes, key=lambda note: note[:2])))


# ---- lines of svccfg


def service_lines(service):
    """The lines of a service, before which nothing is selected, and after which nothing is."""
    name = service.fmri[len("svc:/") :]
    yield from (f"# {comment}" for comment in service.comments)
    yield f"add {name}"
    yield f"select {name}"
    yield from group_lines(service)
    for instance_name, instance in service.instances.items():
        yield f"add {instance_name}"
        yield f"select {instance_name}"
        yield from group_lines(instance)
        yield "unselect"
    yield "unselect"


def group_lines(owner):
    for name, group in owner.groups.items():
        yield f"addpg {name} {group.type}"
        for property_name, held in group.properties.items():
            yield from property_lines(f"{name}/{property_name}", held)


def property_lines(name, held):
    values = [value_word(held.kind, value) for value in held.values]
    line = f"setprop {name} = {held.kind}: " + (values[0] if len(values) == 1 else f"({' '.join(values)})")
    if len(line.encode()) <= LONGEST_LINE:
        yield line
    else:
        yield f"setprop {name} = {held.kind}: ()"
        for value in values:
            yield f"addpropvalue {name} {held.kind}: {value}"


def value_word(kind, value):
    if kind not in ("astring", "ustring"):
        return value
    escaped = value.replace("\\", "\\\\").replace('"', '\\"')
    return f'"{escaped}"'


# ---- a program


def read_file(file):
    """The bytes of a file, or of standard input, and its name in what is told."""
    try:
        if file is None:
            return "standard input", sys.stdin.buffer.read()
        with open(file, "rb") as opened:
            return file, opened.read()
    except OSError as fault:
        raise Refused(f"{file or 'standard input'}: {fault.strerror}") from None


def program_words(name, usage, description):
    return argparse.ArgumentParser(
        prog=name, usage=f"{name} {usage}", description=description, formatter_class=argparse.RawDescriptionHelpFormatter
    )


def run_program(name, convert):
    """Writes the lines that `convert` gives, and tells what it notes. Gives the status."""
    try:
        lines, told = convert()
        if len(lines) > MOST_LINES:
            raise Refused(f"{name}: the files are more than {MOST_LINES} lines of svccfg")
        sys.stderr.write("".join(f"{note}\n" for note in told))
        sys.stdout.buffer.write("".join(f"{line}\n" for line in lines).encode())
        sys.stdout.buffer.flush()
    except Refused as why:
        print(why, file=sys.stderr)
        return 1
    except OSError as fault:
        print(f"{name}: output failed: {fault.strerror}", file=sys.stderr)
        return 1
    return 0
