"""Files of rows: what is asked of the program, and what it must answer, line by line.

An empty line ends a case. The first letter of a line, or its first word, says what it is:

    * TEXT                     a remark; the first one of a case is its title
    + or a blank at the front  a line of statements, as it stands
    |TEXT                      a line of anything else that the next command takes: a list, a body
    base                       in place of such lines: the publication of the worked case, BASE below
    each FIRST LAST TEXT       the same: TEXT for each number, with % for the number in five digits and & for the next one;
                               a | in TEXT ends a line
    = TEXT                     a line of what is wanted of the command before; = alone is an empty line
    =each FIRST LAST TEXT      such lines, made as those of `each`
    WORD ..                    a command. Which words there are, and what they answer, says the module of the kind of rows
    brief WORD ..              the same command; of each line of its answer only the first three words are compared, the last one,
                               and how many words there are
"""

BASE = """++FUNCTION(HBB7790).
++VER(Z038).
++PTF(UA10001).
++VER(Z038) FMID(HBB7790).
++PTF(UA10002).
++VER(Z038) FMID(HBB7790) PRE(UA10001) SUP(AA20002).
++HOLD(UA10001) ERROR FMID(HBB7790)
 REASON(AA20002) CLASS(PE) DATE(12045).
""".splitlines()


class Unreadable(Exception):
    """What is wrong with a file of rows, with the file and the line."""


class Row:
    """A command with the lines that it takes and the lines that it must answer; `place` is its file and line."""

    def __init__(self, place, text, given):
        self.place = place
        self.text = text
        self.is_brief = text.startswith("brief ")
        self.word, _, self.rest = text.removeprefix("brief ").partition(" ")
        self.given = given
        self.wanted = []

    def as_compared(self, told):
        """The lines of an answer, as they are compared with what is wanted."""
        return [brief(line) for line in told] if self.is_brief else told


def brief(line):
    words = line.split()
    return f"{' '.join(words[:3])} .. {words[-1]}, {len(words)} words" if words else ""


def lines_of(data):
    """The lines of what is printed, with \\r for CR. One that doesn't end is told."""
    *lines, rest = data.decode().replace("\r", "\\r").split("\n")
    return [*lines, *([f"{rest} and no end of the line"] if rest else [])]


def lines_of_run(done):
    """The lines that a run of the program prints, and then those that it tells. One that tells a fault has a status of its own."""
    odd = [f"status {done.returncode}"] if bool(done.stderr) != bool(done.returncode) or done.stdout and done.stderr else []
    return [*lines_of(done.stdout), *lines_of(done.stderr), *odd]


def each_number(first, last, place):
    """The numbers from one to another, of which there are some."""
    if not (first.isdigit() and last.isdigit() and int(first) <= int(last)):
        raise Unreadable(f"{place}: two numbers are wanted of which the first is no greater, and no {first} and {last}")
    return range(int(first), int(last) + 1)


class Case:
    """The rows between two empty lines."""

    def __init__(self, place):
        self.place = place
        self.title = ""
        self.rows = []


def lines_of_each(text, place):
    """The lines for which `each FIRST LAST TEXT` stands."""
    words = text.split(" ", 2)
    if len(words) < 3:
        raise Unreadable(f"{place}: each FIRST LAST TEXT is wanted")
    numbers = each_number(*words[:2], place)
    return [line.replace("%", f"{at:05}").replace("&", f"{at + 1:05}") for at in numbers for line in words[2].split("|")]


class Reader:
    """Makes cases of lines."""

    def __init__(self):
        self.cases = []
        self.case = None
        self.given = []

    def end_case(self, place):
        if self.given:
            raise Unreadable(f"{place}: the lines before have no command")
        self.case = None

    def take(self, line, place):
        if not line:
            self.end_case(place)
            return
        if self.case is None:
            self.case = Case(place)
            self.cases.append(self.case)
        word, _, rest = line.partition(" ")
        if line[0] == "*":
            self.case.title = self.case.title or line[1:].strip()
        elif line[0] in "+ ":
            self.given.append(line)
        elif line[0] == "|":
            self.given.append(line[1:])
        elif line[0] == "=":
            self.want(line, place)
        elif line == "base":
            self.given += BASE
        elif word == "each":
            self.given += lines_of_each(rest, place)
        else:
            self.case.rows.append(Row(place, line, self.given))
            self.given = []

    def want(self, line, place):
        if not self.case.rows or self.given:
            raise Unreadable(f"{place}: no command stands before what is wanted")
        if line.startswith("=each "):
            self.case.rows[-1].wanted += lines_of_each(line[6:], place)
        elif line[1:2] in ("", " "):
            self.case.rows[-1].wanted.append(line[2:])
        else:
            raise Unreadable(f"{place}: a blank stands after =")


def read(name):
    """The cases of a file."""
    reader = Reader()
    with open(name, encoding="utf-8") as lines:
        for number, line in enumerate(lines, 1):
            reader.take(line.rstrip("\n"), f"{name}:{number}")
    reader.end_case(f"{name}: at the end")
    if not any(case.rows for case in reader.cases):
        raise Unreadable(f"{name}: it has no row")
    return reader.cases
