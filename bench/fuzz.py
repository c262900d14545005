"""Runs the program on inputs that come from the examples and the cases by chance, and checks what holds of each without knowing its answer.
- No run is longer than 20 seconds, none ends by a signal, none writes to standard error; each ends with a status that its command can have.
- A status of 2 or 4 comes with one fault line and no other text.
- `check` of what `check` printed is the same text.
- Of one accepted input in eight: `solve` with 1 and with 3 workers gives the same bytes and status; a refused entry and status 3 go together; `basis`
  and `discover` end with their statuses; and of five random points, what `locate` says is what the printed list says: exactly one entry's
  conditions hold there, or none where the lines of the problem do not, and the basis is the entry's at the point.
The inputs are a function of the seed, which it prints; at a fault it writes the input to a file and ends with 1.
Usage: python3 bench/fuzz.py [COUNT [SEED [PROGRAM]]]
"""
import os, pathlib, random, re, signal, sys, tempfile, time

HERE = pathlib.Path(__file__).resolve().parent
MOST_SECONDS = 20
LIMITS = ["--budget", "3000", "--depth", "6"]
DEAR_ONE_IN = 8
STATUSES = {"check": (0, 4), "basis": (0, 3, 4), "solve": (0, 3, 4), "locate": (0, 3, 4), "discover": (0, 3, 4), "stress": (0, 3)}
FAULT = re.compile(rb"fault (line \d+ (long|no-point|no-thesis|after|byte|literal|name|place|syntax|field|count|order|thesis|unknown|variable|"
                   rb"exponent|degree|end)|words (none|command|option|repeat|value))\n")
NUMBERS = [0, 1, 2, 3, 5, 6, 7, 100, 255, 256, 32002, 32003, 32767, 32768, 65521, 2**32, 2**64, 10**18 - 1, 10**18]
MODULI = [2, 3, 5, 7, 11, 13, 101, 251, 257, 1009, 10007, 32003, 65521]
WORDS = [b"field", b"parameters", b"variables", b"order", b"lex", b"grlex", b"grevlex", b"zero", b"nonzero", b"poly", b"thesis", b"point", b"end",
         b"+", b"-", b"*", b"^", b"x", b"a", b" ", b"\t", b"\r", b"\n", b"#", b"0", b"\xff", b"\0", b"^32767", b"*a^2", b"-1", b"_"]
OPTIONS = ["check", "basis", "solve", "stress", "--workers", "--budget", "--depth", "--history", "1", "3", "7", "0", "65", "07", "x", ""]


class Fault(Exception):
    """What did not hold of a run."""


class Program:
    """The built program; each run has its input and output in two files that are kept."""

    def __init__(self, path, folder):
        self.path, self.runs = path, 0
        self.given, self.printed, self.said = (os.path.join(folder, name) for name in ("given", "printed", "said"))
        self.child = 0
        signal.signal(signal.SIGALRM, lambda *_: os.kill(self.child, signal.SIGKILL))

    def run(self, words, text):
        """The status and the output, after what holds of every run was checked."""
        pathlib.Path(self.given).write_bytes(text)
        self.runs += 1
        into = os.O_WRONLY | os.O_CREAT | os.O_TRUNC
        files = [(os.POSIX_SPAWN_OPEN, 0, self.given, os.O_RDONLY, 0)]
        files += [(os.POSIX_SPAWN_OPEN, number, path, into, 0o600) for number, path in ((1, self.printed), (2, self.said))]
        self.child = os.posix_spawn(self.path, [self.path] + words, os.environ, file_actions=files)
        signal.setitimer(signal.ITIMER_REAL, MOST_SECONDS)
        _, ended = os.waitpid(self.child, 0)
        signal.setitimer(signal.ITIMER_REAL, 0)
        status, output = os.waitstatus_to_exitcode(ended), pathlib.Path(self.printed).read_bytes()
        if os.path.getsize(self.said):
            raise Fault("%s wrote to standard error" % words)
        if status == 2 or status in STATUSES.get(words[0] if words else "", ()):
            if (status in (2, 4)) != bool(FAULT.fullmatch(output)) or (status == 2) != output.startswith(b"fault words"):
                raise Fault("%s ended with %d, printing %r" % (words, status, output[:200]))
            return status, output
        raise Fault("%s ended with %d" % (words, status))


def terms_of(names, polynomial):
    """The terms of a printed polynomial: a coefficient and an exponent for each name."""
    terms = []
    for term in polynomial.split("+") if polynomial != "0" else []:
        coefficient, exponents = 1, [0] * len(names)
        for factor in term.split("*"):
            if factor.isdigit():
                coefficient = int(factor)
            else:
                name, _, power = factor.partition("^")
                exponents[names.index(name)] = int(power or 1)
        terms.append((coefficient, exponents))
    return terms


class Canonical:
    """What the checks need of a problem's canonical text."""

    def __init__(self, text):
        lines = [line.split(" ") for line in text.decode().splitlines()]
        self.modulus, self.parameters, self.variables = int(lines[0][1]), lines[1][1:], lines[2][1:]
        self.conditions = [(line[0], line[1]) for line in lines if line[0] in ("zero", "nonzero")]
        self.text = b"".join(line for line in text.splitlines(True) if line.split()[0] != b"point")

    def with_points(self, points):
        """The text with these points, which stand before its last line."""
        rows = "".join("point%s\n" % "".join(" %d" % number for number in point) for point in points)
        return self.text[: -len(b"end\n")] + rows.encode() + b"end\n"

    def at(self, polynomial, point):
        """The terms that are left at the point: a number for each monomial of the variables, in the order in which they stand."""
        here, left = dict(zip(self.parameters, point)), {}
        for coefficient, exponents in terms_of(self.parameters + self.variables, polynomial):
            for name, exponent in zip(self.parameters, exponents):
                coefficient = coefficient * pow(here[name], exponent, self.modulus) % self.modulus
            monomial = tuple(exponents[len(self.parameters):])
            left[monomial] = (left.get(monomial, 0) + coefficient) % self.modulus
        return {monomial: number for monomial, number in left.items() if number}

    def hold(self, conditions, point):
        """Whether the point meets the conditions."""
        return all((kind == "zero") != bool(self.at(polynomial, point)) for kind, polynomial in conditions)

    def monic(self, polynomial, point):
        """The text of the polynomial at the point, made monic."""
        left = self.at(polynomial, point)
        if not left:
            return "0"
        inverse = pow(next(iter(left.values())), -1, self.modulus)
        terms = []
        for monomial, number in left.items():
            powers = [name if exponent == 1 else "%s^%d" % (name, exponent) for name, exponent in zip(self.variables, monomial) if exponent]
            number = number * inverse % self.modulus
            terms.append("*".join(([] if number == 1 and powers else [str(number)]) + powers))
        return "+".join(terms)


def entries(text):
    """The entries of a printed list: first line, conditions and basis of each."""
    found = []
    for line in text.decode().splitlines():
        word, _, rest = line.partition(" ")
        if word in ("segment", "refused"):
            found.append((line, [], []))
        elif word in ("zero", "nonzero"):
            found[-1][1].append((word, rest))
        elif word == "basis":
            found[-1][2].append(rest)
    return found


def located(problem, listed, points):
    """What `locate` has to say of the points."""
    said = []
    for point in points:
        holding = [entry for entry in listed if problem.hold(entry[1], point)]
        if len(holding) != problem.hold(problem.conditions, point):
            raise Fault("%d entries hold the point %s" % (len(holding), point))
        said.append("point%s" % "".join(" %d" % number for number in point))
        for first, _, basis in holding:
            said += [first] + ["basis " + problem.monic(member, point) for member in basis]
        said += [] if holding else ["nowhere"]
    return "\n".join(said + ["points %d" % len(points), ""]).encode()


def check_accepted(chance, program, text, canonical):
    """What holds of an input that was accepted; `canonical` is what `check` printed."""
    if program.run(["check"], canonical) != (0, canonical):
        raise Fault("check of what check printed is another text")
    if chance.randrange(DEAR_ONE_IN):
        return
    status, listed = program.run(["solve"] + LIMITS, text)
    if program.run(["solve", "--workers", "3"] + LIMITS, text) != (status, listed):
        raise Fault("solve with 1 and with 3 workers differ")
    if (status == 3) != (b"\nrefused " in b"\n" + listed):
        raise Fault("the status of solve is %d" % status)
    program.run(["basis"] + LIMITS, text)
    program.run(["discover"] + LIMITS, text)
    problem = Canonical(canonical)
    small = min(problem.modulus, chance.choice([2, 3, 7, problem.modulus]))
    points = [[chance.randrange(small) for _ in problem.parameters] for _ in range(5)]
    if program.run(["locate"] + LIMITS, problem.with_points(points)) != (status, located(problem, entries(listed), points)):
        raise Fault("locate says something else than the list")


def number_for(chance):
    """A number that is small, or near a limit."""
    return b"%d" % (chance.randrange(10) if chance.randrange(4) else chance.choice(NUMBERS))


def names_of(text):
    """The names that the text gives, and one that it does not."""
    return re.findall(rb"[A-Za-z]\w*", b" ".join(re.findall(rb"(?m)^(?:parameters|variables)(.*)$", text))) or [b"z"]


def polynomial_for(chance, names):
    """A short polynomial in the names."""
    products = []
    for _ in range(chance.randint(1, 4)):
        factors = [chance.choice(names) + (b"^%d" % chance.randint(0, 4) if chance.randrange(3) == 0 else b"") for _ in range(chance.randint(1, 3))]
        products.append(b"*".join(factors if chance.randrange(2) else [number_for(chance)] + factors))
    return chance.choice([b" + ", b" - ", b"+"]).join(products)


def changed_line(chance, text, others):
    """The text with one line more, less, moved, or changed as a whole."""
    lines = text.split(b"\n")
    place, kind = chance.randrange(len(lines)), chance.randrange(6)
    if kind == 0:
        del lines[place]
    elif kind == 1:
        lines.insert(place, chance.choice(chance.choice(others).split(b"\n")))
    elif kind == 2:
        lines.insert(chance.randrange(len(lines)), lines[place])
    elif kind == 3:
        lines[0] = b"field %d" % chance.choice(MODULI)
    elif kind == 4:
        return re.sub(rb"(?m)^order \w+$", b"order " + chance.choice([b"lex", b"grlex", b"grevlex"]), text)
    else:
        lines[-2:-2] = [chance.choice([b"poly ", b"poly ", b"zero ", b"nonzero ", b"thesis "]) + polynomial_for(chance, names_of(text))]
    return b"\n".join(lines)


def changed_token(chance, text):
    """The text with one number, name or sign changed, mostly for another of its kind."""
    found = list(re.finditer(rb"\d+|[A-Za-z]\w*|[-+*^]", text))
    if not found:
        return chance.choice(WORDS)
    token = chance.choice(found)
    first = token.group()[:1]
    new = number_for(chance) if first.isdigit() else chance.choice(names_of(text)) if first.isalpha() else chance.choice([b"+", b"-", b"*", b"^"])
    return text[: token.start()] + (new if chance.randrange(8) else chance.choice(WORDS)) + text[token.end():]


def changed_bytes(chance, text):
    """The text with one byte or word put in, taken out or changed, or cut."""
    place, kind = chance.randrange(len(text) + 1), chance.randrange(4)
    if kind == 0:
        return text[:place] + chance.choice(WORDS) + text[place:]
    if kind == 1:
        return text[:place] + text[place + chance.randint(1, 4):]
    if kind == 2:
        return text[:place] + bytes([chance.randrange(256)]) + text[place + 1:]
    return text[:place]


def changed(chance, text, others):
    """The text after one to four changes, seldom by bytes, so that many inputs are accepted."""
    for _ in range(chance.choice([1, 1, 2, 3, 4])):
        kind = chance.randrange(10)
        if kind < 5:
            text = changed_line(chance, text, others)
        else:
            text = changed_token(chance, text) if kind < 9 else changed_bytes(chance, text)
    return text


def check_words(chance, program, text):
    """Words by chance: a plan or a fault, and then a status of the command."""
    words = [chance.choice(OPTIONS) for _ in range(chance.randrange(5))]
    program.run(words + (LIMITS if words[:1] != ["check"] and not {"--budget", "--depth"} & set(words) else []), text)


def main(count, seed, path):
    """Runs until a fault or the count is reached; answers the exit status."""
    chance = random.Random(seed)
    given = sorted((HERE / "../examples").glob("*.cgs")) + sorted((HERE / "../cases").glob("*/stdin"))
    others = [text for text in (file.read_bytes() for file in given) if len(text) <= 4096]
    print("seed %d, %d texts" % (seed, len(others)), flush=True)
    start, accepted = time.monotonic(), 0
    with tempfile.TemporaryDirectory() as folder:
        program = Program(path, folder)
        sound = [text for text in others if program.run(["check"], text)[0] == 0]
        for number in range(count):
            if number % 10000 == 9999:
                print("%d inputs, %d of them accepted" % (number, accepted), flush=True)
            text = changed(chance, chance.choice(sound if number % 4 else others), others)
            try:
                if number % 20 == 0:
                    check_words(chance, program, text)
                status, canonical = program.run(["check"], text)
                if status == 0:
                    accepted += 1
                    check_accepted(chance, program, text, canonical)
            except Fault as fault:
                kept = "fuzz-%d-%d.cgs" % (seed, number)
                pathlib.Path(kept).write_bytes(text)
                print("input %d, %s: %s" % (number, kept, fault))
                return 1
    print("%d inputs, %d of them accepted, %d runs, %.0f seconds: no fault" % (count, accepted, program.runs, time.monotonic() - start))
    return 0


if __name__ == "__main__":
    said = sys.argv[1:] + ["1000", str(time.time_ns() % 1000000), str(HERE / "../crates/cgs/out/cgs")][len(sys.argv) - 1:]
    sys.exit(main(int(said[0]), int(said[1]), said[2]))
