"""How a solver is asked to solve OUT, and how its answer becomes SOL.

`ask` runs one of glpsol, cbc, clp, highs, lp_solve and esolver in a folder that has OUT, and returns an `Answer`: a verdict, and where it
is `optimal` the values of the columns and, where the solver tells them, the duals of the rows, by name. They are the numbers that the
solver prints, or with `guess` the simplest fractions near them. Duals are in the sense of the file.

The scripts of this folder and of bench/ import it."""
import os
import re
import resource
import signal
import subprocess
import sys
from collections import namedtuple
from decimal import Decimal
from fractions import Fraction

if hasattr(sys, 'set_int_max_str_digits'):
    sys.set_int_max_str_digits(0)  # numbers may be of any length

OPTIMAL, INFEASIBLE, UNBOUNDED, NO_TIME, NOTHING = 'optimal', 'infeasible', 'unbounded', 'no time', 'nothing'
BITS = 127  # numerators and denominators are below 2^127

Answer = namedtuple('Answer', 'verdict values duals seconds')
Run = namedtuple('Run', 'status seconds')


class SolverError(Exception):
    """Why a solver cannot be asked, or its answer not be brought back."""


class Reduced:
    """What an answer needs of OUT: its sense, the names of its rows and columns in their order, and whether some columns are whole."""

    def __init__(self, path):
        self.maximize, self.whole, self.rows, self.columns = False, False, [], []
        section = None
        with open(path, encoding='utf-8', errors='surrogateescape') as lines:
            for line in lines:
                words = fields(line.rstrip('\n'))
                if not line.startswith(' '):
                    section = words[0] if words else section
                elif section == 'OBJSENSE':
                    self.maximize = words[0] == 'MAX'
                elif section == 'ROWS' and words[0] != 'N':
                    self.rows.append(words[1])
                elif section == 'COLUMNS':
                    self.take_column(words)

    def take_column(self, words):
        if words[1] == "'MARKER'":
            self.whole = True
        elif not self.columns or self.columns[-1] != words[0]:
            self.columns.append(words[0])


def run(words, place, log, seconds=None):
    """Runs a command in a folder, with what it prints in a file there, for at most so many seconds of the processor."""
    limit = None if seconds is None else lambda: resource.setrlimit(resource.RLIMIT_CPU, (seconds, seconds + 1))
    with open(os.path.join(place, log), 'wb') as printed:
        child = subprocess.Popen(words, cwd=place, stdout=printed, stderr=subprocess.STDOUT, stdin=subprocess.DEVNULL, preexec_fn=limit)
        _, status, usage = os.wait4(child.pid, 0)
    child.returncode = os.waitstatus_to_exitcode(status)
    return Run(child.returncode, usage.ru_utime + usage.ru_stime)


def is_out_of_time(done, seconds):
    """Whether a command was ended by the limit of its time."""
    return seconds is not None and done.status in (-signal.SIGXCPU, -signal.SIGKILL)


def fields(line):
    """The words of a line. A name may have any characters but these three."""
    return re.findall('[^ \t\r]+', line)


def text(place, name):
    """The text of a file of the folder; none where the file is not there."""
    path = os.path.join(place, name)
    if not os.path.exists(path):
        return ''
    with open(path, encoding='utf-8', errors='surrogateescape') as it:
        return it.read()


def lines_of(place, name):
    """The lines of a file of the folder that are not empty."""
    return [line for line in text(place, name).split('\n') if line]


def write_model(place, solver):
    """Writes OUT to model.mps as the solver reads it. highs and esolver read OUT as it is. To the others the sense is given by an option,
    since they read the section OBJSENSE differently or not at all; clp and cbc want a section RHS, and the word FREE behind the name of a
    text in the free format."""
    has_sides, is_sense = False, False
    with open(os.path.join(place, 'model.mps'), 'w', encoding='utf-8', errors='surrogateescape') as out:
        for line in lines_of(place, 'OUT'):
            if not solver.reads_sense and (is_sense or line == 'OBJSENSE'):
                is_sense = not is_sense
                continue
            if solver.read is read_coin and fields(line)[:1] == ['NAME']:
                line = 'NAME presolved FREE'
            has_sides = has_sides or line == 'RHS'
            if line in ('RANGES', 'BOUNDS', 'ENDATA') and not has_sides:
                out.write('RHS\n')
                has_sides = True
            out.write(line + '\n')


# How each solver is called: the words behind its name.

def words_of_glpsol(reduced, options):
    return ['--freemps', 'model.mps', '--max' if reduced.maximize else '--min', '--write', 'solver.txt', *options]


def words_of_coin(how):
    def words(reduced, options):
        sense = '-maximize' if reduced.maximize else '-minimize'
        return ['model.mps', *options, sense, how, '-printingOptions', 'all', '-solution', 'solver.txt']
    return words


def words_of_highs(reduced, options):
    return ['model.mps', '--solution_file', 'solver.txt', *options]


def words_of_lp_solve(reduced, options):
    return ['-fmps', 'model.mps', '-max' if reduced.maximize else '-min', '-S3', *options]


def words_of_esolver(reduced, options):
    return ['-O', 'solver.txt', *options, 'model.mps']


# How the answer of each is read: a verdict, the values by name and the duals by name, as texts.

def read_glpsol(place, reduced):
    said = text(place, 'solver.log')
    if 'NO PRIMAL FEASIBLE SOLUTION' in said or 'NO INTEGER FEASIBLE SOLUTION' in said:
        return INFEASIBLE, {}, {}
    if 'UNBOUNDED' in said:
        return UNBOUNDED, {}, {}
    verdict, values, duals, first, is_vertex = NOTHING, {}, {}, 1, True
    for words in map(fields, lines_of(place, 'solver.txt')):
        if words[0] == 's':
            is_vertex = words[1] == 'bas'
            first = 1 + int(words[2]) - len(reduced.rows)  # the objective may be the first row
            verdict = OPTIMAL if words[4:6] == ['f', 'f'] or words[4] == 'o' else NOTHING
        elif words[0] == 'j':
            values[reduced.columns[int(words[1]) - 1]] = words[3 if is_vertex else 2]
        elif words[0] == 'i' and is_vertex and int(words[1]) >= first:
            duals[reduced.rows[int(words[1]) - first]] = words[4]
    return verdict, values, duals


def read_coin(place, reduced):
    lines = lines_of(place, 'solver.txt')
    head = lines[0].lower() if lines else ''
    if not head.startswith('optimal'):
        return INFEASIBLE if 'infeasible' in head else UNBOUNDED if 'unbounded' in head else NOTHING, {}, {}
    told = [fields(line)[line.startswith('**'):] for line in lines[1:]]
    rows, columns = told[:len(reduced.rows)], told[len(reduced.rows):]
    return OPTIMAL, {words[1]: words[2] for words in columns}, {words[1]: words[3] for words in rows}


def read_highs(place, reduced):
    verdict, part, kind, told = NOTHING, None, None, {}
    for line in lines_of(place, 'solver.txt'):
        words = fields(line)
        if line.startswith(('# Primal', '# Dual', '# Basis')):
            part, kind = words[1], None
        elif line.startswith(('# Columns', '# Rows')):
            kind = words[1]
        elif part is None and line in ('Optimal', 'Infeasible', 'Unbounded'):
            verdict = line.lower()
        elif len(words) == 2 and kind:
            told.setdefault((part, kind), {})[words[0]] = words[1]
    return verdict, told.get(('Primal', 'Columns'), {}), told.get(('Dual', 'Rows'), {})


def read_lp_solve(place, reduced):
    said = text(place, 'solver.log')
    if 'infeasible' in said or 'unbounded' in said:
        return INFEASIBLE if 'infeasible' in said else UNBOUNDED, {}, {}
    _, told, columns = said.partition('Actual values of the variables:')
    pairs = [fields(line) for line in columns.partition('Actual values of the constraints:')[0].split('\n')]
    return OPTIMAL if told else NOTHING, {words[0]: words[1] for words in pairs if len(words) == 2}, {}


def read_esolver(place, reduced):
    verdict, part, told = NOTHING, None, {}
    for line in lines_of(place, 'solver.txt'):
        words = fields(line)
        if line in ('VARS:', 'REDUCED COST:', 'PI:', 'SLACK:'):
            part = line
        elif line.startswith('status = '):
            verdict = {'OPTIMAL': OPTIMAL, 'INFEASIBLE': INFEASIBLE, 'UNBOUNDED': UNBOUNDED}.get(words[2], NOTHING)
        elif len(words) == 3 and words[1] == '=' and part:
            told.setdefault(part, {})[words[0]] = words[2]
    return verdict, told.get('VARS:', {}), told.get('PI:', {})


class Solver(namedtuple('Solver', 'name words read digits decimals reads_sense has_duals')):
    """A solver: how it is called, how it is read, with how many digits it prints (none: exact fractions) and how many of them behind the
    point, whether it reads OBJSENSE, and whether it tells duals."""

    def is_exact(self):
        return self.digits is None


MANY = 1000
SOLVERS = {solver.name: solver for solver in (
    Solver('glpsol', words_of_glpsol, read_glpsol, 15, MANY, False, True),
    Solver('cbc', words_of_coin('-solve'), read_coin, 8, MANY, False, True),
    Solver('clp', words_of_coin('-primalsimplex'), read_coin, 8, MANY, False, True),
    Solver('highs', words_of_highs, read_highs, 15, 13, True, True),
    Solver('lp_solve', words_of_lp_solve, read_lp_solve, 6, MANY, False, False),
    Solver('esolver', words_of_esolver, read_esolver, None, None, True, True))}


def exact(word):
    """A number of any length, as solvers print it: a decimal or a fraction n/d. (A Fraction of a text has a limit of digits.)"""
    over, _, under = word.partition('/')
    return Fraction(Decimal(over)) / Fraction(Decimal(under or 1))


class Number:
    """A number of an answer: as it is told, exactly, and the bits of the longer one of numerator and denominator."""

    def __init__(self, word):
        self.word, self.exact = word, exact(word)
        self.bits = max(self.exact.numerator.bit_length(), self.exact.denominator.bit_length())


def convergents(number):
    """The fractions that come ever nearer to a number, from the simplest on."""
    over, under, over_before, under_before = 1, 0, 0, 1
    while True:
        digit = number.numerator // number.denominator
        over, over_before = digit * over + over_before, over
        under, under_before = digit * under + under_before, under
        yield Fraction(over, under)
        if number == digit:
            return
        number = 1 / (number - digit)


def guessed(word, solver):
    """A number with all the digits that its solver prints, as the simplest fraction near it: within one in the last digit, or one in 10^11
    where there are more. A number with fewer digits stands as it is, and one below 10^-9 in magnitude is 0."""
    number, exponent = exact(word), Decimal(word).adjusted()
    if abs(number) < Fraction(1, 10 ** 9):
        return '0'
    all_digits = min(solver.digits, solver.decimals + 1 + exponent)
    digits = word.lower().partition('e')[0].translate({ord(sign): None for sign in '+-.'}).lstrip('0')
    if len(digits) < all_digits:
        return word
    near = Fraction(10) ** (exponent - min(all_digits - 1, 11))
    for fraction in convergents(number):
        if abs(number - fraction) <= near:
            return str(fraction)
        if fraction.denominator > 10 ** 6:
            break
    return word


def ask(solver, place, reduced, guess=False, seconds=None, path=None, options=()):
    """Has a solver solve OUT of a folder, for at most so many seconds of the processor. What it prints is then in solver.log there."""
    stale = os.path.join(place, 'solver.txt')
    if os.path.exists(stale):
        os.remove(stale)
    write_model(place, solver)
    done = run([path or solver.name, *solver.words(reduced, list(options))], place, 'solver.log', seconds)
    if is_out_of_time(done, seconds):
        return Answer(NO_TIME, {}, {}, done.seconds)
    try:
        verdict, *told = solver.read(place, reduced)
        if guess and not solver.is_exact():
            told = [{name: guessed(word, solver) for name, word in words.items()} for words in told]
        values, duals = ({name: Number(word) for name, word in words.items()} for words in told)
    except (ArithmeticError, ValueError, IndexError, KeyError) as error:
        raise SolverError('the answer of %s is not understood: %s' % (solver.name, error)) from error
    return Answer(verdict, values, duals, done.seconds)


def too_wide(numbers):
    """The first name whose number does not fit in 128 bits, with the bits that it takes; none where all fit."""
    return next(((name, number.bits) for name, number in numbers.items() if number.bits > BITS), None)


def solution(values, duals=None):
    """The text of SOL: what is not 0, and behind `=duals=` the duals, where they are given."""
    lines = ['%s %s' % (name, number.word) for name, number in values.items() if number.exact]
    if duals is not None:
        lines += ['=duals='] + ['%s %s' % (name, number.word) for name, number in duals.items() if number.exact]
    return ''.join(line + '\n' for line in lines)
