"""A solver for PuLP that presolves exactly: `model.solve(Presolved('esolver'))`.

The model is presolved, an inner solver solves what is left, the solution is brought back, and it is checked against the model with exact
numbers before any variable is set. What goes wrong is a `pulp.PulpSolverError`."""
import os
import subprocess
import sys
import tempfile
from fractions import Fraction
from numbers import Integral

import pulp

HERE = os.path.dirname(os.path.realpath(__file__))
sys.path.append(os.path.join(HERE, '..'))
import solvers  # noqa: E402

PAPILO = os.path.join(HERE, '..', '..', 'papilo')
COMMANDS = {'GLPK_CMD': 'glpsol', 'COIN_CMD': 'cbc', 'PULP_CBC_CMD': 'cbc', 'HiGHS_CMD': 'highs'}
STATUSES = {solvers.INFEASIBLE: pulp.LpStatusInfeasible, solvers.UNBOUNDED: pulp.LpStatusUnbounded, solvers.NO_TIME: pulp.LpStatusNotSolved}
VERDICTS = {20: pulp.LpStatusInfeasible, 21: pulp.LpStatusUndefined}  # the statuses of presolve, which tell that there is nothing to solve


def fail(message):
    raise pulp.PulpSolverError('Presolved: ' + message)


class Inner:
    """The solver of the reduced model: one of `solvers`, by its name or as PuLP's own object, whose path, options and time are kept."""

    def __init__(self, inner):
        is_name = isinstance(inner, str)
        name = inner if is_name else COMMANDS.get(inner.name, inner.name)
        if name not in solvers.SOLVERS:
            fail('no inner solver %s; it takes %s, and PuLP\'s %s' % (name, ', '.join(solvers.SOLVERS), ', '.join(COMMANDS)))
        self.solver, self.path, self.options, self.seconds, self.mip = solvers.SOLVERS[name], name, [], None, True
        if not is_name:
            more = inner.getOptions() if hasattr(inner, 'getOptions') else []
            self.path, self.seconds, self.mip = inner.path, inner.timeLimit, inner.mip
            self.options = [word for option in [*inner.options, *more] for word in str(option).split()]

    def ask(self, place, reduced, guess):
        seconds = None if self.seconds is None else max(1, int(self.seconds))
        try:
            return solvers.ask(self.solver, place, reduced, guess, seconds, self.path, self.options)
        except (solvers.SolverError, OSError) as error:
            fail(str(error))


class Presolved(pulp.LpSolver):
    """Solves a model by presolving it, an inner solver, and an exact check.

    inner    glpsol, cbc, clp, highs, lp_solve or esolver; or an object of PuLP: GLPK_CMD, COIN_CMD, PULP_CBC_CMD or HiGHS_CMD
    duals    whether the duals of a model without whole variables are brought back, which proves the optimum; as a rule where the inner
             solver is exact
    guess    whether the numbers of an inner solver that rounds are taken for the simplest fractions near them
    keep     a folder for the files of the run
    program  the command papilo

    After a run `cost` has the exact cost and `values` the exact values by the names of the variables. `proved` tells whether the status is
    proved: optimal by the duals, any other by the presolver."""

    name = 'Presolved'

    def __init__(self, inner='glpsol', duals=None, guess=True, keep=None, program=PAPILO, msg=False):
        self.inner = Inner(inner)
        pulp.LpSolver.__init__(self, mip=self.inner.mip, msg=msg)
        self.duals = self.inner.solver.is_exact() if duals is None else duals
        self.guess, self.keep, self.program, self.given = guess, keep, program, inner
        self.cost, self.values, self.proved = None, {}, False

    def copy(self):
        return Presolved(self.given, self.duals, self.guess, self.keep, self.program, self.msg)

    def available(self):
        executable = pulp.LpSolver_CMD.executable
        return bool(executable(os.path.abspath(self.program)) and executable(self.inner.path))

    def actualSolve(self, lp):
        """Solves a model of PuLP, and returns its status."""
        if not self.available():
            fail('%s or %s cannot be run' % (self.program, self.inner.path))
        with tempfile.TemporaryDirectory() as own:
            place = os.path.abspath(self.keep or own)
            os.makedirs(place, exist_ok=True)
            way = Way(self, lp, place)
            status = way.go()
        self.cost, self.values, self.proved = way.cost, way.values, way.proved
        lp.assignStatus(status)
        return status


class Way:
    """The way of one model: its files in a folder, and what was found."""

    def __init__(self, presolved, lp, place):
        self.presolved, self.lp, self.place = presolved, lp, place
        self.duals = presolved.duals and not (presolved.mip and lp.isMIP())
        self.cost, self.values, self.proved = None, {}, False
        self.names = {}

    def fail(self, message):
        """Ends the way, with the names of PuLP in the place of those of the files."""
        fail(' '.join(self.names.get(word, word) for word in message.split(' ')))

    def go(self):
        """Takes the way, sets the variables, and returns the status of PuLP."""
        text, rows, columns = model_text(self.lp, self.presolved.mip)
        self.names = {short: name for names in (rows, columns) for name, short in names.items()}
        self.write('IN', text)
        options = (['--dual'] if self.duals else []) + (['--fractions'] if '/' in text else [])
        status, printed = self.papilo('presolve', 'IN', 'OUT', 'REC', *options)
        if status in VERDICTS:
            self.proved = True
            return VERDICTS[status]
        self.must(status, printed, 'the model cannot be presolved')
        verdict = self.solve()
        if verdict != solvers.OPTIMAL:
            return STATUSES[verdict]
        self.must(*self.papilo('postsolve', 'OUT', 'REC', 'SOL', 'RESULT', '--wide'), about='the solution cannot be brought back')
        self.check()
        self.assign(rows, columns)
        return pulp.LpStatusOptimal

    def solve(self):
        """Has the inner solver solve OUT, writes SOL, and returns the verdict."""
        reduced = solvers.Reduced(os.path.join(self.place, 'OUT'))
        if not reduced.columns:
            self.write('SOL', solvers.solution({}, {} if self.duals else None))
            return solvers.OPTIMAL
        inner = self.presolved.inner
        answer = inner.ask(self.place, reduced, self.presolved.guess)
        if answer.verdict == solvers.NOTHING:
            log = solvers.text(self.place, 'solver.log').split('\n')
            self.fail('%s found no optimal solution: %s' % (inner.path, ' | '.join(filter(None, log[-4:]))))
        self.write('SOL', solvers.solution(answer.values, answer.duals if self.duals else None))
        return answer.verdict

    def check(self):
        """Checks RESULT, and keeps its cost."""
        status, printed = self.papilo('check', 'IN', 'RESULT', '--wide')
        self.must(status, printed, 'the solution of %s does not pass the check' % self.presolved.inner.path)
        self.cost, self.proved = Fraction(printed.removeprefix('yes cost ')), self.duals

    def assign(self, rows, columns):
        """Sets the variables, and with duals the constraints, by RESULT."""
        told, _, duals = solvers.text(self.place, 'RESULT').partition('=duals=\n')
        numbers = {name: solvers.exact(word) for name, word in map(str.split, told.splitlines())}
        self.values = {name: numbers[short] for name, short in columns.items() if name != '__dummy'}
        for variable in self.lp.variables():
            is_whole = variable.cat == pulp.LpInteger and self.presolved.mip
            variable.varValue = (int if is_whole else float)(numbers[columns[variable.name]])
        if self.duals:
            prices = {name: float(solvers.exact(word)) for name, word in map(str.split, duals.splitlines())}
            self.lp.assignConsPi({name: prices[short] for name, short in rows.items()})

    def papilo(self, *words):
        """Runs a command of papilo, and returns its status and what it printed."""
        done = subprocess.run([os.path.abspath(self.presolved.program), *words], cwd=self.place, stdout=subprocess.PIPE, text=True)
        if self.presolved.msg:
            print(done.stdout, end='')
        return done.returncode, done.stdout.strip()

    def must(self, status, printed, about):
        if status:
            self.fail('%s: %s' % (about, printed or 'status %d' % status))

    def write(self, name, text):
        with open(os.path.join(self.place, name), 'w', encoding='utf-8') as out:
            out.write(text)


def number(value):
    """A number of a model as MPS text, with no digit lost."""
    if isinstance(value, Integral):
        return str(int(value))
    return str(value) if isinstance(value, Fraction) else repr(float(value))


def bounds(name, low, high):
    """The cards of a column's bounds; none stands for an infinite one."""
    yield ' MI BND %s' % name if low is None else ' LO BND %s %s' % (name, number(low))
    yield ' PL BND %s' % name if high is None else ' UP BND %s %s' % (name, number(high))


def model_text(lp, mip):
    """A model as MPS text in the free format, with the names of its rows and columns there. They are those that PuLP gives where its own
    may not stand. PuLP's own writer is not taken: it rounds to 13 digits, and leaves out the constant and variables without a coefficient."""
    if lp.sos1 or lp.sos2:
        fail('special ordered sets are not taken')
    lp.checkDuplicateVars()
    rows, columns, cost = lp.normalisedNames()
    entries = {name: [] for name in columns}
    for row, terms in [(cost, lp.objective), *((rows[name], constraint) for name, constraint in lp.constraints.items())]:
        for variable, coefficient in terms.items():
            entries[variable.name].append((row, coefficient))
    lines = ['NAME MODEL', 'OBJSENSE', ' MAX' if lp.sense == pulp.LpMaximize else ' MIN', 'ROWS', ' N ' + cost]
    lines += [' %s %s' % (pulp.LpConstraintTypeToMps[constraint.sense], rows[name]) for name, constraint in lp.constraints.items()]
    lines += ['COLUMNS']
    for variable in lp.variables():
        cards = [' %s %s %s' % (columns[variable.name], row, number(value)) for row, value in entries[variable.name] or [(cost, 0)]]
        is_whole = mip and variable.cat == pulp.LpInteger
        lines += [" M 'MARKER' 'INTORG'", *cards, " M 'MARKER' 'INTEND'"] if is_whole else cards
    lines += ['RHS', ' RHS %s %s' % (cost, number(-lp.objective.constant))]
    lines += [' RHS %s %s' % (rows[name], number(-constraint.constant)) for name, constraint in lp.constraints.items()]
    lines += ['BOUNDS']
    for variable in lp.variables():
        lines += bounds(columns[variable.name], variable.lowBound, variable.upBound)
    return '\n'.join([*lines, 'ENDATA', '']), rows, columns
