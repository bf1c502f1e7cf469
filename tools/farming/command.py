"""The command line of a farm."""
import argparse
import signal
import sys

from base import NAME, fail

WHAT = "Judges many scripts, on one machine or on many, and reports what came"
# What the command line is told at the end of its help.
ABOUT = """\
The engine does the work: workers of the farm's own on this machine, GNU parallel on the hosts that --hosts names, or
Slurm by `sbatch --array` where it is installed. A run that was stopped goes on where it stopped when it is called
again: what has a result isn't run again, and nothing is counted twice."""
STATUS = """\
The status is 0 where each script is clean or ordered, 1 where a launch of one has a fault, and 2 where one was refused,
wasn't judged, or the farm failed."""
TEMPLATES = """\
An EXPRESSION has whole numbers, the names that are given, + - * // % ** and brackets, and the functions min, max,
zeros(BYTES), and numbers(COUNT, SEED): hexadecimal bytes of 32-bit numbers by chance."""


def at_least(least):
    """A reader of whole numbers from `least` on."""
    def read(word):
        number = int(word)
        if number < least:
            raise argparse.ArgumentTypeError(f"{word} is below {least}")
        return number
    return read


def with_limits(reader):
    reader.add_argument("--seconds", type=at_least(1), default=60, metavar="N",
                        help="the most seconds of a script (60)")
    reader.add_argument("--memory", type=at_least(0), default=0, metavar="MB",
                        help="the most memory of a script: its address space (no limit)")
    reader.add_argument("--workers", type=at_least(1), default=1, metavar="N",
                        help="how many workers of the program run the groups of a launch (1)")
    reader.add_argument("--budget", type=at_least(1), metavar="N",
                        help="the most ticks of a work-item, as of `clsim run`")
    reader.add_argument("--limits", choices=("profile", "large"), default="profile",
                        help="what the device allows, as of `clsim run` (profile)")
    return reader


class Words(argparse.ArgumentParser):
    """Reads the command line. A wrong one is told in one line."""

    def __init__(self, **how):
        super().__init__(add_help=False, **how)
        self.add_argument("--help", "-h", action="help", help="prints this")

    def error(self, message):
        fail(f"{message}; {self.prog} --help tells more")

    def format_help(self):
        """What it does, its usage, and a line for each form, argument and option."""
        lists = {"Commands": [], "Arguments": [], "Options": []}
        for it in self._actions:
            behind = "" if it.nargs == 0 else f" {'|'.join(it.choices) if it.choices else it.metavar}"
            if isinstance(it, argparse._SubParsersAction):
                lists["Commands"] += [(form.dest, form.help) for form in it._choices_actions]
            elif it.option_strings:
                lists["Options"].append((", ".join(it.option_strings) + behind, it.help))
            else:
                lists["Arguments"].append((it.metavar, it.help))
        words = " [OPTIONS]" if len(lists["Options"]) > 1 else " <COMMAND>"
        text = f"{self.description}\n\nUsage: {self.prog}{words}"
        text += "".join(f" {it.metavar}" for it in self._actions if not it.option_strings and it.metavar)
        for name, rows in lists.items():
            width = max((len(words) for words, _ in rows), default=0)
            text += "".join([f"\n\n{name}:"] * bool(rows) + [f"\n  {words:{width}}  {said}" for words, said in rows])
        return "\n\n".join([text, *([self.epilog] if self.epilog else [])]) + "\n"


def words_read():
    """What the command line asks for."""
    reader = Words(prog=NAME, description=WHAT, epilog=f"{ABOUT}\n\n{STATUS}")
    # (with the name it asks for no width of a terminal, which takes as long to load as a script to run)
    forms = reader.add_subparsers(dest="form", required=True, parser_class=Words, prog=NAME)

    def form(name, about, said):
        return forms.add_parser(name, prog=f"{NAME} {name}", help=about, description=about + ".", epilog=said)

    judging = with_limits(form("run", "Judges scripts, and writes the reports", STATUS))
    judging.add_argument("--results", default="farm-results", metavar="FOLDER",
                         help="where the results are kept, and a run goes on that was stopped (farm-results)")
    judging.add_argument("--engine", choices=("auto", "plain", "parallel", "slurm"), default="auto",
                         help="what runs them (auto: parallel with --hosts, slurm where it is there, else plain)")
    judging.add_argument("--jobs", type=at_least(1), metavar="N",
                         help="how many scripts run at a time (one a processor)")
    judging.add_argument("--hosts", metavar="FILE", help="ssh logins for GNU parallel, one a line")
    judging.add_argument("--program", metavar="PROGRAM",
                         help="the clsim that judges: a path, or a name on the PATH (without it, that of CLSIM)")
    judging.add_argument("--widen", action="store_true",
                         help="tells for which bytes a verdict holds, and judges one of scripts that differ in such")
    judging.add_argument("scripts", nargs="+", metavar="SCRIPT|FOLDER|@LIST..",
                         help="scripts, the *.txt of folders, and the scripts that lists name, one a line")
    reporting = form("report", "Writes the reports of a folder of results anew", STATUS)
    reporting.add_argument("--results", default="farm-results", metavar="FOLDER", help="the results (farm-results)")
    varying = form("vary", "Writes a script for each choice of values of a template", TEMPLATES)
    varying.add_argument("--into", required=True, metavar="FOLDER", help="where the scripts are written")
    varying.add_argument("template", metavar="TEMPLATE", help="a script with ${EXPRESSION} in it")
    varying.add_argument("values", nargs="+", metavar="NAME=V,V..", help="a name, and the numbers that it has in turn")
    return reader.parse_args()


def interrupt(*_):
    raise KeyboardInterrupt


def called(options):
    """Does what the command line asks for: the status."""
    # (a start of the farm is dear beside a small script: what one form needs is loaded where it is called)
    if options.form == "run":
        from judging import run  # pylint: disable=import-outside-toplevel
        return run(options)
    if options.form == "vary":
        from variants import vary  # pylint: disable=import-outside-toplevel
        return vary(options)
    from reports import report_again  # pylint: disable=import-outside-toplevel
    return report_again(options)


def main():
    options = words_read()
    # (where it is ignored, the system doesn't tell how what is started here ended)
    signal.signal(signal.SIGCHLD, signal.SIG_DFL)
    for number in (signal.SIGTERM, signal.SIGHUP):
        # (what is ignored, as behind nohup, stays so)
        if signal.getsignal(number) != signal.SIG_IGN:
            signal.signal(number, interrupt)
    try:
        return called(options)
    except KeyboardInterrupt:
        print(f"{NAME}: stopped; the same words go on from here", file=sys.stderr)
        return 130
