"""From C files to an answer: compiles, makes the schedule, runs, makes the page, and says how it ended."""
import os
import shlex
import shutil
import sys
import webbrowser

from gibolufi import compiling, configuration, program, summary
from gibolufi.explain import explain
from gibolufi.progress import Progress
from gibolufi.report import Report
from gibolufi.schedules import MOST_EVENTS, Turns
from gibolufi.trial import NeverEnded, Trial
from gibolufi.verbs import schedule as schedule_verb
from gibolufi.verbs import timeline as timeline_verb
from gibolufi.words import BadWord, Refused, listed, read_words, shown, whole_number

USAGE = """gibolufi kernel FILE.c .. [--config JSON or F] [--schedule WORDS or F] [--libc] [--open]

Compiles C files with start.S and conda.ld (gcc, or clang where there is no gcc; rv32ima), makes the
schedule, runs it, makes the page of the run, and prints how it ended.

  --config JSON or F      the configuration: JSON text that begins with `{`, or a file ({}: the
                          plain chip of one hart and one core)
  --schedule WORDS or F   the words of `gibolufi schedule`, in quotes, or a file; without it all harts
                          and cores take turns of 16 events until every hart has ended
  --mode run|fine         the program's command that runs it (run)
  --libc                  links picolibc, for printf, malloc and so on
  --stack N               the bytes of each hart's and core's stack (4096)
  --flags WORDS           more words for the compiler, in quotes
  --compiler NAME         gcc or clang
  --limit N               the most events that are tried until every hart has ended
  --out FOLDER            where the results are left (FILE.run beside the first file)
  --program F             the simulator (CONDA, or the one that scripts/build made)
  --open                  opens the page in the browser

Status: the simulator's own; 1 where it didn't come to run it; 2 for a bad word."""
VALUES = ("config", "schedule", "mode", "stack", "flags", "compiler", "limit", "out", "program")
BURST = 16
# The most events that are tried where nothing else is said, by the proved and by the unproved program.
LIMIT, UNPROVED_LIMIT = 4194304, 131072
# The unproved program looks at each byte of memory.
UNPROVED_CONFIGURATION = '{"mem_bytes":524288}'
STACKS = ("hart_stacks", "core_stacks", "stack_stride", "stack_guard")


class Kernel:
    """One run of C files: its words, and the files of its folder."""

    def __init__(self, sources, options):
        self.sources, self.options = sources, options
        self.mode = options.get("mode", "run")
        if self.mode not in program.MODES:
            raise BadWord(f"--mode: {self.mode!r} is none of {', '.join(program.MODES)}")
        if not sources:
            raise BadWord("a C file is needed; --help tells the words")
        for source in sources:
            if not os.path.isfile(source):
                what = "it is a directory" if os.path.isdir(source) else "there is no such file"
                raise Refused(f"{source}: {what}")
        self.compiler = compiling.Compiler(options.get("compiler"))
        self.program = program.find(options.get("program"))
        name = os.path.splitext(os.path.basename(sources[0]))[0]
        self.folder = options.get("out", os.path.join(os.path.dirname(sources[0]), name + ".run"))

    def at(self, name):
        """The path of a file among the results."""
        return os.path.join(self.folder, name)

    def write(self, name, text):
        """Writes a file among the results."""
        with open(self.at(name), "w", encoding="ascii") as file:
            file.writelines([text] if isinstance(text, str) else text)

    def configure(self):
        """Reads the configuration, and writes it among the results."""
        plain = UNPROVED_CONFIGURATION if program.is_unproved(self.program) else "{}"
        given = self.options.get("config", plain)
        if given.lstrip()[:1] == "{":
            self.config = configuration.read_text(given, "--config")
            self.write("config.json", given.rstrip("\n") + "\n")
        elif not os.path.exists(given):
            raise Refused(f"--config: {given!r} is neither JSON text, as '{{\"cores\":2}}', nor a file that is there")
        else:
            self.config = configuration.read_file(given)
            shutil.copyfile(given, self.at("config.json"))
        return given

    def compile(self):
        """Compiles the files."""
        stack = whole_number("--stack", self.options.get("stack", "4096"), 256, 1 << 20) // 16 * 16
        symbols = [("stack_bytes", stack), ("memory_end", self.config.memory_end)]
        flags = [*compiling.FLAGS, *words_in("--flags", self.options.get("flags", ""))]
        said = self.compiler.compile(self.sources, self.at("image.elf"), "libc" in self.options, symbols, flags)
        sys.stderr.write(said)

    def schedule(self):
        """Writes the schedule; how it was made, and what is to be said of it."""
        given = self.options.get("schedule", "")
        if given and not given.lstrip().startswith("-"):
            if not os.path.isfile(given):
                raise Refused(f"--schedule: {given!r} is neither words of `gibolufi schedule`, as "
                              "'--burst h0=8,n0=32 --until-ended', nor a file that is there")
            shutil.copyfile(given, self.at("schedule"))
            return given, ""
        words = words_in("--schedule", given)
        if not words:
            turns = ",".join(f"h{n}={BURST}" for n in range(self.config["harts"]))
            turns += "".join(f",n{n}={BURST}" for n in range(self.config["cores"]))
            words = ["--burst", turns]
        options = schedule_verb.read_options([*words, "--config", self.at("config.json")]
                                             if not any(it.startswith("--config") for it in words) else words)
        turns = Turns(options)
        if "events" in options:
            events, note = schedule_verb.events_of(options, turns), ""
        else:
            events, note = self.events_until_ended(options, turns)
        self.write("schedule", turns.parts(events))
        return " ".join(words), note

    def events_until_ended(self, options, turns):
        """How many events it takes; where that is too many, the limit, and who never ended."""
        usual = UNPROVED_LIMIT if program.is_unproved(self.program) else LIMIT
        limit = options.get("limit", self.options.get("limit", str(usual)))
        limit = whole_number("--limit", limit, 1, MOST_EVENTS)
        trial = Trial(self.program, self.at("config.json"), self.at("image.elf"), Progress("gibolufi kernel"),
                      self.mode)
        try:
            return trial.events_until_ended(turns, limit)[0], ""
        except NeverEnded as fault:
            where = [place for place in map(self.place, fault.places) if place]
            return limit, f"{fault}{': ' if where else ''}{listed(where)}; --limit N tries more"

    def run(self):
        """Runs the schedule; the status is the simulator's."""
        words = [self.mode, "--config", self.at("config.json"), "--image", self.at("image.elf"), "--schedule",
                 self.at("schedule"), "--order", self.at("order"), "--report", self.at("report"),
                 "--output", self.at("output")]
        return program.run(self.program, words), words

    def draw(self, title, head):
        """Makes the page of the run."""
        run = timeline_verb.Run(self.at("order"), Report(self.at("report")))
        run.named(title, head)
        self.write("page.html", timeline_verb.page_of(run))
        return run

    def lines(self, run, note):
        """Name and words of each line that says how it ended."""
        yield from summary.lines(run.counts, run.report, self.place)
        for what in self.full_stacks(run.report):
            yield "STACK", f"{what}: the word past it was stored to; what to do: --stack N with more bytes"
        if note:
            yield "NOT ENDED", note
        with open(self.at("output"), "rb") as file:
            text = file.read(200)
        yield "output", f"{run.report.output:,} bytes: {shown(text)}" if run.report.output else "none"

    def place(self, address):
        """Where an address lies in the source."""
        return compiling.place_of(self.compiler, self.at("image.elf"), address)

    def full_stacks(self, report):
        """The stacks past which something was stored."""
        at = compiling.symbols_of(self.compiler, self.at("image.elf"), STACKS)
        if len(at) < len(STACKS):
            return
        for name, base, count in (("hart", at["hart_stacks"], len(report.harts)),
                                  ("core", at["core_stacks"], len(report.cores))):
            for number in range(count):
                guard = base + number * at["stack_stride"]
                if any(report.byte_at(address) for address in range(guard, guard + at["stack_guard"])):
                    yield f"the stack of {name} {number} was too small"


def words_in(name, text):
    """The words of a text as a shell would cut it."""
    try:
        return shlex.split(text)
    except ValueError as fault:
        raise BadWord(f"{name}: {text!r} can't be cut into words: {fault}") from None


def main(words):
    """Compiles, runs, draws and tells."""
    options, sources = read_words(words, VALUES, ("libc", "open"))
    kernel = Kernel(sources, options)
    os.makedirs(kernel.folder, exist_ok=True)
    given = kernel.configure()
    kernel.compile()
    program.warn_if_unproved(kernel.program)
    turns, note = kernel.schedule()
    (status, said), ran = kernel.run()
    sys.stderr.write(said)
    if status:
        for line in explain(ran, status, said):
            print(f"gibolufi kernel: {line}", file=sys.stderr)
        return status if status > 0 else 128 - status
    title = " ".join(map(os.path.basename, sources))
    run = kernel.draw(title, f"{given}, {turns}, in {os.path.basename(kernel.folder)}: order, report")
    print(f"{title} with {given}, {turns}")
    sys.stdout.write(summary.as_text(kernel.lines(run, note)))
    print(f"results in {kernel.folder}: page.html, order, report, output, schedule, config.json, image.elf")
    page = os.path.abspath(kernel.at("page.html"))
    if "open" in options and not webbrowser.open("file://" + page):
        print(f"gibolufi kernel: no browser was found to open {page}", file=sys.stderr)
    return 0
