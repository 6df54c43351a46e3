"""Runs of scripts by chance, in some manner of reading and writing, with what the model of the language answers."""

from program_runs.chance_scripts import script
from model.scripts import answers, lines_of, status, wanting_memory

# refusals of a form: where nothing is to be built behind it, such a line asks for no memory
OF_FORMS = {b"refused 1", b"refused 2", b"refused 8"}


def by_chance(random):
    """A block: a script of lines that are mostly right, or of hostile ones, and what is asked of its run."""
    is_hostile = random.random() < 0.3
    made = script(random, random.choice([1, 2, 4, 8, 16]), 0.7 if is_hostile else 0)
    told = dict(answers_of(made))
    call = random.choice(["run", "run", "run_buffered", "run_buffered", "text_of"])
    yield call
    if call != "text_of":
        yield from manner(random)
    yield from rows_of(made, told)
    yield f"  status = {'none' if call == 'text_of' else status([text for _, (text,) in answers(made)])}"
    if call != "text_of":
        yield "  answered before each read = all"
        yield "  each read fails = refused Read"
        yield f"  each write fails = {'refused Write' if told else 'none'}"
        yield "  each flush fails = refused Write"
    yield "  cut at each byte = answered"
    if not OF_FORMS & {*told.values()}:
        yield f"  each request fails = {refusals(call, made, told)}"


def answers_of(made):
    """The lines that are answered, by their numbers, as rows have the answers."""
    for number, (text,) in answers(made):
        answer = text.removesuffix(b"\n").removeprefix(b"line %d: " % number)
        yield number, answer or b"none"


def manner(random):
    for what in ("read", "write"):
        if random.random() < 0.6:
            yield f"  {what} at most {random.choice([1, 2, 3, 7, 16, 100])}"
        if random.random() < 0.2:
            yield f"  {what} interrupted"


def rows_of(made, told):
    """The rows of a script; its last line may have no end."""
    lines = lines_of(made)
    for number, line in enumerate(made.split(b"\n")[: len(lines)], 1):
        name = "line" if number < len(lines) or made.endswith(b"\n") else "text"
        answer = f" = {told[number].decode()}" if number in told else ""
        yield f"  {name} {spelled(line)}{answer}".rstrip()


def spelled(line):
    """A line as a row spells it."""
    ends = (0, len(line) - 1)
    return "".join(
        chr(byte) if 32 < byte < 127 and byte not in b"\\=" or byte == 32 and at not in ends else f"\\x{byte:02x}"
        for at, byte in enumerate(line)
    )


def refusals(call, made, told):
    """What comes where requests for memory are refused: the run ends, or a line is refused whose query wants some."""
    found = ["refused Memory"]
    # the text itself grows in memory there
    if call == "text_of" and told:
        found.append("refused Write")
    asking = [it for it in wanting_memory(made, told) if told[it] != b"not understood"]
    if asking:
        found.append(f"refused 13 in lines {' '.join(map(str, asking))}")
    return ", ".join(found)
