"""The laws of the program, each with its clauses and the calls from `main` to them, and the claims of its libraries."""

from dataclasses import dataclass

# Chains of calls from `main` down: each function calls the next.
TO_CALL = (("b3sum/src/main.rt", "main"), ("b3_call/src/call.rt", "call_with"))
TO_CODE = (TO_CALL[0], ("b3_call/src/call.rt", "Called::exit_code"))
TO_SHELF = (*TO_CALL, ("b3_files/src/files.rt", "FileShelf::new"))
TO_OVER = (*TO_CALL, ("b3_call/src/call.rt", "call_over"))
TO_OUTPUT = (*TO_OVER, ("b3_files/src/outputs.rt", "OutputSink::new"))
TO_RUN_CALL = (*TO_OVER, ("b3_call/src/call.rt", "call_beside"), ("b3_call/src/call.rt", "run_call"))
TO_TASK = (*TO_RUN_CALL, ("b3_call/src/run.rt", "run_words"), ("b3_call/src/run.rt", "run_task"))
TO_RUN = (*TO_TASK, ("b3_call/src/run.rt", "run_over_files"), ("b3_call/src/jobs.rt", "run_job"),
          ("b3_call/src/jobs.rt", "run_engine"))
TO_GIVEN = (*TO_TASK, ("b3_call/src/run.rt", "run_over_files"), ("b3_io/src/operands.rt", "Operands::given"))
TO_LIST = (*TO_TASK, ("b3_call/src/lists.rt", "run_in_list"), ("b3_call/src/lists.rt", "run_over"),
           ("b3_io/src/operands.rt", "Operands::in_list"))
TO_SUM = (*TO_RUN, ("b3_check/src/sum.rt", "run_sum"))
TO_CHECK = (*TO_RUN, ("b3_check/src/check.rt", "run_check"))
TO_TEXT = (*TO_SUM, ("b3_check/src/sum.rt", "sum_names"), ("b3_check/src/sum.rt", "do_names"),
           ("b3_check/src/engine.rt", "Engine::run"), ("b3_check/src/engine.rt", "Engine::run_items"),
           ("b3_check/src/engine.rt", "Engine::run_as"), ("b3_check/src/engine.rt", "Engine::do_items"),
           ("b3_check/src/engine.rt", "Engine::do_in_turn"),
           ("b3_devices/src/devices.rt", "Devices::message_of"), ("b3_io/src/items.rt", "Request::message"),
           ("b3_io/src/message.rt", "Message::of_name"), ("b3_io/src/message.rt", "digest_text"))
TO_PLAIN = (*TO_TEXT, ("b3_io/src/message.rt", "plain_line"), ("b3_lines/src/writing.rt", "write_line"))
TO_TAGGED = (*TO_TEXT, ("b3_io/src/message.rt", "tagged_line"), ("b3_lines/src/tagging.rt", "write_tagged"))

# The traits at which the proof ends: their contracts are assumed of the real disk, so they have to be read.
ASSUMED = ("Disk", "DiskFile", "Input", "Stream")

# The names of handles of the system, except for threads and memory.
HANDLES = (r"\bHostRuntime\b|\buse std::(?:fs|os|net|rt|process::[a-z])"
           r"|\buse std::io::(?:\{[^}]*\b)?(?:Read|Write|Seek)\b")

# Types, and a word, of which a law needs only what the clauses of their calls say.
OPAQUE = ("ClearingSink", "CountingShelf", "FileShelf", "OutputSink", "Operands", "operands_left")

# The traits that callers of a library implement.
OWED = ("Gate", "InputLedger", "Source")


@dataclass(frozen=True)
class Clauses:
    """Clauses of a call, by name; all of them if none is named."""
    file: str
    function: str
    names: tuple = ()


@dataclass(frozen=True)
class Ghosts:
    """Ghost members of an `impl`, by name: what a type tells contracts."""
    file: str
    block: str
    names: tuple


@dataclass(frozen=True)
class Public:
    """The contracts of all public calls of a file, or of a type in it."""
    file: str
    kind: str = ""


@dataclass(frozen=True)
class Law:
    """A law in a user's words, what states it, and the calls from `main` down to that."""
    title: str
    says: str
    roots: tuple
    chains: tuple = ()


LAWS = (
    Law("Sums are never wrong",
        "Whatever fails, each name has the line of its content's digest, or a complaint in its place; at a fault there "
        "is a beginning of that.",
        (Clauses("b3_check/src/sum.rt", "run_sum", ("right",)),), (TO_SUM,)),
    Law("Checks are never wrong",
        "Whatever fails, each line has its right verdict, OK only where its digest is the content's, or is refused; "
        "at a fault there is a beginning of that.",
        (Clauses("b3_check/src/check.rt", "run_check", ("right",)),), (TO_CHECK,)),
    Law("Status 0",
        "Where the status is 0, each name has the line of its content's digest, and each line of a list says that of its "
        "name.",
        (Clauses("b3_check/src/sum.rt", "run_sum", ("all_written",)),
         Clauses("b3_check/src/check.rt", "run_check", ("all_verified",)),
         Clauses("b3_call/src/call.rt", "Called::exit_code")), (TO_SUM, TO_CHECK, TO_CODE)),
    Law("Which contents these are",
        "The program's shelf tells what its disk and its input tell, and its outputs tell what their writers hold, "
        "wrapped for progress or not.",
        (Ghosts("b3_files/src/files.rt", "Shelf for FileShelf", ("told", "is_sure")),
         Clauses("b3_files/src/files.rt", "FileShelf::new", ("disk", "input")),
         Ghosts("b3_files/src/counting_shelf.rt", "Shelf for CountingShelf", ("told", "is_sure")),
         Clauses("b3_files/src/counting_shelf.rt", "CountingShelf::new"),
         Ghosts("b3_files/src/outputs.rt", "Sink for OutputSink", ("held",)),
         Clauses("b3_files/src/outputs.rt", "OutputSink::new", ("writer",)),
         Clauses("b3_files/src/outputs.rt", "OutputSink::into_writer"),
         Ghosts("b3_files/src/clearing_sink.rt", "Sink for ClearingSink", ("held",)),
         Clauses("b3_files/src/clearing_sink.rt", "ClearingSink::new"),
         Clauses("b3_files/src/clearing_sink.rt", "ClearingSink::into_inner")), (TO_SHELF, TO_OUTPUT)),
    Law("Sums",
        "Over files that are known and do not fail, the line of each is written in order, and no more.",
        (Clauses("b3_check/src/sum.rt", "run_sum", ("sums",)),), (TO_SUM,)),
    Law("Checks",
        "Over such files OK, FAILED or FAILED (cannot read) is written for each line, with counts and warning.",
        (Clauses("b3_check/src/check.rt", "run_check", ("checks",)),), (TO_CHECK,)),
    Law("Sums, then a check",
        "What sums wrote, given back as a list over the same files, is OK for each.",
        (Clauses("b3_check/src/check.rt", "run_check", ("sums_check",)),), (TO_CHECK,)),
    Law("One line",
        "What is written of a file is one line: no line feed stands in it but the last byte.",
        (Clauses("b3_lines/src/writing.rt", "write_line", ("one_line",)),
         Clauses("b3_lines/src/tagging.rt", "write_tagged", ("one_line",))), (TO_PLAIN, TO_TAGGED)),
    Law("What a line says",
        "No line says two things: a verdict is on the one digest and the one name that its line reads as.",
        (Clauses("b3_check/src/check.rt", "run_check", ("one_entry",)),), (TO_CHECK,)),
    Law("Which names these are",
        "The names are those that are given, or those in a list: the pieces of its content that NUL ends, the last "
        "perhaps ended by none.",
        (Clauses("b3_io/src/operands.rt", "Operands::given"),
         Clauses("b3_io/src/operands.rt", "Operands::in_list", ("operands",))), (TO_GIVEN, TO_LIST)),
)

CONTRACT = Law("The program's contract",
               "From the arguments to both outputs and the status, over a disk and an input that may tell.",
               (Clauses("b3_call/src/call.rt", "call_with"), Clauses("b3_call/src/call.rt", "run_call"),
                Clauses("b3_call/src/call.rt", "Called::exit_code")),
               (TO_RUN_CALL, TO_CODE))

LIBRARIES = (
    Law("The hasher", "Any cutting of an input into pieces has the one output, from any place on.",
        (Public("b3_core/src/tree.rt"), Public("b3_core/src/nodes.rt", "Node"), Public("b3_core/src/modes.rt", "Mode"),
         Public("b3_hash/src/derivation.rt"), Public("b3_hash/src/hasher.rt", "Hasher"),
         Public("b3_hash/src/output.rt", "Xof"))),
    Law("The C library", "What each call does to a hasher and writes.", (Public("b3_c/src/lib.rt"),)),
    Law("The board", "It keeps its laws, and its root is that of its input.",
        (Public("b3_board/src/plan.rt", "Plan"), Public("b3_board/src/board.rt", "Board"))),
    Law("Workers", "Each span is claimed once, and the root is that of the input, over every schedule.",
        (Public("b3_claims/src/claims.rt"), Public("b3_board/src/workers.rt"), Public("b3_board/src/parallel.rt"),
         Public("b3_board/src/from_source.rt"))),
    Law("Check lines", "What is written reads back, each line reads in one way, and a text has one list of pieces.",
        (Public("b3_lines/src/writing.rt"), Public("b3_lines/src/tagging.rt"), Public("b3_lines/src/reading.rt"),
         Public("b3_lines/src/line_ranges.rt"))),
)
