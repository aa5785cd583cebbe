"""The text of a witness: a C file that takes the path of a bug, and nothing else."""

import itertools

from .edits import GONE, Copy, check_read, keep_order, late_structures
from .library_names import TAKEN_WORDS
from .reports import KINDS, WitnessError
from .sources import RENAMED, called_early, signature, structures_in, undeclared_structures, without_body

# Of more empty lines than these in a copy one is left.
MOST_EMPTY = 3

STOP = """\
/* Ends the program where it does something else than the path. */
static void witness_stop(const char *why) {
  fprintf(stderr, "witness: %s\\n", why);
  abort();
}
"""

ALLOCATE = """\
/* How each malloc of the path ends, in order: + gives a block, - gives null. */
static const char witness_allocations[] = "@ALLOCATIONS@";
static size_t witness_allocated;

static void *witness_malloc(size_t size) {
  char end = witness_allocations[witness_allocated];
  if (!end) witness_stop("malloc is called more often than on the path");
  witness_allocated++;
  fprintf(stderr, "path: malloc gives %s\\n", end == '+' ? "a block" : "null");
  if (end == '-') return NULL;
  void *block = malloc(size);
  if (!block) witness_stop("no memory");
@FILL@  return block;
}
#define malloc witness_malloc
"""

FREE = """\
/* A block stays where it is, so that no later one has its place. */
static void witness_free(void *block) {
  (void)block;
}
#define free witness_free
"""

INPUT = """\
/* What each getchar of the path gives, in order. */
static const int witness_inputs[] = {@INPUTS@};

static int witness_getchar(void) {
  static size_t taken;
  if (taken == sizeof witness_inputs / sizeof *witness_inputs) witness_stop("getchar is called more often than on the path");
  fprintf(stderr, "path: getchar gives %d\\n", witness_inputs[taken]);
  return witness_inputs[taken++];
}
#define getchar witness_getchar
"""

NO_INPUT = """\
/* The path has no getchar. */
static int witness_getchar(void) {
  witness_stop("getchar is called, and the path has none");
  return -1;
}
#define getchar witness_getchar
"""

CHECK = """\
/* WITNESS_PLACE and WITNESS_VALUE stand where the path reads what was never written. The memory sanitizer by itself speaks
   of a value only where something is decided by it, and so it is asked. Where a compiler has none, blocks and locals are
   filled with a byte when they are made, and what still has it was never written. */
#if defined(__has_feature)
#if __has_feature(memory_sanitizer)
#define WITNESS_ASKS_SANITIZER
#endif
#endif
#if defined(__clang__)
#define WITNESS_FILL 0xAA
#else
#define WITNESS_FILL 0xFE
#endif
#if defined(WITNESS_ASKS_SANITIZER)
#include <sanitizer/msan_interface.h>
#define WITNESS_CHECK(place, size) __msan_check_mem_is_initialized(place, size)
#else
#define WITNESS_CHECK(place, size) witness_check(place, size, __FILE__, __LINE__)
__attribute__((unused)) static void witness_check(const void *place, size_t size, const char *file, int line) {
  const unsigned char *bytes = place;
  while (size && bytes[size - 1] == WITNESS_FILL) size--;
  if (size) return;
  fprintf(stderr, "witness: %s:%d: what was never written is read\\n", file, line);
  abort();
}
#endif
#define WITNESS_PLACE(place)                             \\
  (*({                                                   \\
    __auto_type witness_place = &(place);                \\
    WITNESS_CHECK(witness_place, sizeof *witness_place); \\
    witness_place;                                       \\
  }))
#define WITNESS_VALUE(value)                             \\
  ({                                                     \\
    __auto_type witness_value = (value);                 \\
    WITNESS_CHECK(&witness_value, sizeof witness_value); \\
    witness_value;                                       \\
  })
"""

FILL = """\
#if !defined(WITNESS_ASKS_SANITIZER)
  for (size_t i = 0; i < size; i++) ((unsigned char *)block)[i] = WITNESS_FILL;
#endif
"""


def witness_text(program, bug, entry, name, command, copied):
    """The C file `name` that takes the path of a bug, as a text with a character for each byte.

    It includes the sources, or (`copied`) has what was read of them.
    """
    checks = KINDS[bug.kind].is_of_values
    copies = copies_for(program, bug) if copied or checks else None
    parts = [head(bug, command, copies), headers(program, copies), STOP]
    if checks:
        parts.append(CHECK)
    parts += replacements(program, copies, bug, entry)
    parts += [renamed(program, copies), declarations(program, copies), bodies(program, copies)]
    text = "\n".join(part for part in parts if part) + "\n"
    if copies:
        text += copied_bodies(copies, text.count("\n"), name) + "\n"
    return text + caller(program, copies, bug, entry)


def copies_for(program, bug):
    checks, found = KINDS[bug.kind].is_of_values, False
    copies = [Copy(source, program, bug.procedures()) for source in program.sources]
    for copy in copies:
        is_its_file = checks and copy.source.name == bug.file
        keep_order(copy, (bug.line, bug.column) if is_its_file else None)
        found = found or (is_its_file and check_read(copy, bug.line, bug.column))
    if checks and not found:
        raise WitnessError(f"{bug.headline()}: there is no value at that place of the file")
    for copy, item in late_structures(copies):
        copy.hoisted.add(item)
    return copies


def order_counts(program, bug):
    """Whether the path goes through a function in which a compiler may take another order than pulsex."""
    return any(keep_order(Copy(source, program, bug.procedures())) for source in program.sources)


def head(bug, command, copies):
    lines = ["A witness that this bug is there, found by pulsex:", "", "  " + bug.headline()]
    lines += [f"    {mark.place}: {mark.text}" for mark in bug.trace]
    lines += ["", "This program takes that path. Compile it so, run it, or look at it in a debugger:", "", "  " + command]
    if copies:
        lines += ["", "Of the sources it has what the path needs, at the same lines, without directives."]
    safe = [as_bytes(line).replace("*/", "* /").replace("\n", " ") for line in lines]
    return "/* " + "\n".join((" * " + line if number else line).rstrip() for number, line in enumerate(safe)) + "\n */\n"


def headers(program, copies):
    names = ["<stdio.h>", "<stdlib.h>"] + ([] if copies else program.system_headers())
    return "".join(f"#include {name}\n" for name in dict.fromkeys(names))


def replacements(program, copies, bug, entry):
    """The functions that stand in the place of the library's, where they are called."""
    parts, called = [], words_of(program, copies)
    checks = KINDS[bug.kind].is_of_values
    if "malloc" in called:
        signs = {"allocated": "+", "allocation failed": "-"}
        ends = "".join(signs.get(mark.text, "") for mark in bug.trace)
        parts.append(ALLOCATE.replace("@ALLOCATIONS@", ends).replace("@FILL@", FILL if checks else ""))
    if "free" in called and checks:
        parts.append(FREE)
    if "getchar" in called:
        values = ", ".join(entry.inputs())
        parts.append(INPUT.replace("@INPUTS@", values) if values else NO_INPUT)
    return parts


def renamed(program, copies):
    lines, words = [], words_of(program, copies)
    if program.has_main() and "main" in words:
        lines += ["/* The main of the sources is a function like any other here. */", f"#define main {RENAMED}main"]
    names = [name for name in program.library_names() if name in words]
    taken = sorted(words & TAKEN_WORDS) if copies else []
    if names or taken:
        lines += ["/* The compiler or its library has these names too. */"] + [f"#undef {name}" for name in taken]
        lines += [f"#define {name} {RENAMED}{name}" for name in names + taken]
    return "".join(line + "\n" for line in lines)


def items_of(program, copies):
    """The items that stand in a witness."""
    return [item for copy in copies for item in copy.items] if copies else program.all_items()


def words_of(program, copies):
    return {token.text for item in items_of(program, copies) for token in item.tokens}


def declarations(program, copies):
    """What is called before it is declared, and what is called and has no body."""
    items, heads = items_of(program, copies), program.heads()
    early, missing = called_early(items), without_body(items, program.library_names())
    # (what includes a source is declared as it is there)
    called = [heads[name] for name in missing if name in heads and copies]
    structures = [name for item in early + called for name in structures_in(item)]
    structures += undeclared_structures(items) if copies else []
    lines = [f"struct {name};" for name in dict.fromkeys(structures)]
    if early:
        lines.append("/* These are called before they are declared. */")
        lines += [signature(program.source_of(item), item) + ";" for item in early]
    if missing:
        lines.append("/* The path calls none of these, and no body of them stands here. */")
        lines += [without_static(signature(program.source_of(item), item)) + ";" for item in called]
        lines += [f"int {name}();" for name in missing if copies and name not in program.declared()]
        lines += [f'__asm__(".weak {program.linked_name(name)}");' for name in missing]
    return "".join(line + "\n" for line in lines)


def without_static(head):
    return head[len("static ") :] if head.startswith("static ") else head


def bodies(program, copies):
    if copies is None:
        return "".join(f'#include "{as_bytes(source.path)}"\n' for source in program.sources)
    hoisted = [(copy, item) for copy in copies for item in copy.items if item in copy.hoisted]
    lines = [f"struct {item.structure()};" for copy, item in hoisted]
    lines += [copy.source.text[item.start : item.end] for copy, item in hoisted]
    return "".join(line + "\n" for line in lines)


def copied_bodies(copies, line, name):
    text = "".join(copied(copy) for copy in copies)
    # (the line behind this one: all before it, itself, and one)
    return text + f'#line {line + text.count(chr(10)) + 2} "{escaped(name)}"\n'


def copied(copy):
    """The text of a copy, with the numbers that its lines have in the source."""
    name, number = escaped(copy.source.name), 1
    lines = [f'#line 1 "{name}"']
    for is_empty, run in itertools.groupby(copy.text().split("\n"), key=lambda line: not line.strip(GONE)):
        run = list(run)
        number += len(run)
        # (many empty lines of a comment stay, as no directive may stand there)
        is_short = len(run) <= MOST_EMPTY or not any(run)
        lines += [line.rstrip(GONE) for line in run] if not is_empty or is_short else ["", f'#line {number} "{name}"']
    return "\n".join(lines)


def as_bytes(text):
    """A text with a character for each byte of its UTF-8, as the texts of sources have."""
    return text.encode("utf-8").decode("latin-1")


def escaped(name):
    return as_bytes(name).replace("\\", "\\\\").replace('"', '\\"').replace("\n", "\\n")


def caller(program, copies, bug, entry):
    """The main of the witness: one call with the entry's values."""
    # (its main isn't renamed there any more)
    name = program.linked_name("main") if bug.procedure == "main" else bug.procedure
    values, blocks = [], []
    for kind, value in entry.arguments():
        is_block = value.startswith("block")
        if is_block and value not in blocks:
            blocks.append(value)
        values.append(f"(void *)witness_{value}" if is_block else "NULL" if value == "null" else value)
    lines = ["#undef main"] if "#define main" in renamed(program, copies) else []
    lines += ["/* A block of the caller's, which the path never looks into. */"] if blocks else []
    lines += [f"static long long witness_{block}[64];" for block in blocks]
    lines += ["int main(void) {", f"  {name}({', '.join(values)});"]
    lines += ['  witness_stop("the path has ended without an error");', "}"]
    return "".join(line + "\n" for line in lines)
