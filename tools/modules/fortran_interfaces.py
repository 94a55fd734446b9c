"""The source of the module mpi: the constants of mpif.h, and explicit interfaces of all calls, a file for each subject."""

import textwrap

import fortran_parameters

# A dummy argument of each kind: what stands in front of its name, and behind it.
DUMMIES = {"number": ("integer", ""), "numbers": ("integer", "(*)"), "logical": ("logical", ""), "logicals": ("logical", "(*)"),
           "integer": ("integer", ""), "integers": ("integer", "(*)"), "index": ("integer", ""), "indexes": ("integer", "(*)"),
           "weights": ("integer", "(*)"), "codes": ("integer", "(*)"), "handle": ("integer", ""), "answer": ("integer", ""),
           "handles": ("integer", "(*)"), "status": ("integer", "(MPI_STATUS_SIZE)"), "statuses": ("integer", "(MPI_STATUS_SIZE, *)"),
           "text": ("character(len=*)", ""), "answered text": ("character(len=*)", ""), "texts": ("character(len=*)", "(*)"),
           "texts2": ("character(len=*)", "(*)"), "address": ("integer(kind=MPI_ADDRESS_KIND)", ""),
           "addresses": ("integer(kind=MPI_ADDRESS_KIND)", "(*)")}
# Calls whose interfaces are those of more than one form, or of functions: they stand in the head of the module.
IN_THE_HEAD = ("Pcontrol", "Wtime", "Wtick", "Aint_add", "Aint_diff", "Alloc_mem", "Win_allocate", "Win_allocate_shared",
               "Win_shared_query")
HEAD = fortran_parameters.TOP / "bindings" / "fortran" / "src" / "module.f90"
TYPES = ("MPI_Comm", "MPI_Datatype", "MPI_Errhandler", "MPI_File", "MPI_Group", "MPI_Info", "MPI_Message", "MPI_Op", "MPI_Request",
         "MPI_Win")
KINDS = {"integer": (1, 2, 4, 8, 16), "real": (4, 8, 10, 16), "complex": (4, 8, 10, 16), "logical": (1, 2, 4, 8, 16)}


def dummies(call):
    """Names of the dummy arguments, and what declares each."""
    if call.is_by_hand:
        return [(name, kind, "integer") for name, kind in call.table.hand[call.name]]
    return [(it.dummy, it.kind, it.type) for it in call.parameters]


def declaration(name, kind, of_c, brackets=""):
    if kind == "choice":
        return ["!GCC$ ATTRIBUTES NO_ARG_CHECK :: %s" % name, "type(*), dimension(*) :: %s" % name]
    if kind == "function":
        return ["external :: %s" % name]
    front, behind = DUMMIES[kind]
    if of_c in fortran_parameters.NUMBERS:
        front = "integer(kind=%s)" % fortran_parameters.NUMBERS[of_c]
    return ["%s :: %s%s" % (front, name, "(3, *)" if name == "ranges" else behind)]


def interface(call):
    """The interface of one call."""
    own = dummies(call)
    head = "subroutine MPI_%s(%s)" % (call.name.upper(), ", ".join([it[0] for it in own] + ["ierror"]))
    lines = textwrap.wrap(head, 100, subsequent_indent="    ", break_long_words=False)
    lines = [it + " &" for it in lines[:-1]] + lines[-1:]
    lines += ["  import"] + ["  " + line for it in own for line in declaration(*it)]
    return "\n".join([*lines, "  integer :: ierror", "end subroutine"])


def sizes():
    """MPI_SIZEOF: for each type and kind, in any rank (17.1.9)."""
    named = [("%s%d" % (type_of, kind), "%s(kind=%d)" % (type_of, kind)) for type_of, kinds in KINDS.items() for kind in kinds]
    named.append(("character", "character(len=*)"))
    names, made = ["MPI_SIZEOF_%s" % name.upper() for name, _ in named], []
    for name, (_, type_of) in zip(names, named):
        size = "len(x)" if type_of.startswith("character") else "storage_size(x) / 8"
        made.append("\n".join(["subroutine %s(x, size, ierror)" % name, "  %s, intent(in) :: x(..)" % type_of,
                               "  integer, intent(out) :: size, ierror", "  size = %s" % size, "  ierror = MPI_SUCCESS",
                               "end subroutine"]))
    return "\n".join("module procedure " + it for it in names) + "\n", "\n".join(made) + "\n"


def handles():
    """The types of the module mpi_f08, and that two of them are the same (17.1.3)."""
    types = "".join("type, bind(C) :: %s\n  integer :: MPI_VAL\nend type\n" % it for it in TYPES)
    made, names = [], {"EQ": [], "NE": []}
    for it in TYPES:
        for word, sign in (("EQ", "=="), ("NE", "/=")):
            names[word].append("%s_%s" % (it.upper(), word))
            made.append("elemental function %s_%s(one, other) result(is_so)\n  type(%s), intent(in) :: one, other\n"
                        "  logical :: is_so\n  is_so = one%%MPI_VAL %s other%%MPI_VAL\nend function" % (it.upper(), word, it, sign))
    listed = {word: "".join("module procedure %s\n" % it for it in own) for word, own in names.items()}
    return types, listed["EQ"], listed["NE"], "\n".join(made) + "\n"


def module(table, calls, made):
    """The files of the module's source."""
    head = "! %s\n" % made
    types, equal, unequal, compared = handles()
    named, bodies = sizes()
    files = {"types.inc": types, "equal.inc": equal, "unequal.inc": unequal, "compared.inc": compared, "sizes.inc": named,
             "size_of.inc": bodies}
    included = []
    for subject in table.subjects:
        own = [it for it in calls if table.subject_of(it.name) == subject and it.name not in IN_THE_HEAD]
        for part, first in enumerate(range(0, len(own), 40), 1):
            name = "calls_%s_%d.inc" % (subject, part)
            files[name] = "\n".join(map(interface, own[first:first + 40])) + "\n"
            included.append("include '%s'\n" % name)
    files["calls.inc"] = "".join(included)
    return {name: head + text for name, text in files.items()} | {"mpi.f90": HEAD.read_text()}
