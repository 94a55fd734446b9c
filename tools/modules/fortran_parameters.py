"""The calls of mpi.h and its parts as Fortran has them: of each parameter what Fortran gives, and what C is given."""

import re
import sys
from pathlib import Path

TOP = Path(__file__).resolve().parents[2]
INCLUDE = TOP / "bindings" / "c" / "include"
PARTS = ("mpi.h", "mpi_communicators.h", "mpi_unsupported.h")
TABLE = TOP / "bindings" / "fortran" / "table.txt"
# Kinds of handles: by their type in C the name in wrappers.h, and that of the functions of 17.2.4.
HANDLES = {"MPI_Comm": ("comm", "Comm"), "MPI_Datatype": ("type", "Type"), "MPI_Errhandler": ("errhandler", "Errhandler"),
           "MPI_File": ("file", "File"), "MPI_Group": ("group", "Group"), "MPI_Info": ("info", "Info"),
           "MPI_Message": ("message", "Message"), "MPI_Op": ("op", "Op"), "MPI_Request": ("request", "Request"),
           "MPI_Win": ("win", "Win")}
NUMBERS = {"MPI_Aint": "MPI_ADDRESS_KIND", "MPI_Count": "MPI_COUNT_KIND", "MPI_Offset": "MPI_OFFSET_KIND"}
PROTOTYPE = re.compile(r"(?m)^(?:KOMBAZILY_WARNS )?(int|double|MPI_\w+) (MPI_\w+)\(([^()]*)\);")


class Table:
    """What table.txt says."""

    def __init__(self):
        self.subjects, self.said, self.hand = {}, {}, {}
        for line in TABLE.read_text().splitlines():
            if not line or line.startswith("#"):
                continue
            word, name, *rest = line.split()
            if word == "subject":
                self.subjects[name] = rest[0]
            elif word == "hand":
                self.hand[name] = [tuple(it.split(":")) for it in rest]
            else:
                self.said.setdefault(word, []).append((name, rest))

    def words(self, word):
        """All that stands behind a word."""
        return [it for name, rest in self.said.get(word, []) for it in (name, *rest)]

    def value(self, word, name):
        """What a word says of a name, or None."""
        return next((rest[0] for own, rest in self.said.get(word, []) if own == name), None)

    def fits(self, word, text):
        """Whether a pattern of this word fits the whole text."""
        return any(re.fullmatch(it, text) for it in self.words(word))

    def subject_of(self, call):
        return next(subject for subject, pattern in self.subjects.items() if re.fullmatch(pattern, call, re.I))


def headers():
    """The text of mpi.h and its parts, without comments."""
    text = "\n".join((INCLUDE / it).read_text() for it in PARTS)
    return re.sub(r"/\*.*?\*/", "", text, flags=re.S)


class Call:
    """A call, named without `MPI_`."""

    def __init__(self, table, name, parameters):
        self.name, self.table, self.is_by_hand = name, table, name in table.hand
        words = [] if parameters == "void" or self.is_by_hand else parameters.split(", ")
        self.parameters = [Parameter(table, name, it) for it in words]
        self.names = [re.search(r"(\w+)(\[\d*\])*$", it)[1] for it in words]

    def count_of(self, parameter):
        """The number of entries of a list, in C."""
        told = self.table.value("entries", parameter.name)
        if told and told.startswith("*"):
            return told
        if told:
            return "*" + next(it for it in told.split("|") if it in self.names)
        if parameter.name in ("sendtypes", "recvtypes"):
            list_of = "MEMBERS"
            if "eighbor" in self.name:
                list_of = "DESTINATIONS" if parameter.name == "sendtypes" else "SOURCES"
            entries = "MPI_F_LIBRARY->entries(MPI_Comm_f2c(*comm), LIST_OF_%s)" % list_of
            # In place nothing is read of what would be sent (5.8).
            return "choice(sendbuf) == MPI_IN_PLACE ? 0 : " + entries if parameter.name == "sendtypes" else entries
        return sys.exit("fortran_calls: MPI_%s: how long is %s? table.txt: entries" % (self.name, parameter.name))


class Parameter:
    """One of a call's parameters."""

    def __init__(self, table, call, text):
        self.table, self.call, self.text = table, call, " ".join(text.split())
        found = re.fullmatch(r"(const )?(\w+) (\**)(\w+)((?:\[\d*\])*)", self.text)
        if found is None:
            sys.exit("fortran_calls: MPI_%s: no rule for '%s'" % (call, text))
        self.is_const, self.type, self.stars, self.name, self.brackets = found.groups()
        self.is_list, self.is_value = bool(self.brackets), not self.stars and not found[5]
        self.is_given = table.fits("given", "%s.%s" % (call, self.name))
        self.kind = self.find_kind()
        self.dummy = table.value("renamed", self.name) or self.name

    def find_kind(self):
        if self.type == "int" and self.name in self.table.words("logical"):
            return "logicals" if self.is_list else "logical"
        if self.type == "int" and self.name == "index" or self.name == "array_of_indices":
            return "indexes" if self.is_list else "index"
        if self.type == "int" and self.name.endswith("weights"):
            return "weights"
        if self.type == "int" and self.name == "array_of_errcodes":
            return "codes"
        if self.type in ("int", *NUMBERS):
            return "numbers" if self.is_list else "number"
        if self.type in HANDLES and self.is_value:
            return "handle"
        if self.type in HANDLES:
            return "handles" if self.is_list else "answer"
        if self.type == "MPI_Status":
            return "statuses" if self.is_list else "status"
        if self.type == "char" and (self.stars == "*") != self.is_list:
            return "text" if self.is_const else "answered text"
        if self.type == "void" and self.stars == "*" and self.name not in ("attribute_val", "extra_state", "baseptr"):
            return "choice"
        return sys.exit("fortran_calls: MPI_%s: no rule for '%s'" % (self.call, self.text))

    def is_text(self):
        return self.kind in ("text", "answered text")

    def given(self):
        """As the wrapper takes it."""
        type_of_c = "MPI_Fint"
        if self.kind == "choice":
            type_of_c = "void"
        elif self.is_text():
            type_of_c = "char"
        elif self.type in NUMBERS:
            type_of_c = self.type
        is_read = self.is_const or self.is_value or self.brackets.endswith("[3]")
        return "%s%s *%s" % ("const " if is_read else "", type_of_c, self.name)

    def room(self):
        """The name of what there may be no memory for, or None."""
        if self.kind in ("handles", "statuses", "text"):
            return "own_" + self.name
        return None

    def before(self, call):
        """The lines that declare what C is given."""
        own, length = "own_" + self.name, "length_of_" + self.name
        if self.kind in ("logical", "index") and not self.is_value:
            return ["int %s = UNTOUCHED;" % own]
        if self.kind == "answer":
            first = "MPI_%s_f2c(*%s)" % (HANDLES[self.type][1], self.name)
            return ["%s %s = %s;" % (self.type, own, first if self.is_given else "(%s)(intptr_t)UNTOUCHED" % self.type)]
        if self.kind in ("handles", "statuses"):
            return ["const int count_of_%s = %s;" % (self.name, call.count_of(self)),
                    "ROOM(%s, %s, count_of_%s);" % (self.type, own, self.name)]
        if self.kind == "status":
            return ["MPI_Status %s;" % own]
        if self.kind == "text":
            bare = "bare_" if self.table.fits("bare", self.call) else ""
            return ["TEXT(%s, %stext_of(%s, %s));" % (own, bare, self.name, length)]
        if self.kind == "answered text":
            return ["char %s[%s];" % (own, self.table.value("text", self.name))]
        return []

    def taken(self, call):
        """The lines in front of the call that need memory."""
        if self.kind != "handles":
            return []
        return ["take_%ss(own_%s, %s, count_of_%s);" % (HANDLES[self.type][0], self.name, self.name, self.name)]

    def argument(self, call):
        """What C is given."""
        own = "own_" + self.name
        if self.kind == "handle":
            return "MPI_%s_f2c(*%s)" % (HANDLES[self.type][1], self.name)
        if self.kind == "logical" and self.is_value:
            return "*%s != 0" % self.name
        if self.kind in ("logical", "index", "answer"):
            return "&" + own
        if self.kind == "status":
            return "take_status(&%s, %s)" % (own, self.name)
        if self.kind == "statuses":
            return "take_statuses(%s, %s, count_of_%s)" % (own, self.name, self.name)
        if self.kind in ("handles", "text", "answered text"):
            return own
        if self.kind in ("choice", "weights", "codes"):
            return {"choice": "choice(%s)", "weights": "weights_of(%s)", "codes": "codes_of(%s)"}[self.kind] % self.name
        if self.brackets.endswith("[3]"):
            return "(int(*)[3])%s" % self.name
        return "*" + self.name if self.is_value else self.name

    def behind(self, call):
        """The lines behind the call that put what it answered."""
        own, name = "own_" + self.name, self.name
        if self.kind in ("logical", "index") and not self.is_value:
            return ["put_%s(%s, %s);" % (self.kind, name, own)]
        if self.kind == "answer":
            return ["put_%s(%s, %s);" % (HANDLES[self.type][0], name, own)]
        if self.kind == "handles" and not self.is_const:
            return ["put_%ss(%s, %s, count_of_%s);" % (HANDLES[self.type][0], name, own, name)]
        if self.kind == "status" and not self.is_const:
            return ["put_status(%s, &%s);" % (name, own)]
        if self.kind == "statuses":
            return ["put_statuses(%s, %s, count_of_%s);" % (name, own, name)]
        if self.kind == "indexes":
            return ["if (*ierror == MPI_SUCCESS || *ierror == MPI_ERR_IN_STATUS) put_indexes(%s, %s);" % (name, call.count_of(self))]
        if self.kind == "answered text":
            return ["if (*ierror == MPI_SUCCESS) put_text(%s, length_of_%s, %s);" % (name, name, own)]
        return []


def calls(table):
    """All calls that Fortran has."""
    found = [(it[1][len("MPI_"):], " ".join(it[2].split())) for it in PROTOTYPE.findall(headers())]
    found = [(name, parameters) for name, parameters in found if not table.fits("none", name)]
    lacking = set(table.hand) - {name for name, _ in found}
    if lacking:
        sys.exit("fortran_calls: mpi.h has no MPI_%s, of which table.txt tells" % ", MPI_".join(sorted(lacking)))
    return [Call(table, name, parameters) for name, parameters in found]
