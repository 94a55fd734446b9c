"""What programs keep and ask: groups, attributes, Info, names, error handlers, requests of their own, statuses, surroundings."""

import blocks
import data


class Groups(blocks.Block):
    """Sets of ranks."""

    name = "groups"

    def __init__(self, draft, comm):
        super().__init__(draft, [comm])
        chance, self.comm = draft.chance, comm
        size = min(map(len, comm.groups))
        self.one, self.other = (chance.sample(range(size), chance.randint(0, size)) for _ in range(2))
        self.left_out = chance.sample(range(size), chance.randint(0, size))
        first, step = chance.randrange(size), chance.choice((1, 2, 3))
        self.spread = (first, chance.randint(first, size - 1), step)

    def lines(self):
        lines = ["MPI_Comm comm = %s;" % self.comm.expression, "int me, size, told, ranks[64], own[64];", "if (!enter(comm, &me, &size)) return;",
                 "MPI_Group all, made[8];", "MPI_Comm_group(comm, &all);", "for (int i = 0; i < 64; i++) own[i] = i;",
                 "MPI_Group_incl(all, %d, %s, &made[0]);" % (len(self.one), data.c_list("int", self.one)),
                 "MPI_Group_incl(all, %d, %s, &made[1]);" % (len(self.other), data.c_list("int", self.other)),
                 "MPI_Group_union(made[0], made[1], &made[2]);", "MPI_Group_intersection(made[0], made[1], &made[3]);",
                 "MPI_Group_difference(made[0], made[1], &made[4]);",
                 "MPI_Group_excl(all, %d, %s, &made[5]);" % (len(self.left_out), data.c_list("int", self.left_out)),
                 "int spread[1][3] = {{%d, %d, %d}};" % self.spread,
                 "MPI_Group_range_incl(all, 1, spread, &made[6]);", "MPI_Group_range_excl(all, 1, spread, &made[7]);"]
        inside = ["int many, rank;", "MPI_Group_size(made[i], &many);", "MPI_Group_rank(made[i], &rank);",
                  'observe("group %d of %d, here %s", i, many, rank_word(rank));', "MPI_Group_translate_ranks(made[i], many, own, all, ranks);",
                  'for (int j = 0; j < many; j++) observe("has %s", rank_word(ranks[j]));',
                  "MPI_Group_translate_ranks(all, size, own, made[i], ranks);",
                  'for (int j = 0; j < size; j++) observe("is %s", rank_word(ranks[j]));',
                  "MPI_Group_compare(made[i], made[(i + 1) % 8], &told);", 'observe("compared %s", compared_word(told));']
        return lines + ["for (int i = 0; i < 8; i++) {", *blocks.indented(inside), "}",
                        "for (int i = 0; i < 8; i++) MPI_Group_free(&made[i]);", "MPI_Group_free(&all);"]


class Attributes(blocks.Block):
    """Values with functions that copy and delete them (6.7)."""

    name = "attributes"

    def __init__(self, draft, comm):
        super().__init__(draft, [comm])
        chance, self.comm = draft.chance, comm
        self.kinds = [chance.choice(("copied", "none", "dup")) for _ in range(3)]
        self.of_types, self.has_delete = chance.random() < .3, chance.random() < .7

    def statics(self):
        n, handle = self.number, "MPI_Datatype" if self.of_types else "MPI_Comm"
        return ["static long copies%d, deletes%d;" % (n, n),
                "static int copy%d(%s old, int key, void *extra, void *value, void *copy, int *flag) {" % (n, handle),
                "    copies%d += 1 + *(long *)extra;" % n, "    *(void **)copy = (char *)value + 1;", "    *flag = (long)value % 3 != 0;",
                "    return MPI_SUCCESS;", "}",
                "static int delete%d(%s old, int key, void *value, void *extra) {" % (n, handle),
                "    deletes%d += (long)value;" % n, "    return MPI_SUCCESS;", "}"]

    def lines(self):
        n, of = self.number, "Type" if self.of_types else "Comm"
        none = "MPI_%s_NULL_DELETE_FN" % of.upper()
        mark = "~replaced_value " if self.of_types else ""
        lines = ["MPI_Comm comm = %s;" % self.comm.expression, "if (comm == MPI_COMM_NULL) return;", "int keys[3], flag;", "void *value;",
                 "static long extra = 7;"]
        lines += ["MPI_Datatype object, copy;", "MPI_Type_contiguous(3, MPI_INT, &object);"] if self.of_types else \
            ["MPI_Comm object, copy;", "MPI_Comm_dup(comm, &object);"]
        for at, kind in enumerate(self.kinds):
            function = {"copied": "copy%d" % n, "none": "MPI_%s_NULL_COPY_FN" % of.upper(), "dup": "MPI_%s_DUP_FN" % of.upper()}[kind]
            lines += ["MPI_%s_create_keyval(%s, %s, &keys[%d], &extra);" % (of, function, "delete%d" % n if self.has_delete else none, at),
                      "MPI_%s_set_attr(object, keys[%d], (void *)(long)(%d + 10 * world_rank));" % (of, at, 100 * at + n)]
        inside = ["MPI_%s_get_attr(%s, keys[i], &value, &flag);", 'observe("%s %%d: %%ld", flag != 0, flag ? (long)value : -1);']
        told = [line for name in ("object", "copy") for line in (
            "for (int i = 0; i < 3; i++) {", "    " + inside[0] % (of, name), "    " + inside[1] % name, "}")]
        lines += ["MPI_%s_dup(object, &copy);" % of, *told, "MPI_%s_delete_attr(object, keys[1]);" % of,
                  "MPI_%s_set_attr(object, keys[2], (void *)5);" % of, *told[:4],
                  'observe("%scopies %%ld deletes %%ld", copies%d, deletes%d);' % (mark, n, n),
                  "MPI_%s_free_keyval(&keys[0]);" % of, 'observe("key %d", keys[0] == MPI_KEYVAL_INVALID);',
                  "MPI_%s_free(&copy);" % of, 'observe("%sdeletes %%ld", deletes%d);' % (mark, n), "MPI_%s_free(&object);" % of,
                  'observe("%sdeletes %%ld", deletes%d);' % (mark, n), "MPI_%s_free_keyval(&keys[1]);" % of, "MPI_%s_free_keyval(&keys[2]);" % of]
        return lines


class Info(blocks.Block):
    """Keys and values."""

    name = "info"

    def __init__(self, draft):
        super().__init__(draft)
        chance = draft.chance
        self.steps = [(chance.choice(("set", "set", "set", "get", "delete", "length")), chance.randrange(5), chance.choice((1, 5, 40, 200)))
                      for _ in range(chance.randint(5, 14))]

    def lines(self):
        lines = ["MPI_Info info, copy;", "int flag, length, many;", "unsigned sum = 0;",
                 "char value[MPI_MAX_INFO_VAL + 1], key[MPI_MAX_INFO_KEY + 1];",
                 "MPI_Info_create(&info);"]
        present = {}
        for how, key, length in self.steps:
            if how == "set":
                text = ("v%d" % key) * length
                lines.append('MPI_Info_set(info, "key %d", "%s");' % (key, text[:length]))
                present[key] = length
            elif how == "delete" and key in present:
                lines.append('MPI_Info_delete(info, "key %d");' % key)
                del present[key]
            elif how == "length":
                lines += ['MPI_Info_get_valuelen(info, "key %d", &length, &flag);' % key, 'observe("length %d", flag ? length : -1);']
            else:
                is_short = length < present.get(key, 0)
                got = ["memset(value, 0, sizeof value);", 'MPI_Info_get(info, "key %d", %d, value, &flag);' % (key, length),
                       'observe("%svalue %%s", flag ? value : "none");' % ("~short_info " if is_short else "")]
                lines += ["#ifndef FAULT_short_info", *got, "#endif"] if is_short else got
        tell = ["MPI_Info_get_nkeys(copy, &many);", 'observe("keys %d", many);', "for (int i = 0; i < many; i++) {",
                "    memset(key, 0, sizeof key);", "    MPI_Info_get_nthkey(copy, i, key);", "    sum += sum_of(key, strlen(key));", "}",
                'observe("sum %08x", sum);']
        return lines + ["MPI_Info_dup(info, &copy);", "MPI_Info_free(&info);", 'observe("null %d", info == MPI_INFO_NULL);', *tell,
                        "MPI_Info_free(&copy);"]


class Names(blocks.Block):
    """Names of communicators and types."""

    name = "names"

    def __init__(self, draft, comm):
        super().__init__(draft, [comm])
        self.comm, self.words = comm, "a name of block %d" % self.number
        self.basic = draft.chance.choice(data.SIMPLE + data.PAIRS)

    def lines(self):
        return ["MPI_Comm comm = %s, copy;" % self.comm.expression, "if (comm == MPI_COMM_NULL) return;", "MPI_Datatype type;", "int length;",
                "char name[MPI_MAX_OBJECT_NAME];", "MPI_Comm_get_name(MPI_COMM_WORLD, name, &length);", 'observe("%s %d", name, length);',
                "MPI_Comm_dup(comm, &copy);", "MPI_Comm_set_name(copy, \"%s\");" % self.words, "MPI_Comm_get_name(copy, name, &length);",
                'observe("%s %d", name, length);', "MPI_Comm_free(&copy);", "MPI_Type_get_name(MPI_%s, name, &length);" % self.basic,
                'observe("%s %d", name, length);', "MPI_Type_dup(MPI_%s, &type);" % self.basic, "MPI_Type_set_name(type, \"%s\");" % self.words,
                "MPI_Type_get_name(type, name, &length);", 'observe("%s %d", name, length);', "MPI_Type_free(&type);"]


class Requests(blocks.Block):
    """Receives that are cancelled, requests of the program's own, statuses that it sets."""

    name = "requests"

    def __init__(self, draft, comm):
        super().__init__(draft, [comm])
        chance, self.comm = draft.chance, comm
        self.many, self.how, self.elements = chance.randint(1, 4), chance.randrange(9), chance.randint(0, 9)
        self.is_cancelled = chance.randint(0, 1)

    def statics(self):
        n = self.number
        return ["static int freed%d;" % n, "static int query%d(void *extra, MPI_Status *status) {" % n,
                "    MPI_Status_set_elements(status, MPI_INT, *(int *)extra);", "    MPI_Status_set_cancelled(status, %d);" % self.is_cancelled,
                "    status->MPI_SOURCE = 3, status->MPI_TAG = 4;", "    return MPI_SUCCESS;", "}",
                "static int free%d(void *extra) {" % n, "    freed%d += *(int *)extra;" % n, "    return MPI_SUCCESS;", "}",
                "static int cancel%d(void *extra, int is_complete) {" % n, "    return MPI_SUCCESS;", "}"]

    def lines(self):
        n = self.number
        return ["MPI_Comm comm = %s;" % self.comm.expression, "if (comm == MPI_COMM_NULL) return;", "MPI_Request q[%d], own;" % self.many,
                "MPI_Status s[%d], status;" % self.many, "static int extra = %d;" % self.elements,
                "int *at = numbers(%d), flag, count;" % self.many,
                "for (int i = 0; i < %d; i++) MPI_Irecv(at + i, 1, MPI_INT, i %% 2 ? MPI_ANY_SOURCE : 0, 30000 + i, comm, &q[i]);" % self.many,
                "for (int i = 0; i < %d; i++) MPI_Cancel(&q[i]);" % self.many, "end_all(%d, %d, q, s);" % (self.how, self.many),
                "for (int i = 0; i < %d; i++) {" % self.many, "    MPI_Test_cancelled(&s[i], &flag);", '    observe("cancelled %d", flag != 0);', "}",
                "MPI_Grequest_start(query%d, free%d, cancel%d, &extra, &own);" % (n, n, n), "MPI_Test(&own, &flag, &status);",
                'observe("early %d", flag != 0);', "MPI_Grequest_complete(own);", "MPI_Request_get_status(own, &flag, &status);",
                'observe("ended %d", flag != 0);', "MPI_Wait(&own, &status);", "MPI_Get_count(&status, MPI_INT, &count);",
                "MPI_Test_cancelled(&status, &flag);",
                'observe("own %d cancelled %d source %d tag %d", count, flag != 0, status.MPI_SOURCE, status.MPI_TAG);',
                'observe("null %%d freed %%d", own == MPI_REQUEST_NULL, freed%d);' % n,
                "MPI_Status_set_elements_x(&status, MPI_DOUBLE, 12);", "MPI_Count many;", "MPI_Get_elements_x(&status, MPI_DOUBLE, &many);",
                'observe("set %lld", (long long)many);']


class Surroundings(blocks.Block):
    """What a process may ask of MPI."""

    name = "surroundings"

    def __init__(self, draft):
        super().__init__(draft)
        self.key = draft.chance.choice(("MPI_TAG_UB", "MPI_HOST", "MPI_IO", "MPI_WTIME_IS_GLOBAL"))

    def lines(self):
        return ["int flag, size, class, code, more, told;", "void *value, *memory;", "char text[MPI_MAX_ERROR_STRING + 1];",
                "double before = MPI_Wtime();", "MPI_Initialized(&flag);", 'observe("begun %d", flag != 0);', "MPI_Finalized(&flag);",
                'observe("ended %d", flag != 0);', 'observe("time %d %d", MPI_Wtime() >= before, MPI_Wtick() > 0);',
                "MPI_Comm_get_attr(MPI_COMM_WORLD, %s, &value, &flag);" % self.key, 'observe("attribute %d", flag != 0);',
                "MPI_Comm_get_attr(MPI_COMM_WORLD, MPI_TAG_UB, &value, &flag);", 'observe("tags %d", flag && *(int *)value >= 32767);',
                "MPI_Is_thread_main(&flag);", 'observe("main %d", flag != 0);',
                "MPI_Alloc_mem(1000, MPI_INFO_NULL, &memory);", "memset(memory, 3, 1000);", "MPI_Free_mem(memory);",
                "MPI_Aint here, there;", "char row[40];", "MPI_Get_address(row, &here);", "MPI_Get_address(row + 33, &there);",
                'observe("apart %ld %d", (long)MPI_Aint_diff(there, here), MPI_Aint_add(here, 33) == there);',
                "MPI_Add_error_class(&class);", "MPI_Add_error_code(class, &code);", 'MPI_Add_error_string(code, "a code of one\'s own");',
                "MPI_Error_class(code, &told);", 'observe("class %d", told == class);', "MPI_Error_string(code, text, &size);",
                'observe("%s %d", text, size);', "MPI_Error_string(MPI_ERR_RANK, text, &size);", 'observe("words %d", size > 0);',
                "MPI_Op op;", "MPI_Op_create(compose_pairs, 0, &op);", "MPI_Op_commutative(op, &flag);", "MPI_Op_commutative(MPI_SUM, &more);",
                'observe("commute %d %d", flag != 0, more != 0);',
                'observe("same %d", MPI_Op_f2c(MPI_Op_c2f(op)) == op && MPI_Comm_f2c(MPI_Comm_c2f(MPI_COMM_WORLD)) == MPI_COMM_WORLD && '
                'MPI_Type_f2c(MPI_Type_c2f(MPI_INT)) == MPI_INT);', "MPI_Op_free(&op);", 'observe("null %d", op == MPI_OP_NULL);',
                "MPI_Pcontrol(1);", "MPI_Get_version(&class, &told);", 'observe("version %d", class >= 3);']


class ReduceLocal(blocks.Block):
    """Two operands of one process (5.9.7)."""

    name = "reduce local"

    def __init__(self, draft):
        super().__init__(draft)
        chance = draft.chance
        self.op, self.basic, self.kind = chance.choice((("SUM", "INT", "int"), ("MAX", "DOUBLE", "double"), ("BXOR", "UNSIGNED", "unsigned"),
                                                        ("PROD", "LONG", "long"), ("MIN", "SHORT", "short"), ("LAND", "INT", "int"),
                                                        ("compose_pairs", None, "uint32_t")))
        self.many = chance.choice((0, 1, 7, 100))

    def lines(self):
        many = self.many
        lines = ["%s *one = (%s *)room(sizeof(%s) * %d), *other = (%s *)room(sizeof(%s) * %d);" % (
            (self.kind,) * 3 + (2 * many,) + (self.kind,) * 2 + (2 * many,)),
                 "for (int i = 0; i < %d; i++) one[i] = (%s)(i %% 7 + world_rank), other[i] = (%s)(i %% 5 + 1);" % (2 * many, self.kind, self.kind)]
        if self.basic:
            lines.append("MPI_Reduce_local(one, other, %d, MPI_%s, MPI_%s);" % (2 * many, self.basic, self.op))
        else:
            lines += ["MPI_Op op;", "MPI_Datatype type;", "MPI_Type_contiguous(2, MPI_UINT32_T, &type);", "MPI_Type_commit(&type);",
                      "MPI_Op_create(compose_pairs, 0, &op);", "MPI_Reduce_local(one, other, %d, type, op);" % many, "MPI_Op_free(&op);",
                      "MPI_Type_free(&type);"]
        return lines + ['tell_room("one", (unsigned char *)one);', 'tell_room("other", (unsigned char *)other);']


class Handles(blocks.Block):
    """Handles as numbers and back (17.2.4), types that are found by what they hold (17.1.9), what is asked by its name."""

    name = "handles"

    def __init__(self, draft, comm):
        super().__init__(draft, [comm])
        self.comm, self.digits = comm, draft.chance.choice((4, 9, 18))

    def lines(self):
        lines = ["MPI_Comm comm = %s;" % self.comm.expression, "if (comm == MPI_COMM_NULL) return;", "MPI_Group group;", "MPI_Info info, got;",
                 "MPI_Request q;", "MPI_Message none = MPI_MESSAGE_NO_PROC;", "MPI_Status status, other;", "MPI_Fint words[64];",
                 "int level, size, rank, length, at[1] = {0};", "char name[MPI_MAX_LIBRARY_VERSION_STRING + MPI_MAX_PROCESSOR_NAME];",
                 "MPI_Datatype type;", "MPI_Comm_group(comm, &group);", "MPI_Info_create(&info);",
                 "MPI_Irecv(&level, 0, MPI_INT, MPI_PROC_NULL, 0, comm, &q);"]
        kinds = (("Comm", "comm"), ("Group", "group"), ("Info", "info"), ("Request", "q"), ("Errhandler", "MPI_ERRORS_RETURN"),
                 ("Message", "none"), ("Type", "MPI_DOUBLE"), ("Op", "MPI_MAX"))
        lines += ['observe("%s %%d", MPI_%s_f2c(MPI_%s_c2f(%s)) == %s);' % (kind.lower(), kind, kind, it, it) for kind, it in kinds]
        return lines + [
            "MPI_Wait(&q, &status);", "MPI_Status_set_elements(&status, MPI_INT, 5);", "status.MPI_TAG = 77;", "MPI_Status_c2f(&status, words);",
            "MPI_Status_f2c(words, &other);", "MPI_Get_count(&other, MPI_INT, &length);", 'observe("status %d %d", other.MPI_TAG, length);',
            "MPI_Query_thread(&level);", 'observe("level %d", level >= MPI_THREAD_SINGLE);', "MPI_Get_processor_name(name, &length);",
            'observe("here %d", length > 0);', "MPI_Get_library_version(name, &length);", 'observe("library %d", length > 0);',
            "MPI_Comm_set_info(comm, info);", "MPI_Comm_get_info(comm, &got);", 'observe("info %d", got != MPI_INFO_NULL);',
            "MPI_Info_free(&got);", "MPI_Info_free(&info);", "MPI_Group_free(&group);",
            "MPI_Type_match_size(MPI_TYPECLASS_REAL, 8, &type);", "MPI_Type_size(type, &size);", 'observe("size %d", size);',
            "MPI_Type_create_f90_integer(%d, &type);" % self.digits, "MPI_Type_size(type, &size);", 'observe("integer %d", size);',
            "MPI_Type_create_f90_real(15, 300, &type);", "MPI_Type_size(type, &size);", 'observe("real %d", size);',
            "MPI_Type_create_f90_complex(6, 30, &type);", "MPI_Type_size(type, &size);", 'observe("complex %d", size);',
            "MPI_Graph_map(MPI_COMM_SELF, 1, at, at, &rank);", 'observe("mapped %d", rank);']


class OldAttributes(blocks.Block):
    """The same by the names of MPI-1, which are there still (15.1), and a handler that is called (8.3)."""

    name = "old attributes"

    def __init__(self, draft, comm):
        super().__init__(draft, [comm])
        self.comm = comm

    def statics(self):
        return ["static int told%d;" % self.number, "static void handler%d(MPI_Comm *comm, int *code, ...) {" % self.number,
                '    observe("called %s", class_word(*code));', "}"]

    def lines(self):
        return ["MPI_Comm comm = %s, copy;" % self.comm.expression, "if (comm == MPI_COMM_NULL) return;", "int key, flag;", "void *value;",
                "MPI_Errhandler handler;", "MPI_Keyval_create(MPI_DUP_FN, MPI_NULL_DELETE_FN, &key, NULL);",
                "MPI_Attr_put(comm, key, &told%d);" % self.number, "MPI_Comm_dup(comm, &copy);", "MPI_Attr_get(copy, key, &value, &flag);",
                'observe("there %%d", flag && value == (void *)&told%d);' % self.number, "MPI_Attr_delete(copy, key);",
                "MPI_Attr_get(copy, key, &value, &flag);", 'observe("gone %d", !flag);', "MPI_Attr_delete(comm, key);", "MPI_Keyval_free(&key);",
                "MPI_Comm_create_errhandler(handler%d, &handler);" % self.number, "MPI_Comm_set_errhandler(copy, handler);",
                "MPI_Errhandler_free(&handler);", "MPI_Comm_call_errhandler(copy, MPI_ERR_TAG);", "MPI_Comm_free(&copy);"]
