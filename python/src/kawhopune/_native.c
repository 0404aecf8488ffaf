/* SPDX-License-Identifier: MIT OR Apache-2.0 */
/* The dispatcher of c/nt.h as a type of Python's, by the limited API. Each call is made while the interpreter's lock is held, so calls come one
 * after another, as the dispatcher asks; none of them blocks. */
#define PY_SSIZE_T_CLEAN
#define Py_LIMITED_API 0x030A0000
#include <Python.h>

#include <stdlib.h>

#include "nt.h"

#define STATUSES (NT_WAIT_ABANDONED_0 + NT_MAXIMUM_WAIT_OBJECTS)

typedef struct {
    PyObject_HEAD
    struct nt nt;
    uint32_t threads;
} Dispatcher;

/* What the Python part of the package defines, found once as this module is made. */
static PyObject *refused;      /* the function that makes the exception of an error's number */
static PyObject *statuses[STATUSES];
static PyObject *io_completion, *timeout;
static PyObject *kind_class, *access_class;
static PyTypeObject *dispatcher_type;
static PyTypeObject *grant_type, *apc_type, *told_type, *begun_type, *wait_type, *object_type, *opened_type, *why_type;

/* ---- Results */

static PyObject *refuse(uint32_t error)
{
    PyObject *exception = PyObject_CallFunction(refused, "I", error);
    if (exception) {
        PyErr_SetObject((PyObject *)Py_TYPE(exception), exception);
        Py_DECREF(exception);
    }
    return NULL;
}

static PyObject *none_or(uint32_t error)
{
    if (error)
        return refuse(error);
    Py_RETURN_NONE;
}

static PyObject *status_of(uint32_t code)
{
    PyObject *found = code < STATUSES ? statuses[code] : code == NT_WAIT_TIMEOUT ? timeout : code == NT_WAIT_IO_COMPLETION ? io_completion : NULL;
    if (!found)
        return PyErr_Format(PyExc_SystemError, "no status %u", code);
    Py_INCREF(found);
    return found;
}

/* A record of this type with these fields, whose references it takes; NULL if one of them is. */
static PyObject *record(PyTypeObject *type, size_t count, PyObject **fields)
{
    PyObject *made = PyStructSequence_New(type);
    bool whole = made != NULL;
    for (size_t at = 0; at < count; at++) {
        whole = whole && fields[at];
        if (made && fields[at])
            PyStructSequence_SetItem(made, (Py_ssize_t)at, fields[at]);
        else
            Py_XDECREF(fields[at]);
    }
    if (!whole)
        Py_CLEAR(made);
    return made;
}
#define RECORD(type, ...) \
    record(type, sizeof((PyObject *[]){__VA_ARGS__}) / sizeof(PyObject *), (PyObject *[]){__VA_ARGS__})

static PyObject *unsigned_int(uint64_t value)
{
    return PyLong_FromUnsignedLongLong(value);
}

/* The value, or None where there is none. */
static PyObject *optional(bool is_there, uint64_t value)
{
    if (is_there)
        return unsigned_int(value);
    Py_RETURN_NONE;
}

static PyObject *boolean(bool value)
{
    return PyBool_FromLong(value);
}

/* What an accepted call answers: a handle, a count, a status, None while a wait pends and where there is nothing to tell. */
static PyObject *answer(uint32_t error, const struct nt_reply *reply)
{
    if (error)
        return refuse(error);
    switch (reply->kind) {
    case NT_HANDLE:
        return unsigned_int(reply->number);
    case NT_PREVIOUS:
        return PyLong_FromLong(reply->previous);
    case NT_STATUS:
        return status_of(reply->number);
    case NT_APC:
        return RECORD(apc_type, unsigned_int(reply->routine), unsigned_int(reply->arg), optional(reply->timed, reply->at));
    default:
        Py_RETURN_NONE;
    }
}

/* ---- Arguments */

enum type { U32, I32, U64, I64, FLAG };

/* An argument of a call: its name, its type, and whether it has a default. */
struct parameter {
    const char *name;
    enum type type;
    bool is_optional;
    uint64_t otherwise;
};

static bool out_of_range(const struct parameter *it, const char *range)
{
    PyErr_Format(PyExc_OverflowError, "%s is out of range: %s", it->name, range);
    return false;
}

static bool signed_number(const struct parameter *it, PyObject *value, uint64_t *number)
{
    int overflow;
    long long found = PyLong_AsLongLongAndOverflow(value, &overflow);
    if (found == -1 && !overflow && PyErr_Occurred())
        return false;
    if (overflow || (it->type == I32 && (found < INT32_MIN || found > INT32_MAX)))
        return out_of_range(it, it->type == I32 ? "-2147483648 to 2147483647" : "-2**63 to 2**63 - 1");
    *number = (uint64_t)found;
    return true;
}

static bool unsigned_number(const struct parameter *it, PyObject *value, uint64_t *number)
{
    unsigned long long found = PyLong_AsUnsignedLongLong(value);
    bool is_out = found == (unsigned long long)-1 && PyErr_Occurred();
    if (is_out && !PyErr_ExceptionMatches(PyExc_OverflowError))
        return false;
    PyErr_Clear();
    if (is_out || (it->type == U32 && found > UINT32_MAX))
        return out_of_range(it, it->type == U32 ? "0 to 4294967295" : "0 to 2**64 - 1");
    *number = found;
    return true;
}

static bool convert(const struct parameter *it, PyObject *value, uint64_t *number)
{
    if (it->type == FLAG) {
        int truth = PyObject_IsTrue(value);
        *number = truth == 1;
        return truth >= 0;
    }
    PyObject *index = PyNumber_Index(value);
    if (!index)
        return false;
    bool done = it->type == I32 || it->type == I64 ? signed_number(it, index, number) : unsigned_number(it, index, number);
    Py_DECREF(index);
    return done;
}

/* The place of the parameter with this name, or `count`. */
static size_t place_of(const struct parameter *all, size_t count, PyObject *name)
{
    size_t at = 0;
    while (at < count && PyUnicode_CompareWithASCIIString(name, all[at].name) != 0)
        at++;
    return at;
}

/* Puts the argument of each parameter in its place; those that are left out are NULL. */
static bool arrange(const char *call, const struct parameter *all, size_t count, PyObject *const *args, Py_ssize_t given, PyObject *names,
                    PyObject **values)
{
    if ((size_t)given > count) {
        PyErr_Format(PyExc_TypeError, "%s() takes at most %zu arguments (%zd given)", call, count, given);
        return false;
    }
    for (size_t at = 0; at < count; at++)
        values[at] = at < (size_t)given ? args[at] : NULL;
    for (Py_ssize_t at = 0; names && at < PyTuple_Size(names); at++) {
        PyObject *name = PyTuple_GetItem(names, at);
        size_t place = place_of(all, count, name);
        if (place == count || values[place]) {
            PyErr_Format(PyExc_TypeError, place == count ? "%s() has no argument %R" : "%s() got %R twice", call, name);
            return false;
        }
        values[place] = args[given + at];
    }
    for (size_t at = 0; at < count; at++) {
        if (!values[at] && !all[at].is_optional) {
            PyErr_Format(PyExc_TypeError, "%s() lacks the argument '%s'", call, all[at].name);
            return false;
        }
    }
    return true;
}

static bool read_all(const struct parameter *all, size_t count, PyObject *const *values, uint64_t *numbers)
{
    for (size_t at = 0; at < count; at++) {
        numbers[at] = all[at].otherwise;
        if (values[at] && !convert(&all[at], values[at], &numbers[at]))
            return false;
    }
    return true;
}

static bool is_open(const struct nt *nt)
{
    if (!nt->live)
        PyErr_SetString(PyExc_ValueError, "the dispatcher is closed");
    return nt->live;
}

#define PARAMETER(name, type) {#name, type, false, 0}
#define OPTION(name, type, otherwise) {#name, type, true, otherwise}
#define COUNT(array) (sizeof(array) / sizeof(*(array)))

/* A method of the dispatcher: its parameters, which are numbers all, and what it does with them (n). */
#define METHOD(name, action, ...)                                                                                                        \
    static PyObject *call_##name(PyObject *self, PyObject *const *args, Py_ssize_t given, PyObject *names)                               \
    {                                                                                                                                    \
        static const struct parameter all[] = {__VA_ARGS__};                                                                             \
        PyObject *values[COUNT(all)];                                                                                                    \
        uint64_t n[COUNT(all)];                                                                                                          \
        struct nt *const nt = &((Dispatcher *)self)->nt;                                                                                 \
        struct nt_reply reply;                                                                                                           \
        if (!arrange(#name, all, COUNT(all), args, given, names, values) || !read_all(all, COUNT(all), values, n) || !is_open(nt))       \
            return NULL;                                                                                                                 \
        return answer(action, &reply);                                                                                                   \
    }

#define THREAD PARAMETER(thread, U32)
#define TIMES OPTION(timeout, U32, NT_INFINITE), OPTION(alertable, FLAG, false)
#define WHO (uint32_t) n[0]
#define ARG(at) (uint32_t) n[at]

METHOD(create_event, nt_create_event(nt, WHO, (n[1] ? NT_EVENT_MANUAL_RESET : 0) | (n[2] ? NT_EVENT_INITIAL_SET : 0), &reply), THREAD,
       OPTION(manual_reset, FLAG, false), OPTION(initial_state, FLAG, false))
METHOD(set_event, nt_set_event(nt, WHO, ARG(1), &reply), THREAD, PARAMETER(event, U32))
METHOD(reset_event, nt_reset_event(nt, WHO, ARG(1), &reply), THREAD, PARAMETER(event, U32))
METHOD(pulse_event, nt_pulse_event(nt, WHO, ARG(1), &reply), THREAD, PARAMETER(event, U32))
METHOD(create_semaphore, nt_create_semaphore(nt, WHO, (int32_t)n[1], (int32_t)n[2], &reply), THREAD, PARAMETER(initial_count, I32),
       PARAMETER(maximum_count, I32))
METHOD(release_semaphore, nt_release_semaphore(nt, WHO, ARG(1), (int32_t)n[2], &reply), THREAD, PARAMETER(semaphore, U32),
       OPTION(release_count, I32, 1))
METHOD(create_mutex, nt_create_mutex(nt, WHO, n[1] ? NT_MUTEX_INITIAL_OWNER : 0, &reply), THREAD, OPTION(initial_owner, FLAG, false))
METHOD(release_mutex, nt_release_mutex(nt, WHO, ARG(1), &reply), THREAD, PARAMETER(mutex, U32))
METHOD(create_timer, nt_create_timer(nt, WHO, n[1] ? NT_TIMER_MANUAL_RESET : 0, &reply), THREAD, OPTION(manual_reset, FLAG, false))
METHOD(set_timer, nt_set_timer(nt, WHO, ARG(1), (int64_t)n[2], (int32_t)n[3], &reply), THREAD, PARAMETER(timer, U32), PARAMETER(due_time, I64),
       OPTION(period, I32, 0))
METHOD(set_timer_apc, nt_set_timer_apc(nt, WHO, ARG(1), (int64_t)n[2], (int32_t)n[3], n[4], n[5], &reply), THREAD, PARAMETER(timer, U32),
       PARAMETER(due_time, I64), PARAMETER(period, I32), PARAMETER(routine, U64), OPTION(argument, U64, 0))
METHOD(cancel_timer, nt_cancel_timer(nt, WHO, ARG(1), &reply), THREAD, PARAMETER(timer, U32))
METHOD(queue_user_apc, nt_queue_apc(nt, WHO, ARG(1), n[2], n[3], &reply), THREAD, PARAMETER(target, U32), PARAMETER(routine, U64),
       OPTION(argument, U64, 0))
METHOD(next_apc, nt_next_apc(nt, WHO, &reply), THREAD)
METHOD(duplicate_handle, nt_duplicate(nt, WHO, ARG(1), ARG(2), &reply), THREAD, PARAMETER(handle, U32), PARAMETER(access, U32))
METHOD(close_handle, nt_close_handle(nt, WHO, ARG(1), &reply), THREAD, PARAMETER(handle, U32))
METHOD(exit_thread, nt_exit(nt, WHO, &reply), THREAD)
METHOD(wait_for_single_object, nt_wait_object(nt, WHO, ARG(1), ARG(2), n[3] != 0, &reply), THREAD, PARAMETER(handle, U32), TIMES)
METHOD(sleep, nt_sleep(nt, WHO, ARG(1), n[2] != 0, &reply), THREAD, PARAMETER(timeout, U32), OPTION(alertable, FLAG, false))
METHOD(signal_object_and_wait, nt_swap(nt, WHO, ARG(1), ARG(2), ARG(3), n[4] != 0, &reply), THREAD, PARAMETER(signal, U32), PARAMETER(wait, U32),
       TIMES)

/* The handles of a list or another sequence, into `handles`. -1 with an exception if there are too many for a list, or if one is no handle. */
static Py_ssize_t handles_of(PyObject *list, uint32_t *handles)
{
    static const struct parameter handle = PARAMETER(handle, U32);
    PyObject *all = PySequence_Tuple(list);
    Py_ssize_t count = all ? PyTuple_Size(all) : -1;
    for (Py_ssize_t at = 0; at < count && at < (Py_ssize_t)NT_MAXIMUM_WAIT_OBJECTS; at++) {
        uint64_t number;
        if (!convert(&handle, PyTuple_GetItem(all, at), &number))
            count = -1;
        else
            handles[at] = (uint32_t)number;
    }
    Py_XDECREF(all);
    return count;
}

/* (A list of none, or of more than 64, is refused by the dispatcher, which looks at its length alone then.) */
static PyObject *call_wait_for_multiple_objects(PyObject *self, PyObject *const *args, Py_ssize_t given, PyObject *names)
{
    static const struct parameter all[] = {THREAD, PARAMETER(handles, U32), OPTION(wait_all, FLAG, false), TIMES};
    PyObject *values[COUNT(all)];
    uint64_t n[COUNT(all)];
    uint32_t handles[NT_MAXIMUM_WAIT_OBJECTS] = {0};
    struct nt *const nt = &((Dispatcher *)self)->nt;
    struct nt_reply reply;
    if (!arrange("wait_for_multiple_objects", all, COUNT(all), args, given, names, values))
        return NULL;
    PyObject *const list = values[1];
    values[1] = NULL;
    const Py_ssize_t count = handles_of(list, handles);
    if (count < 0 || !read_all(all, COUNT(all), values, n) || !is_open(nt))
        return NULL;
    return answer(nt_wait(nt, WHO, handles, (size_t)count, n[2] != 0, ARG(3), n[4] != 0, &reply), &reply);
}

/* ---- Time, and what there is to read */

/* A method whose arguments are numbers, and that gives something else than a call's answer. */
#define READER(name, body, ...)                                                                                                          \
    static PyObject *call_##name(PyObject *self, PyObject *const *args, Py_ssize_t given, PyObject *names)                               \
    {                                                                                                                                    \
        static const struct parameter all[] = {__VA_ARGS__};                                                                             \
        PyObject *values[COUNT(all)];                                                                                                    \
        uint64_t n[COUNT(all)];                                                                                                          \
        struct nt *const nt = &((Dispatcher *)self)->nt;                                                                                 \
        if (!arrange(#name, all, COUNT(all), args, given, names, values) || !read_all(all, COUNT(all), values, n) || !is_open(nt))       \
            return NULL;                                                                                                                 \
        return body(nt, n);                                                                                                              \
    }

static PyObject *let_pass(struct nt *nt, const uint64_t *n)
{
    return none_or(nt_tick(nt, n[0]));
}
READER(tick, let_pass, PARAMETER(moment, U64))

/* The value that was read, None where there is none, or a refusal. */
static PyObject *value_or_none(uint32_t error, uint64_t value)
{
    if (error == NT_ERROR_NO_MORE_ITEMS)
        Py_RETURN_NONE;
    return error ? refuse(error) : unsigned_int(value);
}

static PyObject *next_due(struct nt *nt, const uint64_t *n)
{
    uint64_t moment = 0;
    const uint32_t error = nt_due(nt, n[0], &moment);
    return value_or_none(error, moment);
}
READER(due, next_due, OPTION(up_to, U64, NT_GREATEST_MOMENT))

static PyObject *sleeps_to(struct nt *nt, const uint64_t *n)
{
    uint64_t moment = 0;
    const uint32_t error = nt_pend(nt, WHO, n[1] != 0, &moment);
    return value_or_none(error, moment);
}
READER(pend, sleeps_to, THREAD, OPTION(watches, FLAG, false))

static PyObject *has_woken(struct nt *nt, const uint64_t *n)
{
    return none_or(nt_woke(nt, WHO));
}
READER(woke, has_woken, THREAD)

static PyObject *waits(struct nt *nt, const uint64_t *n)
{
    bool pends = false;
    const uint32_t error = nt_is_waiting(nt, WHO, &pends);
    return error ? refuse(error) : boolean(pends);
}
READER(is_waiting, waits, THREAD)

static PyObject *objects_waited_for(struct nt *nt, uint32_t thread, size_t count)
{
    PyObject *objects = PyTuple_New((Py_ssize_t)count);
    for (size_t at = 0; objects && at < count; at++) {
        uint32_t object = 0;
        nt_waited_object(nt, thread, at, &object);
        PyObject *number = unsigned_int(object);
        if (!number)
            Py_CLEAR(objects);
        else
            PyTuple_SetItem(objects, (Py_ssize_t)at, number);
    }
    return objects;
}

static PyObject *pending_wait(struct nt *nt, const uint64_t *n)
{
    struct nt_pending_wait wait;
    const uint32_t error = nt_waits_for(nt, WHO, &wait);
    if (error == NT_ERROR_NO_MORE_ITEMS)
        Py_RETURN_NONE;
    if (error)
        return refuse(error);
    return RECORD(wait_type, objects_waited_for(nt, WHO, wait.count), boolean(wait.all), boolean(wait.alertable), optional(wait.timed, wait.deadline));
}
READER(wait_of, pending_wait, THREAD)

static PyObject *named_by(struct nt *nt, const uint64_t *n)
{
    struct nt_opened it;
    const uint32_t error = nt_opened(nt, WHO, &it);
    return error ? refuse(error) : RECORD(opened_type, unsigned_int(it.object), PyObject_CallFunction(access_class, "I", it.access));
}
READER(opened, named_by, PARAMETER(handle, U32))

static PyObject *object_with_number(struct nt *nt, const uint64_t *n)
{
    struct nt_object it;
    const uint32_t error = nt_object(nt, WHO, &it);
    if (error)
        return refuse(error);
    return RECORD(object_type, PyObject_CallFunction(kind_class, "I", it.kind), boolean(it.manual), boolean(it.set), optional(it.owned, it.owner), unsigned_int(it.depth),
                  boolean(it.abandoned), PyLong_FromLong(it.count), PyLong_FromLong(it.maximum), optional(it.armed, it.due),
                  unsigned_int(it.period));
}
READER(object, object_with_number, PARAMETER(number, U32))

static PyObject *leaves_its_place(struct nt *nt, const uint64_t *n)
{
    return none_or(nt_set_aside(nt, WHO));
}
READER(set_aside, leaves_its_place, THREAD)

static PyObject *begin(PyObject *self, PyObject *nothing)
{
    struct nt *const nt = &((Dispatcher *)self)->nt;
    struct nt_begun it;
    (void)nothing;
    if (!is_open(nt))
        return NULL;
    const uint32_t error = nt_begin(nt, &it);
    return error ? refuse(error) : RECORD(begun_type, unsigned_int(it.thread), unsigned_int(it.handle));
}

static PyObject *give_again(PyObject *self, PyObject *nothing)
{
    struct nt *const nt = &((Dispatcher *)self)->nt;
    (void)nothing;
    return is_open(nt) ? none_or(nt_give_again(nt)) : NULL;
}

/* A list of all that `one` gives from the index 0 on, until it gives NULL with no exception. */
static PyObject *listed(struct nt *nt, PyObject *(*one)(struct nt *, size_t))
{
    PyObject *list = is_open(nt) ? PyList_New(0) : NULL, *it = NULL;
    for (size_t at = 0; list && (it = one(nt, at)) != NULL; at++) {
        if (PyList_Append(list, it))
            Py_CLEAR(list);
        Py_DECREF(it);
    }
    if (list && PyErr_Occurred())
        Py_CLEAR(list);
    return list;
}

static PyObject *grant_at(struct nt *nt, size_t index)
{
    struct nt_grant it;
    if (nt_grant(nt, index, &it))
        return NULL;
    return RECORD(grant_type, unsigned_int(it.thread), status_of(it.status));
}

static PyObject *told_at(struct nt *nt, size_t index)
{
    struct nt_told it;
    if (nt_told(nt, index, &it))
        return NULL;
    PyObject *status = it.called ? (Py_INCREF(Py_None), Py_None) : status_of(it.status);
    return RECORD(told_type, unsigned_int(it.thread), status);
}

static PyObject *get_grants(PyObject *self, void *nothing)
{
    (void)nothing;
    return listed(&((Dispatcher *)self)->nt, grant_at);
}

static PyObject *get_told(PyObject *self, void *nothing)
{
    (void)nothing;
    return listed(&((Dispatcher *)self)->nt, told_at);
}

/* A reader of one number, which this call writes. */
#define NUMBER(name, type, call)                                                                                                         \
    static PyObject *name(PyObject *self, void *nothing)                                                                                 \
    {                                                                                                                                    \
        struct nt *const nt = &((Dispatcher *)self)->nt;                                                                                 \
        type number = 0;                                                                                                                 \
        (void)nothing;                                                                                                                   \
        if (!is_open(nt))                                                                                                                \
            return NULL;                                                                                                                 \
        const uint32_t error = call(nt, &number);                                                                                        \
        return error ? refuse(error) : unsigned_int(number);                                                                             \
    }

NUMBER(get_now, uint64_t, nt_now)
NUMBER(get_pending, size_t, nt_pending)
NUMBER(get_tested, uint64_t, nt_tested)

static PyObject *get_threads(PyObject *self, void *nothing)
{
    (void)nothing;
    return unsigned_int(((Dispatcher *)self)->threads);
}

static PyObject *get_closed(PyObject *self, void *nothing)
{
    (void)nothing;
    return boolean(!((Dispatcher *)self)->nt.live);
}

/* ---- Why threads wait */

/* Marks these threads. False with an exception if one of them is no number. A number past the last thread marks none. */
static bool mark(PyObject *threads, bool *marks, size_t count)
{
    static const struct parameter thread = THREAD;
    PyObject *all = PySequence_Tuple(threads);
    bool done = all != NULL;
    for (Py_ssize_t at = 0; done && at < PyTuple_Size(all); at++) {
        uint64_t number;
        done = convert(&thread, PyTuple_GetItem(all, at), &number);
        if (done && number < count)
            marks[number] = true;
    }
    Py_XDECREF(all);
    return done;
}

static PyObject *marked(const bool *marks, size_t count)
{
    PyObject *list = PyList_New(0);
    for (size_t at = 0; list && at < count; at++) {
        PyObject *number = marks[at] ? unsigned_int(at) : NULL;
        if (marks[at] && (!number || PyList_Append(list, number)))
            Py_CLEAR(list);
        Py_XDECREF(number);
    }
    PyObject *tuple = list ? PyList_AsTuple(list) : NULL;
    Py_XDECREF(list);
    return tuple;
}

static PyObject *call_why(PyObject *self, PyObject *const *args, Py_ssize_t given, PyObject *names)
{
    static const struct parameter all[] = {OPTION(over, U32, 0), OPTION(up_to, U64, NT_GREATEST_MOMENT)};
    bool over[NT_MANY_THREADS] = {false}, knot[NT_MANY_THREADS] = {false};
    PyObject *values[COUNT(all)];
    uint64_t n[COUNT(all)];
    struct nt *const nt = &((Dispatcher *)self)->nt;
    const size_t threads = ((Dispatcher *)self)->threads;
    struct nt_why it;
    if (!arrange("why", all, COUNT(all), args, given, names, values))
        return NULL;
    PyObject *const ended = values[0];
    values[0] = NULL;
    if (!read_all(all, COUNT(all), values, n))
        return NULL;
    if ((ended && !mark(ended, over, threads)) || !is_open(nt))
        return NULL;
    const uint32_t error = nt_why(nt, over, threads, n[1], &it, knot, threads);
    if (error)
        return refuse(error);
    return RECORD(why_type, boolean(it.stuck), marked(knot, threads), optional(it.due, it.next));
}

/* ---- A dispatcher comes and goes */

/* A dispatcher with room of its own, and nothing in it yet. */
static Dispatcher *with_room(PyTypeObject *type)
{
    Dispatcher *made = (Dispatcher *)PyType_GenericAlloc(type, 0);
    if (!made)
        return NULL;
    made->nt.room = aligned_alloc(16, (nt_room() + 15) / 16 * 16);
    if (made->nt.room)
        return made;
    Py_DECREF(made);
    PyErr_NoMemory();
    return NULL;
}

static PyObject *dispatcher_new(PyTypeObject *type, PyObject *args, PyObject *named)
{
    static char *names[] = {"threads", "lasting", NULL};
    static const struct parameter threads = PARAMETER(threads, U32);
    PyObject *given = NULL;
    int lasting = 0;
    uint64_t count;
    if (!PyArg_ParseTupleAndKeywords(args, named, "O|$p:Dispatcher", names, &given, &lasting) || !convert(&threads, given, &count))
        return NULL;
    Dispatcher *made = with_room(type);
    if (!made)
        return NULL;
    made->threads = (uint32_t)count;
    const uint32_t error = lasting ? nt_open_lasting(&made->nt, made->threads) : nt_open(&made->nt, made->threads);
    if (!error)
        return (PyObject *)made;
    Py_DECREF(made);
    return refuse(error);
}

static PyObject *copy(PyObject *self, PyObject *nothing)
{
    struct nt *const nt = &((Dispatcher *)self)->nt;
    (void)nothing;
    Dispatcher *made = is_open(nt) ? with_room(dispatcher_type) : NULL;
    if (!made)
        return NULL;
    made->threads = ((Dispatcher *)self)->threads;
    const uint32_t error = nt_copy(nt, &made->nt);
    if (!error)
        return (PyObject *)made;
    Py_DECREF(made);
    return refuse(error);
}

static PyObject *close_dispatcher(PyObject *self, PyObject *nothing)
{
    (void)nothing;
    nt_close(&((Dispatcher *)self)->nt);
    Py_RETURN_NONE;
}

static PyObject *enter(PyObject *self, PyObject *nothing)
{
    (void)nothing;
    Py_INCREF(self);
    return self;
}

static PyObject *leave(PyObject *self, PyObject *what)
{
    (void)what;
    return close_dispatcher(self, NULL);
}

static void dispatcher_dealloc(PyObject *self)
{
    PyTypeObject *type = Py_TYPE(self);
    Dispatcher *it = (Dispatcher *)self;
    if (it->nt.room)
        nt_close(&it->nt);
    free(it->nt.room);
    ((freefunc)PyType_GetSlot(type, Py_tp_free))(self);
    Py_DECREF(type);
}

/* ---- The module */

#define FAST(name, page) {#name, (PyCFunction)(void (*)(void))call_##name, METH_FASTCALL | METH_KEYWORDS, page}
#define PLAIN(name, call, page) {name, call, METH_NOARGS, page}

static PyMethodDef methods[] = {
#include "_pages.h"
};

static PyGetSetDef readers[] = {
    {"threads", get_threads, NULL, "How many threads there are; their numbers begin at 0.", NULL},
    {"closed", get_closed, NULL, "Whether the dispatcher is closed.", NULL},
    {"now", get_now, NULL, "The present moment, that of the last tick, in units of 100 ns.", NULL},
    {"pending", get_pending, NULL, "How many waits pend.", NULL},
    {"tested", get_tested, NULL, "How many pending waits the last call or tick looked at.", NULL},
    {"grants", get_grants, NULL, "The waits that the last call or tick ended, in the order in which they ended: a list of Grant.", NULL},
    {"told", get_told, NULL,
     "Whom a driver that blocks its threads wakes: grants, and then perhaps a thread whose status is None, which is to tick and to pend again.", NULL},
    {NULL, NULL, NULL, NULL, NULL},
};

static PyType_Slot slots[] = {
    {Py_tp_doc, "The dispatcher of NT waitable objects, for threads that its user drives: with numbers from 0 on.\n\n"
                "Each method's first argument is the thread that calls. A refused call raises Refused and changes nothing. Handles are ints; thread t\n"
                "has the handle t. Timeouts are in ms, moments in units of 100 ns."},
    {Py_tp_new, dispatcher_new},
    {Py_tp_dealloc, dispatcher_dealloc},
    {Py_tp_methods, methods},
    {Py_tp_getset, readers},
    {0, NULL},
};

static PyType_Spec dispatcher_spec = {"kawhopune.Dispatcher", sizeof(Dispatcher), 0, Py_TPFLAGS_DEFAULT, slots};

#define FIELD(name, page) {#name, page}
#define RECORDS(variable, type, count, page, ...)                                                                                        \
    static PyStructSequence_Field variable##_fields[] = {__VA_ARGS__, {NULL, NULL}};                                                     \
    static PyStructSequence_Desc variable##_desc = {"kawhopune." type, page, variable##_fields, count}

RECORDS(grant, "Grant", 2, "A pending wait that a call or tick ended.", FIELD(thread, "whose wait it was"), FIELD(status, "its Status"));
RECORDS(told, "Told", 2, "What a thread learns while it sleeps.", FIELD(thread, "which thread"), FIELD(status, "its Status; None: it ticks, and pends again"));
RECORDS(apc, "Apc", 3, "An APC.", FIELD(routine, "its routine"), FIELD(argument, "its argument"),
        FIELD(due, "the moment at which its timer was due, in units of 100 ns; None if it is no timer's"));
RECORDS(begun, "Begun", 2, "A thread that began.", FIELD(thread, "its number"), FIELD(handle, "its handle"));
RECORDS(wait, "PendingWait", 4, "What a pending wait waits for.", FIELD(objects, "the numbers of its objects"), FIELD(wait_all, "whether for all"),
        FIELD(alertable, "whether an APC ends it"), FIELD(deadline, "the moment at which it times out, in units of 100 ns, or None"));
RECORDS(object, "ObjectState", 10, "What an object is. Fields that its kind lacks are 0, False or None.", FIELD(kind, "its Kind"),
        FIELD(manual_reset, "of an event or a timer"), FIELD(is_set, "an event or a timer: set; a thread: ended"), FIELD(owner, "of a mutex, or None"),
        FIELD(depth, "of a mutex: how many releases its owner owes"), FIELD(abandoned, "a mutex: its last owner ended while it held it"),
        FIELD(count, "of a semaphore"), FIELD(maximum, "of a semaphore"),
        FIELD(due, "of an armed timer: its due moment, in units of 100 ns, or None"), FIELD(period, "of an armed timer, in ms"));
RECORDS(opened, "Opened", 2, "What a handle names.", FIELD(object, "the object's number"), FIELD(access, "the handle's rights, an Access"));
RECORDS(why, "Why", 3, "Why threads wait.", FIELD(stuck, "nothing can end the waits there are"), FIELD(knot, "the threads that hold each other"),
        FIELD(next, "the next moment at which something is due, in units of 100 ns, or None"));

/* The value of this name in the Python part of the package. */
static PyObject *value_of(PyObject *names, const char *name)
{
    return PyObject_GetAttrString(names, name);
}

static bool find_statuses(PyObject *names)
{
    PyObject *class = value_of(names, "Status");
    for (uint32_t code = 0; class && code < STATUSES; code++) {
        const bool is_one = code < NT_MAXIMUM_WAIT_OBJECTS || code >= NT_WAIT_ABANDONED_0;
        if (is_one && !(statuses[code] = PyObject_CallFunction(class, "I", code)))
            Py_CLEAR(class);
    }
    if (class) {
        io_completion = PyObject_CallFunction(class, "I", NT_WAIT_IO_COMPLETION);
        timeout = PyObject_CallFunction(class, "I", NT_WAIT_TIMEOUT);
    }
    Py_XDECREF(class);
    return class && io_completion && timeout;
}

static bool add_type(PyObject *module, const char *name, PyTypeObject *type)
{
    return type && !PyModule_AddObjectRef(module, name, (PyObject *)type);
}

static bool add_record(PyObject *module, PyTypeObject **type, const char *name, PyStructSequence_Desc *desc)
{
    *type = PyStructSequence_NewType(desc);
    return add_type(module, name, *type);
}

static bool fill(PyObject *module)
{
    PyObject *names = PyImport_ImportModule("kawhopune._names");
    bool done = names && (refused = value_of(names, "refusal")) && (kind_class = value_of(names, "Kind"))
                && (access_class = value_of(names, "Access")) && find_statuses(names);
    Py_XDECREF(names);
    dispatcher_type = done ? (PyTypeObject *)PyType_FromSpec(&dispatcher_spec) : NULL;
    return done && add_type(module, "Dispatcher", dispatcher_type) && add_record(module, &grant_type, "Grant", &grant_desc)
           && add_record(module, &told_type, "Told", &told_desc) && add_record(module, &apc_type, "Apc", &apc_desc)
           && add_record(module, &begun_type, "Begun", &begun_desc) && add_record(module, &wait_type, "PendingWait", &wait_desc)
           && add_record(module, &object_type, "ObjectState", &object_desc) && add_record(module, &opened_type, "Opened", &opened_desc)
           && add_record(module, &why_type, "Why", &why_desc);
}

static struct PyModuleDef definition = {PyModuleDef_HEAD_INIT, "kawhopune._native", NULL, -1, NULL, NULL, NULL, NULL, NULL};

PyMODINIT_FUNC PyInit__native(void)
{
    PyObject *module = PyModule_Create(&definition);
    if (module && !fill(module))
        Py_CLEAR(module);
    return module;
}
