/* The extension of the package: makes the short calls on a heap in about a tenth of a microsecond, which ctypes makes in six to eleven.
 *
 * A method of this file makes its call if nothing is unusual: the heap is open, no other call on it is under way, and each argument is an int that fits. In all
 * other cases, and if the reply is an error, it calls the function of Python that has its name. That function converts arguments, waits for other threads and raises
 * exceptions. It makes the call again, which gets the same reply, because a call that is refused has changed nothing, except what it would write once more.
 *
 * Each method keeps the GIL, so that no other thread begins a call meanwhile. The file is for the limited API of Python 3.10. It is linked with no library: the
 * package passes the addresses of the calls in the library that it has loaded. */
#define PY_SSIZE_T_CLEAN
#include <Python.h>
#include <structmember.h>

#include "gcflip_heap.h"

#define COUNT(row) ((Py_ssize_t)(sizeof(row) / sizeof((row)[0])))

/* ---- The calls of the library, by their names without `gcflip_` */

#define CALLS(X)                                                                                                                               \
    X(heap_new_object) X(heap_new_raw) X(heap_set_number) X(heap_set_nil) X(heap_move) X(heap_root_load) X(heap_root_store) X(heap_get) X(heap_put) \
    X(heap_put_number) X(heap_put_nil) X(heap_new_pair) X(heap_same) X(heap_look) X(new) X(new_raw) X(new_pair) X(gather) X(spread) \
    X(set_number) X(set_nil) X(copy) X(get) X(peek) X(put) X(put_sure) X(fill) X(copy_fields) X(put_number) X(put_nil) X(same) X(look)

#define POINTER(name) __typeof__(gcflip_##name) *name;
static struct {
    CALLS(POINTER)
} calls;

/* ---- The methods of Python, by their classes and names */

#define FUNCTIONS(X)                                                                                                                                 \
    X(Mutator, new) X(Mutator, new_raw) X(Mutator, set_number) X(Mutator, set_nil) X(Mutator, copy) X(Mutator, load) X(Mutator, store) X(Mutator, get) \
    X(Mutator, put) X(Mutator, put_number) X(Mutator, put_nil) X(Mutator, new_pair) X(Mutator, is_same) X(Mutator, look) X(Heap, new) X(Heap, new_raw) \
    X(Heap, new_pair) X(Heap, gather) X(Heap, spread) X(Heap, set_number) X(Heap, set_nil) X(Heap, copy) X(Heap, get) X(Heap, peek) X(Heap, put) \
    X(Heap, put_sure) X(Heap, fill) X(Heap, copy_fields) X(Heap, put_number) X(Heap, put_nil) X(Heap, is_same) X(Heap, look)

#define NUMBERED(of, name) AT_##of##_##name,
enum { FUNCTIONS(NUMBERED) FUNCTION_COUNT };
#define NAMED(of, name) #of "." #name,
static const char *const function_names[] = {FUNCTIONS(NAMED)};
static PyObject *functions[FUNCTION_COUNT];
/* The class of what a look at a reference returns. */
static PyObject *object_class;

/* Calls the function of Python with the arguments of a method. */
static PyObject *by_python(int function, PyObject *self, PyObject *const *given, Py_ssize_t count, PyObject *names)
{
    const Py_ssize_t named = names == NULL ? 0 : PyTuple_Size(names);
    PyObject *const arguments = PyTuple_New(count + 1), *const words = PyDict_New();
    PyObject *result = NULL;
    Py_ssize_t written = 0;
    if (functions[function] == NULL)
        PyErr_SetString(PyExc_RuntimeError, "the functions of Python are not known yet");
    else if (arguments != NULL && words != NULL) {
        for (Py_ssize_t i = 0; i <= count; i++) {
            PyObject *const argument = i == 0 ? self : given[i - 1];
            Py_INCREF(argument);
            PyTuple_SetItem(arguments, i, argument);
        }
        while (written < named && PyDict_SetItem(words, PyTuple_GetItem(names, written), given[count + written]) == 0)
            written++;
        if (written == named)
            result = PyObject_Call(functions[function], arguments, words);
    }
    Py_XDECREF(arguments);
    Py_XDECREF(words);
    return result;
}

/* ---- Objects that make calls */

/* What says that a call on a heap is under way. The class Turn of Python sets it, under its lock. */
typedef struct {
    PyObject_HEAD
    char busy;
} Flag;

/* A heap of Python or one of its mutators. Without a heap each method calls its function of Python. */
typedef struct {
    PyObject_HEAD
    gcflip_heap *heap;
    PyObject *owner; /* keeps the memory of the handle */
    Flag *flag;
    uint8_t mutator;
} Caller;

static PyTypeObject *flag_type;

static PyObject *bind(PyObject *self, PyObject *given)
{
    Caller *const c = (Caller *)self;
    PyObject *owner, *flag;
    unsigned long long address;
    unsigned char mutator;
    if (!PyArg_ParseTuple(given, "OKO!b", &owner, &address, flag_type, &flag, &mutator))
        return NULL;
    if (c->heap != NULL || calls.heap_get == NULL) {
        PyErr_SetString(PyExc_RuntimeError, "a caller is bound once, after the calls are known");
        return NULL;
    }
    Py_INCREF(owner);
    Py_INCREF(flag);
    c->heap = (gcflip_heap *)(uintptr_t)address;
    c->owner = owner;
    c->flag = (Flag *)flag;
    c->mutator = mutator;
    Py_RETURN_NONE;
}

static void free_caller(PyObject *self)
{
    PyTypeObject *const type = Py_TYPE(self);
    const freefunc release = (freefunc)PyType_GetSlot(type, Py_tp_free);
    Py_XDECREF(((Caller *)self)->owner);
    Py_XDECREF((PyObject *)((Caller *)self)->flag);
    release(self);
    Py_DECREF(type);
}

static int is_free(const Caller *c)
{
    return c->heap != NULL && !c->flag->busy;
}

/* Reads arguments that are ints and no more than `most`. Returns 0, without an exception, if there are others. */
static int are_read(PyObject *const *given, Py_ssize_t count, PyObject *names, const uint64_t *most, Py_ssize_t wanted, uint64_t *numbers)
{
    if (names != NULL || count != wanted)
        return 0;
    for (Py_ssize_t i = 0; i < count; i++) {
        if (!PyLong_CheckExact(given[i]))
            return 0;
        numbers[i] = PyLong_AsUnsignedLongLong(given[i]);
        if (numbers[i] == UINT64_MAX && PyErr_Occurred() != NULL) {
            PyErr_Clear();
            return 0;
        }
        if (numbers[i] > most[i])
            return 0;
    }
    return 1;
}

/* ---- Methods */

#define ARGUMENTS PyObject *self, PyObject *const *given, Py_ssize_t count, PyObject *names
#define BYTE UINT8_MAX
#define HALF UINT16_MAX
#define WORD UINT32_MAX
#define LONG UINT64_MAX

/* Begins a method whose call takes numbers up to these. In `made`, c is the caller and n has the numbers. */
#define METHOD(of, name, made, ...)                                                            \
    static PyObject *of##_##name(ARGUMENTS)                                                    \
    {                                                                                          \
        static const uint64_t most[] = {__VA_ARGS__};                                          \
        Caller *const c = (Caller *)self;                                                      \
        uint64_t n[COUNT(most)];                                                               \
        if (is_free(c) && are_read(given, count, names, most, COUNT(most), n)) {               \
            made                                                                               \
        }                                                                                      \
        return by_python(AT_##of##_##name, self, given, count, names);                         \
    }

/* Returns None after this reply. */
#define NONE_AFTER(reply, call) \
    if (call == reply)          \
        Py_RETURN_NONE;

/* Returns the value that a call saw. A get that found a reference does not tell what it refers to, so that the root is looked at. */
#define VALUE_OF(call, looked)                        \
    gcflip_view view = {0, 0, 0};                     \
    uint32_t reply = call;                            \
    if (reply == GCFLIP_OBJECT)                       \
        reply = looked;                               \
    if (reply >= GCFLIP_NIL && reply <= GCFLIP_RAW_OBJECT) \
        return value_of(reply, &view);

#define TRUTH_OF(call)                                 \
    const uint32_t reply = call;                       \
    if (reply == GCFLIP_SAME || reply == GCFLIP_NOT_SAME) \
        return PyBool_FromLong(reply == GCFLIP_SAME);

/* Returns what is seen of a reference: a tuple of the class, made as tuples are, because the class's own function is slow. */
static PyObject *object_of(const gcflip_view *view, PyObject *is_raw)
{
    const newfunc make = (newfunc)PyType_GetSlot(&PyTuple_Type, Py_tp_new);
    PyObject *const parts = Py_BuildValue("((IIO))", view->kind, view->count, is_raw);
    PyObject *const object = parts == NULL ? NULL : make((PyTypeObject *)object_class, parts, NULL);
    Py_XDECREF(parts);
    return object;
}

static PyObject *value_of(uint32_t reply, const gcflip_view *view)
{
    if (reply == GCFLIP_NIL)
        Py_RETURN_NONE;
    if (reply == GCFLIP_NUMBER)
        return PyLong_FromUnsignedLongLong(view->number);
    return object_of(view, reply == GCFLIP_RAW_OBJECT ? Py_True : Py_False);
}

METHOD(Mutator, new, NONE_AFTER(GCFLIP_MADE, calls.heap_new_object(c->heap, c->mutator, n[0], n[1], n[2])), BYTE, BYTE, HALF)
METHOD(Mutator, new_raw, NONE_AFTER(GCFLIP_MADE, calls.heap_new_raw(c->heap, c->mutator, n[0], n[1], n[2])), BYTE, BYTE, HALF)
METHOD(Mutator, set_number, NONE_AFTER(GCFLIP_DONE, calls.heap_set_number(c->heap, c->mutator, n[0], n[1])), BYTE, LONG)
METHOD(Mutator, set_nil, NONE_AFTER(GCFLIP_DONE, calls.heap_set_nil(c->heap, c->mutator, n[0])), BYTE)
METHOD(Mutator, copy, NONE_AFTER(GCFLIP_DONE, calls.heap_move(c->heap, c->mutator, n[0], n[1])), BYTE, BYTE)
METHOD(Mutator, load, NONE_AFTER(GCFLIP_DONE, calls.heap_root_load(c->heap, c->mutator, n[0], n[1])), BYTE, WORD)
METHOD(Mutator, store, NONE_AFTER(GCFLIP_DONE, calls.heap_root_store(c->heap, c->mutator, n[0], n[1])), WORD, BYTE)
METHOD(Mutator, get, VALUE_OF(calls.heap_get(c->heap, c->mutator, n[0], n[1], n[2], &view.number), calls.heap_look(c->heap, c->mutator, n[0], &view)), BYTE, BYTE, HALF)
METHOD(Mutator, put, NONE_AFTER(GCFLIP_DONE, calls.heap_put(c->heap, c->mutator, n[0], n[1], n[2])), BYTE, HALF, BYTE)
METHOD(Mutator, put_number, NONE_AFTER(GCFLIP_DONE, calls.heap_put_number(c->heap, c->mutator, n[0], n[1], n[2], n[3])), BYTE, HALF, BYTE, LONG)
METHOD(Mutator, put_nil, NONE_AFTER(GCFLIP_DONE, calls.heap_put_nil(c->heap, c->mutator, n[0], n[1], n[2])), BYTE, HALF, BYTE)
METHOD(Mutator, new_pair, NONE_AFTER(GCFLIP_MADE, calls.heap_new_pair(c->heap, c->mutator, n[0], n[1], n[2], n[3])), BYTE, BYTE, BYTE, BYTE)
METHOD(Mutator, is_same, TRUTH_OF(calls.heap_same(c->heap, c->mutator, n[0], n[1])), BYTE, BYTE)
METHOD(Mutator, look, VALUE_OF(calls.heap_look(c->heap, c->mutator, n[0], &view), GCFLIP_OBJECT), BYTE)
METHOD(Heap, new, NONE_AFTER(GCFLIP_MADE, calls.new(c->heap, n[0], n[1], n[2])), WORD, WORD, WORD)
METHOD(Heap, new_raw, NONE_AFTER(GCFLIP_MADE, calls.new_raw(c->heap, n[0], n[1], n[2])), WORD, WORD, WORD)
METHOD(Heap, new_pair, NONE_AFTER(GCFLIP_MADE, calls.new_pair(c->heap, n[0], n[1], n[2], n[3], n[4])), WORD, WORD, WORD, WORD, WORD)
METHOD(Heap, gather, NONE_AFTER(GCFLIP_MADE, calls.gather(c->heap, n[0], n[1], n[2], n[3], n[4])), WORD, WORD, WORD, WORD, WORD)
METHOD(Heap, spread, NONE_AFTER(GCFLIP_DONE, calls.spread(c->heap, n[0], n[1], n[2])), WORD, WORD, WORD)
METHOD(Heap, set_number, NONE_AFTER(GCFLIP_DONE, calls.set_number(c->heap, n[0], n[1])), WORD, LONG)
METHOD(Heap, set_nil, NONE_AFTER(GCFLIP_DONE, calls.set_nil(c->heap, n[0])), WORD)
METHOD(Heap, copy, NONE_AFTER(GCFLIP_DONE, calls.copy(c->heap, n[0], n[1])), WORD, WORD)
METHOD(Heap, get, VALUE_OF(calls.get(c->heap, n[0], n[1], n[2], &view.number), calls.look(c->heap, n[0], &view)), WORD, WORD, WORD)
METHOD(Heap, peek, VALUE_OF(calls.peek(c->heap, n[0], n[1], &view), GCFLIP_OBJECT), WORD, WORD)
METHOD(Heap, put, NONE_AFTER(GCFLIP_DONE, calls.put(c->heap, n[0], n[1], n[2], n[3])), WORD, WORD, WORD, WORD)
METHOD(Heap, put_sure, NONE_AFTER(GCFLIP_DONE, calls.put_sure(c->heap, n[0], n[1], n[2], n[3])), WORD, WORD, WORD, WORD)
METHOD(Heap, fill, NONE_AFTER(GCFLIP_DONE, calls.fill(c->heap, n[0], n[1], n[2], n[3], n[4])), WORD, WORD, WORD, WORD, WORD)
METHOD(Heap, copy_fields, NONE_AFTER(GCFLIP_DONE, calls.copy_fields(c->heap, n[0], n[1], n[2], n[3], n[4], n[5])), WORD, WORD, WORD, WORD, WORD, WORD)
METHOD(Heap, put_number, NONE_AFTER(GCFLIP_DONE, calls.put_number(c->heap, n[0], n[1], n[2], n[3])), WORD, WORD, WORD, LONG)
METHOD(Heap, put_nil, NONE_AFTER(GCFLIP_DONE, calls.put_nil(c->heap, n[0], n[1], n[2])), WORD, WORD, WORD)
METHOD(Heap, is_same, TRUTH_OF(calls.same(c->heap, n[0], n[1])), WORD, WORD)
METHOD(Heap, look, VALUE_OF(calls.look(c->heap, n[0], &view), GCFLIP_OBJECT), WORD)

#define DEFINED(of, name) {#name, (PyCFunction)(void (*)(void))of##_##name, METH_FASTCALL | METH_KEYWORDS, "The same as the method of Python, which has the documents."}
#define LAST {NULL, NULL, 0, NULL}

static PyMethodDef of_mutators[] = {DEFINED(Mutator, new), DEFINED(Mutator, new_raw), DEFINED(Mutator, set_number), DEFINED(Mutator, set_nil), DEFINED(Mutator, copy),
                                    DEFINED(Mutator, load), DEFINED(Mutator, store), DEFINED(Mutator, get), DEFINED(Mutator, put), DEFINED(Mutator, put_number),
                                    DEFINED(Mutator, put_nil), DEFINED(Mutator, new_pair), DEFINED(Mutator, is_same), DEFINED(Mutator, look), LAST};
static PyMethodDef of_heaps[] = {DEFINED(Heap, new), DEFINED(Heap, new_raw), DEFINED(Heap, new_pair), DEFINED(Heap, gather), DEFINED(Heap, spread), DEFINED(Heap, set_number),
                                 DEFINED(Heap, set_nil), DEFINED(Heap, copy), DEFINED(Heap, get), DEFINED(Heap, peek), DEFINED(Heap, put), DEFINED(Heap, put_sure), DEFINED(Heap, fill), DEFINED(Heap, copy_fields), DEFINED(Heap, put_number),
                                 DEFINED(Heap, put_nil), DEFINED(Heap, is_same), DEFINED(Heap, look), LAST};
static PyMethodDef of_callers[] = {{"_bind", bind, METH_VARARGS, "_bind(owner, address, flag, mutator): names the handle, and what says that it is in use."}, LAST};

/* ---- The module */

/* Takes the address of each call, by its name. */
static PyObject *begin(PyObject *module, PyObject *addresses)
{
    void *found[sizeof calls / sizeof(void *)];
    size_t taken = 0;
    (void)module;
#define FOUND(name)                                                                \
    {                                                                              \
        PyObject *const address = PyMapping_GetItemString(addresses, #name);       \
        found[taken++] = address == NULL ? NULL : PyLong_AsVoidPtr(address);       \
        Py_XDECREF(address);                                                       \
        if (PyErr_Occurred() != NULL)                                              \
            return NULL;                                                           \
    }
    CALLS(FOUND)
    memcpy(&calls, found, sizeof calls);
    Py_RETURN_NONE;
}

/* Takes the methods of Python by their classes and names, and the class of objects. */
static PyObject *defer(PyObject *module, PyObject *given)
{
    PyObject *by_name, *class_of_objects;
    (void)module;
    if (!PyArg_ParseTuple(given, "OO", &by_name, &class_of_objects))
        return NULL;
    for (int i = 0; i < FUNCTION_COUNT; i++) {
        PyObject *const function = PyMapping_GetItemString(by_name, function_names[i]);
        if (function == NULL)
            return NULL;
        Py_XDECREF(functions[i]);
        functions[i] = function;
    }
    Py_INCREF(class_of_objects);
    Py_XDECREF(object_class);
    object_class = class_of_objects;
    Py_RETURN_NONE;
}

#define CALL_NAME(name) #name,

/* Returns a row of names as a tuple. */
static PyObject *tuple_of(const char *const *names, Py_ssize_t count)
{
    PyObject *const row = PyTuple_New(count);
    for (Py_ssize_t i = 0; row != NULL && i < count; i++)
        PyTuple_SetItem(row, i, PyUnicode_FromString(names[i]));
    return row;
}

static PyMemberDef flag_members[] = {{"busy", T_BOOL, offsetof(Flag, busy), 0, "whether a call is under way"}, {NULL, 0, 0, 0, NULL}};
static PyType_Slot flag_slots[] = {{Py_tp_members, flag_members}, {0, NULL}};
static PyType_Spec flag_spec = {"gcflip._quick.Flag", sizeof(Flag), 0, Py_TPFLAGS_DEFAULT | Py_TPFLAGS_BASETYPE, flag_slots};
static PyType_Slot caller_slots[] = {{Py_tp_methods, of_callers}, {Py_tp_dealloc, free_caller}, {0, NULL}};
static PyType_Spec caller_spec = {"gcflip._quick.Caller", sizeof(Caller), 0, Py_TPFLAGS_DEFAULT | Py_TPFLAGS_BASETYPE, caller_slots};
static PyType_Slot slots_slots[] = {{Py_tp_methods, of_mutators}, {Py_tp_dealloc, free_caller}, {0, NULL}};
static PyType_Spec slots_spec = {"gcflip._quick.Slots", sizeof(Caller), 0, Py_TPFLAGS_DEFAULT | Py_TPFLAGS_BASETYPE, slots_slots};
static PyType_Slot roots_slots[] = {{Py_tp_methods, of_heaps}, {Py_tp_dealloc, free_caller}, {0, NULL}};
static PyType_Spec roots_spec = {"gcflip._quick.Roots", sizeof(Caller), 0, Py_TPFLAGS_DEFAULT | Py_TPFLAGS_BASETYPE, roots_slots};

static PyMethodDef of_module[] = {{"begin", begin, METH_O, "begin(addresses): takes the addresses of the calls in CALLS."},
                                  {"defer", defer, METH_VARARGS, "defer(functions, class): takes the functions in FUNCTIONS, and the class of what a look returns."}, LAST};
static PyModuleDef definition = {PyModuleDef_HEAD_INIT, "_quick", "Short calls on a heap.", -1, of_module, NULL, NULL, NULL, NULL};

/* Adds a value to the module. Returns 0 if there is none, or if it cannot be added. */
static int is_added(PyObject *module, const char *name, PyObject *value)
{
    if (value != NULL && PyModule_AddObject(module, name, value) == 0)
        return 1;
    Py_XDECREF(value);
    return 0;
}

PyMODINIT_FUNC PyInit__quick(void)
{
    static const char *const call_names[] = {CALLS(CALL_NAME)};
    PyObject *const module = PyModule_Create(&definition);
    PyObject *caller;
    if (module == NULL)
        return NULL;
    flag_type = (PyTypeObject *)PyType_FromSpec(&flag_spec);
    caller = PyType_FromSpec(&caller_spec);
    if (is_added(module, "Flag", (PyObject *)flag_type) && is_added(module, "Caller", caller) && is_added(module, "Slots", PyType_FromSpecWithBases(&slots_spec, caller))
        && is_added(module, "Roots", PyType_FromSpecWithBases(&roots_spec, caller)) && is_added(module, "CALLS", tuple_of(call_names, COUNT(call_names)))
        && is_added(module, "FUNCTIONS", tuple_of(function_names, FUNCTION_COUNT)))
        return module;
    Py_DECREF(module);
    return NULL;
}
