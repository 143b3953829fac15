/* Sequences of every kind: what is one, how items are read, lists of items, and the choice of an item. */
#include "native.h"

/* ---- Sequences of every kind. ---- */

/* The flags of built-in types that say that they are sequences. Python 3.9 does not have them. */
#ifdef Py_TPFLAGS_SEQUENCE
#define DECLARED (Py_TPFLAGS_SEQUENCE | Py_TPFLAGS_IMMUTABLETYPE)
#define IS_DECLARED(type) (((type)->tp_flags & DECLARED) == DECLARED)
#else
#define IS_DECLARED(type) ((type) == &PyTuple_Type || (type) == &PyRange_Type || (type) == &PyMemoryView_Type)
#endif

int is_built_in(PyObject *value)
{
    const PyTypeObject *type = Py_TYPE(value);
    return type == &PyList_Type || type == &PyUnicode_Type || type == &PyBytes_Type || type == &PyByteArray_Type
        || IS_DECLARED(type);
}

static int has_length(const PyTypeObject *type)
{
    const PySequenceMethods *sequence = type->tp_as_sequence;
    const PyMappingMethods *mapping = type->tp_as_mapping;
    return (sequence != NULL && sequence->sq_length != NULL) || (mapping != NULL && mapping->mp_length != NULL);
}

static int has_items(const PyTypeObject *type)
{
    const PySequenceMethods *sequence = type->tp_as_sequence;
    const PyMappingMethods *mapping = type->tp_as_mapping;
    return (sequence != NULL && sequence->sq_item != NULL) || (mapping != NULL && mapping->mp_subscript != NULL);
}

/* Sets and mappings are no sequences, even if they have a length and items by index. */
static int require(PyObject *self, const char *name, PyObject *value, int seems, const char *wanted)
{
    int other = seems ? is_unordered(self, value) : 1;
    if (other == 1) {
        PyErr_Format(PyExc_TypeError, "%s is a %s, not %s", name, type_name(value), wanted);
    }
    return other == 0 ? 0 : -1;
}

int require_sequence(PyObject *self, const char *name, PyObject *value)
{
    if (is_built_in(value)) {
        return 0;
    }
    return require(self, name, value, has_length(Py_TYPE(value)) && has_items(Py_TYPE(value)), "a sequence");
}

int is_mutable(PyObject *value)
{
    PyObject *found = PyObject_GetAttrString((PyObject *)Py_TYPE(value), "__setitem__");
    if (found == NULL && PyErr_ExceptionMatches(PyExc_AttributeError)) {
        PyErr_Clear();
        return 0;
    }
    Py_XDECREF(found);
    return found == NULL ? -1 : 1;
}

int require_mutable(PyObject *self, const char *name, PyObject *value)
{
    int seems = has_length(Py_TYPE(value)) ? is_mutable(value) : 0;
    return seems < 0 ? -1 : require(self, name, value, seems, "a sequence whose items can be replaced");
}

/* ---- Items. Reading one may call into Python, which can change a list, so each index is checked again. ---- */

/* An index that is an object. The items of a type that is not built-in may depend on it: those of an mmap do. */
static PyObject *item_by_index(PyObject *items, Py_ssize_t place)
{
    PyObject *index = PyLong_FromSsize_t(place);
    PyObject *item = index == NULL ? NULL : PyObject_GetItem(items, index);
    Py_XDECREF(index);
    return item;
}

static ssizeargfunc reader_of(PyObject *items)
{
    return is_built_in(items) ? PySequence_GetItem : item_by_index;
}

PyObject *item_at(PyObject *items, size_t place)
{
    return reader_of(items)(items, (Py_ssize_t)place);
}

/* ---- Lists. ---- */

void *new_array(uint64_t count, size_t size)
{
    void *made = count > PY_SSIZE_T_MAX / size ? NULL : PyMem_Malloc(count * size);
    if (made == NULL) {
        PyErr_NoMemory();
    }
    return made;
}

/* Appends item number i, whose reference it takes. Returns -1 if the item is NULL or if a signal handler raised. */
static int append(PyObject *list, size_t i, PyObject *item)
{
    int added = item == NULL ? -1 : PyList_Append(list, item);
    Py_XDECREF(item);
    return added < 0 ? -1 : check_signals(i);
}

PyObject *first_items(PyObject *items, size_t count)
{
    const ssizeargfunc read = reader_of(items);
    PyObject *list = PyList_New(0);
    for (size_t i = 0; list != NULL && i < count; i++) {
        if (append(list, i, read(items, (Py_ssize_t)i)) < 0) {
            Py_CLEAR(list);
        }
    }
    return list;
}

static PyObject *items_at(PyObject *items, const size_t *places, size_t count)
{
    const ssizeargfunc read = reader_of(items);
    PyObject *list = PyList_New(0);
    for (size_t i = 0; list != NULL && i < count; i++) {
        if (append(list, i, read(items, (Py_ssize_t)places[i])) < 0) {
            Py_CLEAR(list);
        }
    }
    return list;
}

PyObject *numbers_of(const size_t *numbers, size_t count)
{
    PyObject *list = PyList_New(0);
    for (size_t i = 0; list != NULL && i < count; i++) {
        if (append(list, i, PyLong_FromSize_t(numbers[i])) < 0) {
            Py_CLEAR(list);
        }
    }
    return list;
}

/* Items that are read by Python code may draw from the same generator, so the turn ends before that. */
PyObject *end_with_list(Generator *rng, Draw *draw, PyObject *items, const size_t *places, size_t count)
{
    if (items != NULL && !is_built_in(items)) {
        end_turn(rng, &draw->turn);
    }
    PyObject *list = items == NULL ? numbers_of(places, count) : items_at(items, places, count);
    end_draw(rng, draw, list == NULL);
    return list;
}

/* ---- Choices. ---- */

static PyObject *call_choice(PyObject *self, PyObject *const *given, Py_ssize_t placed, PyObject *names)
{
    static const Parameters wanted = {"choice", 1, 1, 1, {"items"}};
    Generator *rng = (Generator *)self;
    PyObject *items;
    if (take_arguments(&wanted, given, placed, names, &items) < 0 || require_sequence(self, "items", items) < 0) {
        return NULL;
    }
    Py_ssize_t length = PyObject_Size(items);
    if (length == 0) {
        raise_text("EmptyRange", "items is empty");
    }
    if (length <= 0 || ready(rng) < 0) {
        return NULL;
    }
    Saved before;
    uint64_t place;
    keep_state(rng, &before);
    nanorand_status status = rng->kind->range_u64(rng->state, 0, (uint64_t)length - 1, &place);
    if (status != NANORAND_OK) {
        raise_status(status);
        return NULL;
    }
    PyObject *item = item_at(items, place);
    if (item == NULL) {
        restore_state(rng, &before);
    }
    return item;
}

/* ---- The methods. ---- */

PyDoc_STRVAR(choice_doc,
"choice($self, /, items)\n"
"--\n"
"\n"
"Return a random item of a sequence. Each item is chosen by the same number of words.\n"
"\n"
"Raises\n"
"------\n"
"EmptyRange\n"
"    If the sequence is empty. Nothing was drawn.\n"
"Exhausted\n"
"    If 128 words (random integers of 64 bits) in a row were rejected. They stay consumed.\n"
"\n"
"Examples\n"
"--------\n"
">>> from nanorand import WyRand\n"
">>> WyRand.seed_from_u64(42).choice(\"abcdefghij\")\n"
"'d'\n"
">>> WyRand.seed_from_u64(42).choice([])\n"
"Traceback (most recent call last):\n"
"nanorand.errors.EmptyRange: items is empty\n");

PyMethodDef sequence_calls[] = {
    {"choice", CALL(call_choice), METH_FASTCALL | METH_KEYWORDS, choice_doc},
    {NULL, NULL, 0, NULL},
};
