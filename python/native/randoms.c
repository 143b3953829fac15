/*
 * The base class of nanorand.randoms: a `random.Random` that draws from a generator.
 *
 * An object is that of `random.Random`, followed by a pointer to the generator. Python visits and clears this pointer
 * like an entry of `__slots__`.
 */
#include "native.h"

#include <structmember.h>

/* The offset of the pointer in an object, which is the size of a `random.Random`. */
static Py_ssize_t place;

static PyObject **slot_of(PyObject *self)
{
    return (PyObject **)((char *)self + place);
}

/* Returns the generator, ready to draw, as a new reference, since another thread may assign another generator. */
static Generator *ready_generator(PyObject *self)
{
    PyObject *found = *slot_of(self);
    if (found == NULL) {
        PyErr_Format(PyExc_AttributeError, "%s has no generator", type_name(self));
        return NULL;
    }
    Py_INCREF(found);
    if (ready((Generator *)found) < 0) {
        Py_CLEAR(found);
    }
    return (Generator *)found;
}

/* ---- Draws. ---- */

static PyObject *call_random(PyObject *self, PyObject *Py_UNUSED(nothing))
{
    Generator *rng = ready_generator(self);
    if (rng == NULL) {
        return NULL;
    }
    uint64_t word = rng->kind->u64(rng->state);
    Py_DECREF(rng);
    return PyFloat_FromDouble(unit_of(word));
}

/* Draws a number of at most eight bytes, in little-endian order. If requests join, exactly these bytes are taken. */
static uint64_t draw_word(Generator *rng, size_t bytes)
{
    if (rng->kind->block_length != 0) {
        return bytes == 0 ? 0 : rng->kind->u64(rng->state) << (64 - 8 * bytes) >> (64 - 8 * bytes);
    }
    uint64_t word = 0;
    rng->kind->fill_bytes(rng->state, (uint8_t *)&word, bytes);
    return word;
}

/* Returns the number of the next bytes, in little-endian order, without its `unused` lowest bits. */
static PyObject *draw_number(Generator *rng, uint64_t bytes, unsigned unused)
{
    Saved before;
    keep_state(rng, &before);
    PyObject *drawn = draw_bytes(rng, bytes);
    PyObject *number =
        drawn == NULL ? NULL : PyObject_CallMethod((PyObject *)&PyLong_Type, "from_bytes", "Os", drawn, "little");
    PyObject *width = number == NULL ? NULL : PyLong_FromUnsignedLong(unused);
    PyObject *upper = width == NULL ? NULL : PyNumber_Rshift(number, width);
    if (drawn != NULL && upper == NULL) {
        restore_state(rng, &before);
    }
    Py_XDECREF(drawn);
    Py_XDECREF(number);
    Py_XDECREF(width);
    return upper;
}

static PyObject *call_getrandbits(PyObject *self, PyObject *const *given, Py_ssize_t placed, PyObject *names)
{
    static const Parameters wanted = {"getrandbits", 1, 1, 1, {"k"}};
    PyObject *value;
    uint64_t bits;
    if (take_arguments(&wanted, given, placed, names, &value) < 0 || take_u64("k", value, UINT64_MAX, &bits) < 0) {
        return NULL;
    }
    Generator *rng = ready_generator(self);
    if (rng == NULL) {
        return NULL;
    }
    const uint64_t bytes = bits / 8 + (bits % 8 != 0);
    const unsigned unused = (unsigned)(8 * bytes - bits);
    PyObject *number = bits <= 64 ? PyLong_FromUnsignedLongLong(draw_word(rng, bytes) >> unused)
                                  : draw_number(rng, bytes, unused);
    Py_DECREF(rng);
    return number;
}

static PyObject *call_randbytes(PyObject *self, PyObject *const *given, Py_ssize_t placed, PyObject *names)
{
    static const Parameters wanted = {"randbytes", 1, 1, 1, {"n"}};
    PyObject *value;
    uint64_t length;
    if (take_arguments(&wanted, given, placed, names, &value) < 0
        || take_u64("n", value, PY_SSIZE_T_MAX, &length) < 0) {
        return NULL;
    }
    Generator *rng = ready_generator(self);
    PyObject *drawn = rng == NULL ? NULL : draw_bytes(rng, length);
    Py_XDECREF(rng);
    return drawn;
}

/* ---- The generator. ---- */

/* Returns the class of the generators that a class draws from. */
static PyObject *kind_of(PyTypeObject *type)
{
    PyObject *kind = PyObject_GetAttrString((PyObject *)type, "_kind");
    if (kind == NULL && PyErr_ExceptionMatches(PyExc_AttributeError)) {
        PyErr_Format(PyExc_TypeError, "%s cannot be instantiated: use one of its subclasses", name_of(type));
    }
    return kind;
}

/* Ignores the arguments, which are for `__init__`: a subclass may take any. */
static PyObject *make_random(PyTypeObject *type, PyObject *Py_UNUSED(placed), PyObject *Py_UNUSED(named))
{
    PyObject *kind = kind_of(type);
    if (kind == NULL) {
        return NULL;
    }
    Py_DECREF(kind);
    return type->tp_alloc(type, 0);
}

static PyObject *get_generator(PyObject *self, void *Py_UNUSED(closure))
{
    PyObject *rng = *slot_of(self);
    if (rng == NULL) {
        PyErr_Format(PyExc_AttributeError, "%s has no generator", type_name(self));
    }
    Py_XINCREF(rng);
    return rng;
}

/* Assigns another generator of the same kind. */
static int put_generator(PyObject *self, PyObject *value, void *Py_UNUSED(closure))
{
    if (value == NULL) {
        PyErr_SetString(PyExc_AttributeError, "generator cannot be deleted");
        return -1;
    }
    PyObject *kind = take_generator("generator", value) == NULL ? NULL : kind_of(Py_TYPE(self));
    int fits = kind == NULL ? -1 : PyObject_IsInstance(value, kind);
    Py_XDECREF(kind);
    if (fits == 0) {
        PyErr_Format(PyExc_TypeError, "generator is a %s, which %s does not draw from", type_name(value),
                     type_name(self));
    }
    if (fits != 1) {
        return -1;
    }
    /* What `gauss` has kept was made from the words of the generator before. */
    if (PyObject_SetAttrString(self, "gauss_next", Py_None) < 0) {
        return -1;
    }
    PyObject *before = *slot_of(self);
    Py_INCREF(value);
    *slot_of(self) = value;
    Py_XDECREF(before);
    return 0;
}

/* ---- The class. ---- */

PyDoc_STRVAR(base_doc,
"A `random.Random` that draws from `generator`.");

PyDoc_STRVAR(generator_doc,
"The generator that is drawn from. Another generator of the same kind can be assigned, which also drops\n"
"what `gauss` has kept.\n"
"\n"
"Examples\n"
"--------\n"
">>> from nanorand.randoms import WyRandRandom\n"
">>> rng = WyRandRandom(\"seed 42\")\n"
">>> rng.generator\n"
"WyRand(0xd95fc6fdf7c1b745)\n"
">>> rng.getrandbits(64) == rng.generator.u64()\n"
"False\n");

PyDoc_STRVAR(random_doc,
"random($self, /)\n"
"--\n"
"\n"
"Return a random float in [0.0, 1.0): the upper 53 bits of the next `u64`, times 2^-53.\n"
"\n"
"Examples\n"
"--------\n"
">>> from nanorand.randoms import WyRandRandom\n"
">>> WyRandRandom(\"seed 42\").random()\n"
"0.9299481829706302\n");

PyDoc_STRVAR(getrandbits_doc,
"getrandbits($self, /, k)\n"
"--\n"
"\n"
"Return a random integer of `k` bits: the upper `k` bits of the next `k` / 8 bytes, rounded up, in\n"
"little-endian order.\n"
"\n"
"Raises\n"
"------\n"
"OutOfBounds\n"
"    If `k` is negative, or 2^64 or more.\n"
"\n"
"Examples\n"
"--------\n"
">>> from nanorand import WyRand\n"
">>> from nanorand.randoms import WyRandRandom\n"
">>> rng = WyRandRandom(\"seed 42\")\n"
">>> same = rng.generator.copy()\n"
">>> rng.getrandbits(8) == same.bytes(1)[0]\n"
"True\n");

PyDoc_STRVAR(randbytes_doc,
"randbytes($self, /, n)\n"
"--\n"
"\n"
"Return the next `n` bytes of the generator.\n"
"\n"
"Raises\n"
"------\n"
"OutOfBounds\n"
"    If `n` is negative, or greater than `sys.maxsize`.\n"
"\n"
"Examples\n"
"--------\n"
">>> from nanorand import WyRand\n"
">>> from nanorand.randoms import WyRandRandom\n"
">>> rng = WyRandRandom(\"seed 42\")\n"
">>> same = rng.generator.copy()\n"
">>> rng.randbytes(9) == same.bytes(9)\n"
"True\n");

static PyMethodDef calls[] = {
    {"random", call_random, METH_NOARGS, random_doc},
    {"getrandbits", CALL(call_getrandbits), METH_FASTCALL | METH_KEYWORDS, getrandbits_doc},
    {"randbytes", CALL(call_randbytes), METH_FASTCALL | METH_KEYWORDS, randbytes_doc},
    {NULL, NULL, 0, NULL},
};

static PyGetSetDef parts[] = {
    {"generator", get_generator, put_generator, generator_doc, NULL},
    {NULL, NULL, NULL, NULL, NULL},
};

/* The name of the slot is deleted: through it, Python code could assign any object. */
static int add_base(PyObject *module, PyObject *random_class)
{
    place = ((PyTypeObject *)random_class)->tp_basicsize;
    PyMemberDef members[] = {
        {"_generator", T_OBJECT_EX, place, 0, NULL},
        {NULL, 0, 0, 0, NULL},
    };
    PyType_Slot slots[] = {
        {Py_tp_doc, SLOT(base_doc)}, {Py_tp_new, SLOT(make_random)}, {Py_tp_methods, calls},
        {Py_tp_getset, parts},       {Py_tp_members, members},       {0, NULL},
    };
    PyType_Spec spec = {
        "nanorand._native.BaseRandom", (int)(place + (Py_ssize_t)sizeof(PyObject *)), 0,
        Py_TPFLAGS_DEFAULT | Py_TPFLAGS_BASETYPE, slots,
    };
    PyObject *bases = PyTuple_Pack(1, random_class);
    PyObject *base = bases == NULL ? NULL : add_class(module, &spec, bases);
    int added = base == NULL ? -1 : PyObject_DelAttrString(base, "_generator");
    Py_XDECREF(bases);
    Py_XDECREF(base);
    return added;
}

int nanorand_add_randoms(PyObject *module)
{
    PyObject *random_module = PyImport_ImportModule("random");
    PyObject *class = random_module == NULL ? NULL : PyObject_GetAttrString(random_module, "Random");
    int added = class == NULL ? -1 : add_base(module, class);
    Py_XDECREF(random_module);
    Py_XDECREF(class);
    return added;
}
