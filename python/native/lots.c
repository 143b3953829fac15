/* The public draw by lot: the functions that nanorand.lots calls. */
#include "native.h"

/* ---- Checks of arguments: each returns its argument if it is valid. ---- */

static PyObject *check_count(PyObject *Py_UNUSED(module), PyObject *value)
{
    uint64_t count;
    return take_u64("count", value, UINT64_MAX, &count) < 0 ? NULL : PyLong_FromUnsignedLongLong(count);
}

static PyObject *check_seed(PyObject *Py_UNUSED(module), PyObject *value)
{
    return take_octets("seed", value);
}

static PyObject *check_entrants(PyObject *module, PyObject *value)
{
    if (require_sequence(module, "entrants", value) < 0) {
        return NULL;
    }
    Py_INCREF(value);
    return value;
}

/* ---- The functions of the library. ---- */

static PyObject *lots_digest(PyObject *Py_UNUSED(module), PyObject *text)
{
    uint8_t digest[32];
    PyObject *octets = take_octets("text", text);
    if (octets == NULL) {
        return NULL;
    }
    nanorand_lots_digest((const uint8_t *)PyBytes_AS_STRING(octets), (size_t)PyBytes_GET_SIZE(octets), digest);
    Py_DECREF(octets);
    return PyBytes_FromStringAndSize((const char *)digest, sizeof digest);
}

static PyObject *lots_count(PyObject *Py_UNUSED(module), PyObject *text)
{
    size_t number;
    PyObject *octets = take_octets("text", text);
    if (octets == NULL) {
        return NULL;
    }
    const uint8_t *list = (const uint8_t *)PyBytes_AS_STRING(octets);
    nanorand_lots_status status = nanorand_lots_count(list, (size_t)PyBytes_GET_SIZE(octets), &number);
    Py_DECREF(octets);
    if (status == NANORAND_LOTS_EMPTY_LINE) {
        raise_made("EmptyLine", "(n)", (Py_ssize_t)number);
        return NULL;
    }
    return PyLong_FromSize_t(number);
}

static void raise_lots_status(nanorand_lots_status status, uint64_t entrants, uint64_t count)
{
    switch (status) {
    case NANORAND_LOTS_BAD_SEED:
        raise_made("SeedNotText", "()");
        break;
    case NANORAND_LOTS_TOO_FEW:
        raise_made("TooFew", "(KK)", (unsigned long long)entrants, (unsigned long long)count);
        break;
    default:
        raise_made("Exhausted", "()");
    }
}

/* Returns the first `count` places of a draw among `entrants` entrants. */
static PyObject *draw_places(PyObject *seed, uint64_t entrants, uint64_t count)
{
    size_t *places = new_array(entrants, sizeof *places);
    if (places == NULL) {
        return NULL;
    }
    const uint8_t *text = (const uint8_t *)PyBytes_AS_STRING(seed);
    nanorand_lots_status status = nanorand_lots_draw(text, (size_t)PyBytes_GET_SIZE(seed), places, entrants, count);
    PyObject *list = NULL;
    if (status == NANORAND_LOTS_OK) {
        list = numbers_of(places, count);
    } else {
        raise_lots_status(status, entrants, count);
    }
    PyMem_Free(places);
    return list;
}

static PyObject *lots_places(PyObject *Py_UNUSED(module), PyObject *const *given, Py_ssize_t placed)
{
    static const Parameters wanted = {"lots_places", 3, 3, 3, {"seed", "entrants", "count"}};
    PyObject *values[3];
    uint64_t entrants, count;
    if (take_arguments(&wanted, given, placed, NULL, values) < 0
        || take_u64("entrants", values[1], UINT64_MAX, &entrants) < 0
        || take_u64("count", values[2], UINT64_MAX, &count) < 0) {
        return NULL;
    }
    PyObject *seed = take_octets("seed", values[0]);
    PyObject *list = seed == NULL ? NULL : draw_places(seed, entrants, count);
    Py_XDECREF(seed);
    return list;
}

static PyMethodDef calls[] = {
    {"check_count", check_count, METH_O, NULL},
    {"check_seed", check_seed, METH_O, NULL},
    {"check_entrants", check_entrants, METH_O, NULL},
    {"lots_digest", lots_digest, METH_O, NULL},
    {"lots_count", lots_count, METH_O, NULL},
    {"lots_places", CALL(lots_places), METH_FASTCALL, NULL},
    {NULL, NULL, 0, NULL},
};

int nanorand_add_lots(PyObject *module)
{
    return PyModule_AddFunctions(module, calls);
}
