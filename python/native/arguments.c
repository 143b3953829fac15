/* The arguments of a call: positional and keyword arguments, integers within bounds, and bytes. */
#include "native.h"

#include <inttypes.h>
#include <stdarg.h>
#include <stdio.h>
#include <string.h>

/* ---- Arguments. ---- */

const Parameters jump_parameters = {"jump", 1, 1, 1, {"draws"}};

/* Returns the position of a parameter, or -1 if there is none of this name. */
static int place_of(const Parameters *wanted, PyObject *name)
{
    for (int place = 0; place < wanted->count; place++) {
        if (PyUnicode_CompareWithASCIIString(name, wanted->names[place]) == 0) {
            return place;
        }
    }
    return -1;
}

static int take_named(const Parameters *wanted, PyObject *const *given, PyObject *names, PyObject **values)
{
    for (Py_ssize_t i = 0; i < PyTuple_GET_SIZE(names); i++) {
        PyObject *name = PyTuple_GET_ITEM(names, i);
        int place = place_of(wanted, name);
        if (place < 0) {
            PyErr_Format(PyExc_TypeError, "%s() got an unexpected keyword argument '%U'", wanted->call, name);
            return -1;
        }
        if (values[place] != NULL) {
            PyErr_Format(PyExc_TypeError, "%s() got multiple values for argument '%U'", wanted->call, name);
            return -1;
        }
        values[place] = given[i];
    }
    return 0;
}

static int has_required(const Parameters *wanted, PyObject *const *values)
{
    for (int place = 0; place < wanted->required; place++) {
        if (values[place] == NULL) {
            PyErr_Format(PyExc_TypeError, "%s() missing required argument '%s'", wanted->call, wanted->names[place]);
            return -1;
        }
    }
    return 0;
}

int take_arguments(const Parameters *wanted, PyObject *const *given, Py_ssize_t placed, PyObject *names,
                   PyObject **values)
{
    if (placed > wanted->placed) {
        PyErr_Format(PyExc_TypeError, "%s() takes at most %d positional arguments (%zd given)",
                     wanted->call, wanted->placed, placed);
        return -1;
    }
    for (int place = 0; place < wanted->count; place++) {
        values[place] = place < placed ? given[place] : NULL;
    }
    if (names != NULL && take_named(wanted, given + placed, names, values) < 0) {
        return -1;
    }
    return has_required(wanted, values);
}

int take_constructor(PyObject *self, PyObject *placed, PyObject *named, const char *letters, char **names, ...)
{
    char format[80];
    va_list values;
    snprintf(format, sizeof format, "%s:%s", letters, type_name(self));
    va_start(values, names);
    int taken = PyArg_VaParseTupleAndKeywords(placed, named, format, names, values);
    va_end(values);
    return taken ? 0 : -1;
}

/* ---- Integers. ---- */

PyObject *take_index(const char *name, PyObject *value)
{
    if (PyIndex_Check(value)) {
        return PyNumber_Index(value);
    }
    PyErr_Format(PyExc_TypeError, "%s is a %s, not an integer", name, type_name(value));
    return NULL;
}

int fits_whole(PyObject *whole, Whole *number)
{
    int beyond;
    long long within = PyLong_AsLongLongAndOverflow(whole, &beyond);
    number->negative = within < 0;
    number->bits = (uint64_t)within;
    if (beyond <= 0) {
        return beyond == 0;
    }
    number->negative = 0;
    number->bits = PyLong_AsUnsignedLongLong(whole);
    if (number->bits == UINT64_MAX && PyErr_Occurred()) {
        PyErr_Clear();
        return 0;
    }
    return 1;
}

int is_above(Whole one, Whole other)
{
    return one.negative == other.negative ? one.bits > other.bits : other.negative;
}

static PyObject *object_of(Whole number)
{
    return number.negative ? PyLong_FromLongLong((int64_t)number.bits) : PyLong_FromUnsignedLongLong(number.bits);
}

void raise_empty(Whole first, Whole last)
{
    PyObject *low = object_of(first), *high = object_of(last);
    if (low != NULL && high != NULL) {
        raise_text("EmptyRange", "no number from %S to %S", low, high);
    }
    Py_XDECREF(low);
    Py_XDECREF(high);
}

/* Returns a text with the number in digits, or with its length in bits if it has more than about 100 digits. */
static PyObject *told(PyObject *whole)
{
    PyObject *length = PyObject_CallMethod((PyObject *)&PyLong_Type, "bit_length", "O", whole);
    if (length == NULL) {
        return NULL;
    }
    PyObject *text;
    if (PyLong_AsLong(length) <= 332) {
        text = PyNumber_ToBase(whole, 10);
    } else {
        int negative;
        PyLong_AsLongLongAndOverflow(whole, &negative);
        text = PyUnicode_FromFormat("a %snumber of %S bits", negative < 0 ? "negative " : "", length);
    }
    Py_DECREF(length);
    return text;
}

void raise_out_of_bounds(const char *name, PyObject *whole, const char *bounds)
{
    PyObject *text = told(whole);
    if (text != NULL) {
        raise_text("OutOfBounds", "%s is %U, not in %s", name, text, bounds);
        Py_DECREF(text);
    }
}

int take_whole(const char *name, PyObject *value, int64_t first, uint64_t last, Whole *number)
{
    PyObject *whole = take_index(name, value);
    if (whole == NULL) {
        return -1;
    }
    const Whole low = {first < 0, (uint64_t)first}, high = {0, last};
    int fits = fits_whole(whole, number) && !is_above(low, *number) && !is_above(*number, high);
    if (!fits) {
        char bounds[48];
        snprintf(bounds, sizeof bounds, "%" PRId64 "..=%" PRIu64, first, last);
        raise_out_of_bounds(name, whole, bounds);
    }
    Py_DECREF(whole);
    return fits ? 0 : -1;
}

int take_u64(const char *name, PyObject *value, uint64_t last, uint64_t *number)
{
    Whole whole;
    if (take_whole(name, value, 0, last, &whole) < 0) {
        return -1;
    }
    *number = whole.bits;
    return 0;
}

int halves_of(PyObject *whole, nanorand_pcg64 *number)
{
    PyObject *width = PyLong_FromLong(64);
    PyObject *upper = width == NULL ? NULL : PyNumber_Rshift(whole, width);
    Py_XDECREF(width);
    if (upper == NULL) {
        return -1;
    }
    Whole high;
    int fits = fits_whole(upper, &high) && !high.negative;
    Py_DECREF(upper);
    number->high = high.bits;
    number->low = PyLong_AsUnsignedLongLongMask(whole);
    return PyErr_Occurred() ? -1 : fits;
}

int take_wide(const char *name, PyObject *value, uint64_t highest, const char *bounds, nanorand_pcg64 *number)
{
    PyObject *whole = take_index(name, value);
    if (whole == NULL) {
        return -1;
    }
    int fits = halves_of(whole, number);
    if (fits == 0 || (fits == 1 && number->high > highest)) {
        raise_out_of_bounds(name, whole, bounds);
        fits = 0;
    }
    Py_DECREF(whole);
    return fits == 1 ? 0 : -1;
}

int take_u128(const char *name, PyObject *value, nanorand_pcg64 *number)
{
    return take_wide(name, value, UINT64_MAX, "0..=340282366920938463463374607431768211455", number);
}

PyObject *number_of_halves(uint64_t high, uint64_t low)
{
    PyObject *upper = PyLong_FromUnsignedLongLong(high), *lower = PyLong_FromUnsignedLongLong(low);
    PyObject *width = PyLong_FromLong(64);
    PyObject *shifted = upper == NULL || width == NULL ? NULL : PyNumber_Lshift(upper, width);
    PyObject *number = shifted == NULL || lower == NULL ? NULL : PyNumber_Or(shifted, lower);
    Py_XDECREF(upper);
    Py_XDECREF(lower);
    Py_XDECREF(width);
    Py_XDECREF(shifted);
    return number;
}

/* ---- Bytes. ---- */

PyObject *take_octets(const char *name, PyObject *value)
{
    return take_octets_or(name, value, "bytes");
}

PyObject *take_octets_or(const char *name, PyObject *value, const char *wanted)
{
    if (PyBytes_Check(value) || PyByteArray_Check(value) || PyMemoryView_Check(value)) {
        return PyBytes_FromObject(value);
    }
    PyErr_Format(PyExc_TypeError, "%s is a %s, not %s", name, type_name(value), wanted);
    return NULL;
}

int take_octets_of(const char *name, PyObject *value, size_t length, uint8_t *octets)
{
    PyObject *given = take_octets(name, value);
    if (given == NULL) {
        return -1;
    }
    int fits = (size_t)PyBytes_GET_SIZE(given) == length;
    if (fits) {
        memcpy(octets, PyBytes_AS_STRING(given), length);
    } else {
        raise_text("WrongLength", "%s has %zd bytes, not %zu", name, PyBytes_GET_SIZE(given), length);
    }
    Py_DECREF(given);
    return fits ? 0 : -1;
}
