/* Raises the errors of nanorand.errors. Each class is looked up when it is raised, so the module stores no objects. */
#include "native.h"

#include <string.h>

static PyObject *error_class(const char *error)
{
    PyObject *errors = PyImport_ImportModule("nanorand.errors");
    if (errors == NULL) {
        return NULL;
    }
    PyObject *found = PyObject_GetAttrString(errors, error);
    Py_DECREF(errors);
    return found;
}

/* Raises the error with this one argument, whose reference it takes. */
static void raise_with(const char *error, PyObject *argument)
{
    PyObject *raised = argument == NULL ? NULL : error_class(error);
    if (raised != NULL) {
        PyErr_SetObject(raised, argument);
        Py_DECREF(raised);
    }
    Py_XDECREF(argument);
}

void raise_text(const char *error, const char *format, ...)
{
    va_list values;
    va_start(values, format);
    PyObject *text = PyUnicode_FromFormatV(format, values);
    va_end(values);
    raise_with(error, text);
}

void raise_made(const char *error, const char *format, ...)
{
    va_list values;
    va_start(values, format);
    PyObject *arguments = Py_VaBuildValue(format, values);
    va_end(values);
    raise_with(error, arguments);
}

void raise_status(nanorand_status status)
{
    raise_made(status == NANORAND_EMPTY ? "EmptyRange" : "Exhausted", "()");
}

PyObject *none_of(nanorand_status status)
{
    if (status != NANORAND_OK) {
        raise_status(status);
        return NULL;
    }
    Py_RETURN_NONE;
}

const char *name_of(PyTypeObject *type)
{
    const char *dot = strrchr(type->tp_name, '.');
    return dot == NULL ? type->tp_name : dot + 1;
}

const char *type_name(PyObject *value)
{
    return name_of(Py_TYPE(value));
}
