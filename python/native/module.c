/* The extension module nanorand._native. */
#include "native.h"

/* ---- The classes of collections.abc, which are looked up once for each module. ---- */

typedef struct {
    PyObject *set, *mapping;
    const PyTypeObject *ordered; /* the last static type that is neither, such as that of NumPy's arrays */
} Classes;

static struct PyModuleDef definition;

/* Returns the module if this is its type or an object of it, and otherwise the module of the generator's class. */
static PyObject *module_of(PyObject *self)
{
    if (PyModule_Check(self)) {
        return self;
    }
    for (PyTypeObject *type = Py_TYPE(self);; type = type->tp_base) {
        PyObject *module = ((PyHeapTypeObject *)type)->ht_module;
        if (module != NULL && PyModule_GetDef(module) == &definition) {
            return module;
        }
    }
}

/* Whether all objects of a type are of the same classes. The type is never freed. A proxy is of its object's class. */
static int is_static(const PyTypeObject *type)
{
    return (type->tp_flags & Py_TPFLAGS_HEAPTYPE) == 0 && type->tp_getattro == PyObject_GenericGetAttr;
}

int is_unordered(PyObject *self, PyObject *value)
{
    Classes *classes = PyModule_GetState(module_of(self));
    if (Py_TYPE(value) == classes->ordered) {
        return 0;
    }
    int found = PyObject_IsInstance(value, classes->mapping);
    if (found == 0) {
        found = PyObject_IsInstance(value, classes->set);
    }
    if (found == 0 && is_static(Py_TYPE(value))) {
        classes->ordered = Py_TYPE(value);
    }
    return found;
}

static int find_classes(PyObject *module)
{
    Classes *classes = PyModule_GetState(module);
    PyObject *abstract = PyImport_ImportModule("collections.abc");
    if (abstract == NULL) {
        return -1;
    }
    classes->set = PyObject_GetAttrString(abstract, "Set");
    classes->mapping = classes->set == NULL ? NULL : PyObject_GetAttrString(abstract, "Mapping");
    Py_DECREF(abstract);
    return classes->mapping == NULL ? -1 : 0;
}

static void free_classes(void *module)
{
    Classes *classes = PyModule_GetState(module);
    Py_CLEAR(classes->set);
    Py_CLEAR(classes->mapping);
}

/* ---- The parts of the module. ---- */

PyObject *add_class(PyObject *module, PyType_Spec *spec, PyObject *bases)
{
    PyObject *class = PyType_FromModuleAndSpec(module, spec, bases);
    if (class != NULL && PyModule_AddType(module, (PyTypeObject *)class) < 0) {
        Py_CLEAR(class);
    }
    return class;
}

/* Adds the methods of a table to a class. */
static int add_calls(PyObject *class, PyMethodDef *calls)
{
    for (PyMethodDef *call = calls; call->ml_name != NULL; call++) {
        PyObject *method = PyDescr_NewMethod((PyTypeObject *)class, call);
        int added = method == NULL ? -1 : PyObject_SetAttrString(class, call->ml_name, method);
        Py_XDECREF(method);
        if (added < 0) {
            return -1;
        }
    }
    return 0;
}

static int add_generators(PyObject *module, PyObject *bases)
{
    PyType_Spec *specs[] = {&wyrand_spec, &pcg64_spec, &chacha8_spec, &chacha12_spec, &chacha20_spec, &stream_spec};
    for (size_t i = 0; i < sizeof specs / sizeof specs[0]; i++) {
        PyObject *class = add_class(module, specs[i], bases);
        if (class == NULL) {
            return -1;
        }
        Py_DECREF(class);
    }
    return 0;
}

int nanorand_add_generators(PyObject *module)
{
    PyObject *base = add_class(module, &generator_spec, NULL);
    if (base == NULL) {
        return -1;
    }
    int added = -1;
    if (add_calls(base, number_calls) == 0 && add_calls(base, sequence_calls) == 0
        && add_calls(base, shuffle_calls) == 0 && add_calls(base, sample_calls) == 0
        && add_calls(base, choices_calls) == 0 && add_calls(base, fill_calls) == 0) {
        PyObject *bases = PyTuple_Pack(1, base);
        added = bases == NULL ? -1 : add_generators(module, bases);
        Py_XDECREF(bases);
    }
    Py_DECREF(base);
    return added;
}

/* Checks that the linked library has the header's major version, and all functions of the header. */
static int check_version(PyObject *Py_UNUSED(module))
{
    uint32_t found = nanorand_version();
    if (found >= NANORAND_VERSION && found / 10000 == NANORAND_VERSION / 10000) {
        return 0;
    }
    raise_text("LibraryRefused", "the library has version %u, not %u or later of its major version", (unsigned)found,
               (unsigned)NANORAND_VERSION);
    return -1;
}

/* Adds the version of the library as a string. */
static int add_version(PyObject *module)
{
    char text[16];
    snprintf(text, sizeof text, "%d.%d.%d", NANORAND_VERSION / 10000, NANORAND_VERSION / 100 % 100,
             NANORAND_VERSION % 100);
    return PyModule_AddStringConstant(module, "__version__", text);
}

/* Adds the parts of the module, which are defined in the other files. */
static int fill_module(PyObject *module)
{
    int (*const parts[])(PyObject *) = {
        check_version,
        find_classes,
        add_version,
        nanorand_add_generators,
        nanorand_add_lots,
        nanorand_add_randoms,
        nanorand_add_bits,
    };
    for (size_t i = 0; i < sizeof parts / sizeof parts[0]; i++) {
        if (parts[i](module) < 0) {
            return -1;
        }
    }
    return 0;
}

PyDoc_STRVAR(module_doc,
"The generators of the proved library, and the functions that nanorand.lots, nanorand.numpy and\n"
"nanorand.randoms call.");

static PyModuleDef_Slot slots[] = {
    {Py_mod_exec, SLOT(fill_module)},
    {0, NULL},
};

static PyModuleDef definition = {
    PyModuleDef_HEAD_INIT,
    .m_name = "nanorand._native",
    .m_doc = module_doc,
    .m_size = sizeof(Classes),
    .m_slots = slots,
    .m_free = free_classes,
};

PyMODINIT_FUNC PyInit__native(void)
{
    return PyModuleDef_Init(&definition);
}
