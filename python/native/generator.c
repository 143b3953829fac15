/* The object `Generator`: creation and destruction, its state as bytes, copies, parts, and turns of threads. */
#include "native.h"

#include <string.h>
#include <structmember.h>

/* ---- Creation and destruction. ---- */

PyObject *make_generator(PyTypeObject *type, const Kind *kind)
{
    PyObject *made = type->tp_alloc(type, 0);
    if (made != NULL) {
        Generator *rng = (Generator *)made;
        rng->kind = kind;
        rng->condition = UNMADE;
    }
    return made;
}

static PyObject *make_none(PyTypeObject *type, PyObject *Py_UNUSED(placed), PyObject *Py_UNUSED(named))
{
    PyErr_Format(PyExc_TypeError, "%s cannot be instantiated: use WyRand, Pcg64, Stream, ChaCha8, ChaCha12 or ChaCha20",
                 name_of(type));
    return NULL;
}

static void free_generator(PyObject *self)
{
    Generator *rng = (Generator *)self;
    PyTypeObject *type = Py_TYPE(self);
    if (rng->weak_references != NULL) {
        PyObject_ClearWeakRefs(self);
    }
    if (rng->lock != NULL) {
        PyThread_free_lock(rng->lock);
    }
    type->tp_free(self);
    Py_DECREF(type);
}

/* free_generator frees every generator, including one of a user's subclass, since a base of that class is ours. */
Generator *take_generator(const char *name, PyObject *value)
{
    for (PyTypeObject *type = Py_TYPE(value); type != NULL; type = type->tp_base) {
        if (type->tp_dealloc == free_generator) {
            return (Generator *)value;
        }
    }
    PyErr_Format(PyExc_TypeError, "%s is a %s, not a generator", name, type_name(value));
    return NULL;
}

/* ---- Turns. ---- */

/* How long a thread waits before it checks for signals, in microseconds. */
enum { WAIT = 30000 };

/* Waits, without Python's lock, until another thread's turn ends or the time is over. */
static void let_others_run(Generator *rng)
{
    Py_BEGIN_ALLOW_THREADS
    if (PyThread_acquire_lock_timed(rng->lock, WAIT, 0) == PY_LOCK_ACQUIRED) {
        PyThread_release_lock(rng->lock);
    }
    Py_END_ALLOW_THREADS
}

static int is_own_turn(const Generator *rng)
{
    return rng->owner == PyThread_get_thread_ident();
}

/* Returns when no thread has a turn. Returns -1 if this thread has it, or if a signal handler raised an exception. */
static int await_turn(Generator *rng)
{
    while (rng->condition == AWAY) {
        if (is_own_turn(rng)) {
            PyErr_Format(PyExc_RuntimeError, "%s is in use by a call that this code interrupts",
                         type_name((PyObject *)rng));
            return -1;
        }
        let_others_run(rng);
        if (PyErr_CheckSignals() < 0) {
            return -1;
        }
    }
    return 0;
}

int await_state(Generator *rng)
{
    if (await_turn(rng) < 0) {
        return -1;
    }
    if (rng->condition == READY) {
        return 0;
    }
    PyErr_Format(PyExc_RuntimeError, "%s has no state: %s.__init__ was not called", type_name((PyObject *)rng),
                 rng->kind->name);
    return -1;
}

int hold_turn(Generator *rng, size_t bytes, Turn *turn)
{
    turn->apart = NULL;
    turn->held = 0;
    if (ready(rng) < 0) {
        return -1;
    }
    if (bytes <= LONG) {
        return 0;
    }
    if (rng->lock == NULL) {
        rng->lock = PyThread_allocate_lock();
    }
    if (rng->lock == NULL) {
        PyErr_NoMemory();
        return -1;
    }
    /* A thread that waited for an earlier turn holds the lock only briefly, and needs nothing else to release it. */
    PyThread_acquire_lock(rng->lock, WAIT_LOCK);
    rng->condition = AWAY;
    rng->owner = PyThread_get_thread_ident();
    turn->held = 1;
    return 0;
}

int begin_turn(Generator *rng, size_t bytes, Turn *turn)
{
    if (hold_turn(rng, bytes, turn) < 0) {
        return -1;
    }
    turn->apart = turn->held ? PyEval_SaveThread() : NULL;
    return 0;
}

void end_turn(Generator *rng, Turn *turn)
{
    if (turn->apart != NULL) {
        PyEval_RestoreThread(turn->apart);
    }
    if (turn->held) {
        rng->condition = READY;
        PyThread_release_lock(rng->lock);
    }
    turn->apart = NULL;
    turn->held = 0;
}

/* ---- States. ---- */

void keep_state(const Generator *rng, Saved *saved)
{
    memcpy(saved->bytes, rng->state, rng->kind->size);
}

void restore_state(Generator *rng, const Saved *saved)
{
    while (rng->condition == AWAY && !is_own_turn(rng)) {
        let_others_run(rng);
    }
    memcpy(rng->state, saved->bytes, rng->kind->size);
}

int set_state(Generator *rng, const void *state)
{
    if (await_turn(rng) < 0) {
        return -1;
    }
    memcpy(rng->state, state, rng->kind->size);
    rng->condition = READY;
    return 0;
}

Py_ssize_t read_state(Generator *rng, uint8_t bytes[LONGEST_STATE])
{
    if (ready(rng) < 0) {
        return -1;
    }
    return (Py_ssize_t)rng->kind->save(rng->state, rng->kind->size, bytes);
}

static void raise_length(const Kind *kind, Py_ssize_t length)
{
    if (kind->shortest == kind->longest) {
        raise_text("WrongLength", "state has %zd bytes, not %zu", length, kind->shortest);
    } else {
        raise_text("WrongLength", "state has %zd bytes, not %zu to %zu", length, kind->shortest, kind->longest);
    }
}

/* Returns the value of a key as a new reference, or NULL: without an exception if there is no such key. */
static PyObject *value_of(PyObject *dict, const char *name)
{
    PyObject *key = PyUnicode_FromString(name);
    PyObject *value = key == NULL ? NULL : PyDict_GetItemWithError(dict, key);
    Py_XINCREF(value);
    Py_XDECREF(key);
    return value;
}

/* Returns the bytes of a state that `state_dict` returned. Other keys may run Python code, which changes the dict. */
static PyObject *octets_of_dict(const Kind *kind, PyObject *dict)
{
    PyObject *name = value_of(dict, "generator"), *digits = name == NULL ? NULL : value_of(dict, "state");
    PyObject *octets = NULL;
    if (digits != NULL && PyUnicode_Check(name) && PyUnicode_CompareWithASCIIString(name, kind->name) == 0
        && PyUnicode_Check(digits)) {
        octets = PyObject_CallMethod((PyObject *)&PyBytes_Type, "fromhex", "O", digits);
    }
    Py_XDECREF(name);
    Py_XDECREF(digits);
    if (octets == NULL && (!PyErr_Occurred() || PyErr_ExceptionMatches(PyExc_ValueError))) {
        PyErr_Clear();
        raise_made("ForeignState", "(s)", kind->name);
    }
    return octets;
}

static int load_state(Generator *rng, PyObject *value)
{
    const Kind *kind = rng->kind;
    PyObject *octets = PyDict_Check(value) ? octets_of_dict(kind, value) : take_octets_or("state", value, "bytes or a dict");
    if (octets == NULL) {
        return -1;
    }
    Py_ssize_t length = PyBytes_GET_SIZE(octets);
    int loaded = -1;
    if (kind->shortest <= (size_t)length && (size_t)length <= kind->longest) {
        Saved state;
        kind->load(state.bytes, (const uint8_t *)PyBytes_AS_STRING(octets), (size_t)length);
        loaded = set_state(rng, state.bytes);
    } else {
        raise_length(kind, length);
    }
    Py_DECREF(octets);
    return loaded;
}

static PyObject *get_state(PyObject *self, void *Py_UNUSED(closure))
{
    uint8_t bytes[LONGEST_STATE];
    Py_ssize_t length = read_state((Generator *)self, bytes);
    return length < 0 ? NULL : PyBytes_FromStringAndSize((const char *)bytes, length);
}

static PyObject *get_state_dict(PyObject *self, void *Py_UNUSED(closure))
{
    PyObject *state = get_state(self, NULL);
    PyObject *digits = state == NULL ? NULL : PyObject_CallMethod(state, "hex", NULL);
    PyObject *name = digits == NULL ? NULL : PyUnicode_FromString(((Generator *)self)->kind->name);
    PyObject *made = name == NULL ? NULL : PyDict_New();
    if (made != NULL
        && (PyDict_SetItemString(made, "generator", name) < 0 || PyDict_SetItemString(made, "state", digits) < 0)) {
        Py_CLEAR(made);
    }
    Py_XDECREF(state);
    Py_XDECREF(digits);
    Py_XDECREF(name);
    return made;
}

static int put_state(PyObject *self, PyObject *value, void *Py_UNUSED(closure))
{
    if (value == NULL) {
        PyErr_SetString(PyExc_AttributeError, "state cannot be deleted");
        return -1;
    }
    return load_state((Generator *)self, value);
}

/* ---- New generators. ---- */

/* Returns the object that the class's `__new__` creates. */
static PyObject *new_of(PyObject *class)
{
    PyTypeObject *type = (PyTypeObject *)class;
    PyObject *nothing = PyTuple_New(0);
    PyObject *made = nothing == NULL ? NULL : type->tp_new(type, nothing, NULL);
    Py_XDECREF(nothing);
    if (made != NULL && take_generator("what __new__ made", made) == NULL) {
        Py_CLEAR(made);
    }
    return made;
}

/* Sets the state of a new generator and returns it. Frees it if that fails: `__new__` may return one in use. */
static PyObject *with_state(PyObject *made, const Saved *state)
{
    if (set_state((Generator *)made, state->bytes) < 0) {
        Py_CLEAR(made);
    }
    return made;
}

static PyObject *of_state(PyObject *class, PyObject *state)
{
    PyObject *made = new_of(class);
    if (made != NULL && load_state((Generator *)made, state) < 0) {
        Py_CLEAR(made);
    }
    return made;
}

static PyObject *call_from_state(PyObject *class, PyObject *const *given, Py_ssize_t placed, PyObject *names)
{
    static const Parameters wanted = {"from_state", 1, 1, 1, {"state"}};
    PyObject *state;
    if (take_arguments(&wanted, given, placed, names, &state) < 0) {
        return NULL;
    }
    return of_state(class, state);
}

static PyObject *call_seed_from_u64(PyObject *class, PyObject *const *given, Py_ssize_t placed, PyObject *names)
{
    static const Parameters wanted = {"seed_from_u64", 1, 1, 1, {"number"}};
    PyObject *value;
    uint64_t number;
    if (take_arguments(&wanted, given, placed, names, &value) < 0
        || take_u64("number", value, UINT64_MAX, &number) < 0) {
        return NULL;
    }
    PyObject *made = new_of(class);
    if (made == NULL) {
        return NULL;
    }
    Saved seeded = {{0}};
    ((Generator *)made)->kind->seed(seeded.bytes, number);
    return with_state(made, &seeded);
}

/* Returns `count` bytes of os.urandom. */
static PyObject *system_bytes(size_t count)
{
    PyObject *os = PyImport_ImportModule("os");
    if (os == NULL) {
        return NULL;
    }
    PyObject *drawn = PyObject_CallMethod(os, "urandom", "n", (Py_ssize_t)count);
    Py_DECREF(os);
    return drawn;
}

static PyObject *call_from_entropy(PyObject *class, PyObject *Py_UNUSED(nothing))
{
    PyObject *made = new_of(class);
    if (made == NULL) {
        return NULL;
    }
    const Kind *kind = ((Generator *)made)->kind;
    Saved entropy = {{0}};
    PyObject *drawn = system_bytes(kind->entropy);
    if (drawn == NULL || take_octets_of("entropy", drawn, kind->entropy, entropy.bytes) < 0) {
        Py_CLEAR(made);
    } else {
        made = with_state(made, &entropy);
    }
    Py_XDECREF(drawn);
    return made;
}

/* ---- Copies, parts and comparisons. ---- */

static PyObject *call_copy(PyObject *self, PyObject *Py_UNUSED(nothing))
{
    PyObject *state = get_state(self, NULL);
    if (state == NULL) {
        return NULL;
    }
    PyObject *made = of_state((PyObject *)Py_TYPE(self), state);
    Py_DECREF(state);
    return made;
}

/* The parts of one stream whose lengths are multiples of this number are warned of: docs/SCALE.md has the reason. */
enum { WARNED_FACTOR = 1 << 16 };

static int warn_of_length(const Kind *kind, uint64_t draws)
{
    if (!kind->correlated || draws % WARNED_FACTOR != 0) {
        return 0;
    }
    return PyErr_WarnFormat(PyExc_UserWarning, 1,
                            "parts of %llu draws may be correlated, as a large power of two divides this length: "
                            "take an odd one, such as %llu",
                            (unsigned long long)draws, (unsigned long long)draws + 1);
}

/* Moves a copy, by the copy's own kind: the `__new__` of a subclass may create a generator of another kind. */
static PyObject *call_part(PyObject *self, PyObject *const *given, Py_ssize_t placed, PyObject *names)
{
    static const Parameters wanted = {"part", 2, 2, 2, {"index", "draws"}};
    PyObject *values[2];
    uint64_t index;
    Whole length;
    if (take_arguments(&wanted, given, placed, names, values) < 0
        || take_u64("index", values[0], UINT64_MAX, &index) < 0
        || take_whole("draws", values[1], 1, UINT64_MAX, &length) < 0) {
        return NULL;
    }
    const uint64_t draws = length.bits;
    PyObject *made = call_copy(self, NULL);
    if (made == NULL) {
        return NULL;
    }
    Generator *part = (Generator *)made;
    if (part->kind->part(part->state, index, draws) != NANORAND_OK) {
        raise_text("PastPeriod", "part %llu, of %llu draws, ends past the period", (unsigned long long)index,
                   (unsigned long long)draws);
        Py_CLEAR(made);
    } else if (warn_of_length(part->kind, draws) < 0) {
        Py_CLEAR(made);
    }
    return made;
}

/* Adds the slots of a subclass that have values. */
static int add_slots(PyObject *self, PyObject *names, PyObject *slots)
{
    for (Py_ssize_t i = 0; i < PyTuple_GET_SIZE(names); i++) {
        PyObject *name = PyTuple_GET_ITEM(names, i);
        PyObject *value = PyObject_GetAttr(self, name);
        if (value == NULL && PyErr_ExceptionMatches(PyExc_AttributeError)) {
            PyErr_Clear();
            continue;
        }
        int added = value == NULL ? -1 : PyDict_SetItem(slots, name, value);
        Py_XDECREF(value);
        if (added < 0) {
            return -1;
        }
    }
    return 0;
}

/* Returns the slots of a subclass that have values, as a dict. `copyreg` finds their names. */
static PyObject *slots_of(PyObject *self)
{
    PyObject *copyreg = PyImport_ImportModule("copyreg");
    PyObject *found = copyreg == NULL ? NULL : PyObject_CallMethod(copyreg, "_slotnames", "O", Py_TYPE(self));
    PyObject *names = found == NULL ? NULL : PySequence_Tuple(found);
    PyObject *slots = names == NULL ? NULL : PyDict_New();
    if (slots != NULL && add_slots(self, names, slots) < 0) {
        Py_CLEAR(slots);
    }
    Py_XDECREF(copyreg);
    Py_XDECREF(found);
    Py_XDECREF(names);
    return slots;
}

/* Returns the attributes of a subclass as a dict, or None if its instances have no dict. */
static PyObject *dict_of(PyObject *self)
{
    PyObject *dict = PyObject_GetAttrString(self, "__dict__");
    if (dict == NULL && PyErr_ExceptionMatches(PyExc_AttributeError)) {
        PyErr_Clear();
        Py_RETURN_NONE;
    }
    return dict;
}

/* Returns the attributes and the slots of a subclass, as `pickle` and `copy` set them, or None if there are none. */
static PyObject *attributes_of(PyObject *self)
{
    PyObject *slots = slots_of(self);
    PyObject *dict = slots == NULL ? NULL : dict_of(self);
    if (dict == NULL) {
        Py_XDECREF(slots);
        return NULL;
    }
    if (dict != Py_None || PyDict_GET_SIZE(slots) > 0) {
        return Py_BuildValue("(NN)", dict, slots);
    }
    Py_DECREF(slots);
    return dict;
}

static PyObject *call_reduce(PyObject *self, PyObject *Py_UNUSED(nothing))
{
    PyObject *maker = PyObject_GetAttrString((PyObject *)Py_TYPE(self), "from_state");
    PyObject *state = maker == NULL ? NULL : get_state(self, NULL);
    PyObject *attributes = state == NULL ? NULL : attributes_of(self);
    if (attributes == NULL) {
        Py_XDECREF(maker);
        Py_XDECREF(state);
        return NULL;
    }
    return Py_BuildValue("(N(N)N)", maker, state, attributes);
}

static PyObject *compare(PyObject *one, PyObject *other, int operation)
{
    if (Py_TYPE(one) != Py_TYPE(other) || (operation != Py_EQ && operation != Py_NE)) {
        Py_RETURN_NOTIMPLEMENTED;
    }
    uint8_t bytes[LONGEST_STATE], others[LONGEST_STATE];
    Py_ssize_t length = read_state((Generator *)one, bytes);
    Py_ssize_t other_length = length < 0 ? -1 : read_state((Generator *)other, others);
    if (other_length < 0) {
        return NULL;
    }
    int equal = length == other_length && memcmp(bytes, others, (size_t)length) == 0;
    return PyBool_FromLong(equal == (operation == Py_EQ));
}

/* ---- The type. ---- */

PyDoc_STRVAR(generator_doc,
"Base class of all generators. It cannot be instantiated.\n"
"\n"
"Two generators are equal if they have the same class and equal states.\n"
"\n"
"Notes\n"
"-----\n"
"A request is one read of n bytes from a generator, and a word is a random integer of 64 bits, read\n"
"by one request (of 32 bits in `range32`). Numbers of a range are unbiased: words that would make\n"
"some numbers likelier are rejected, and `Exhausted` is raised after 128 rejected words in a row.\n"
"\n"
"Examples\n"
"--------\n"
">>> from nanorand import Pcg64, WyRand\n"
">>> rng, same, other = (WyRand.seed_from_u64(number) for number in (42, 42, 43))\n"
">>> rng == same, rng == other, rng == Pcg64.seed_from_u64(42)\n"
"(True, False, False)\n");

PyDoc_STRVAR(state_doc,
"The state, as bytes. Assign to it to set the state: these bytes, or a dict of `state_dict`.\n"
"\n"
"The bytes are the same in all languages: the column `before` of answers.tsv has them. For `Stream`\n"
"they are the key, the nonce, the counter, and the 0 to 63 buffered bytes.\n"
"\n"
"Raises\n"
"------\n"
"WrongLength\n"
"    If a state of another length is assigned.\n"
"ForeignState\n"
"    If a dict is assigned that is not the `state_dict` of a generator of this class.\n"
"\n"
"Examples\n"
"--------\n"
">>> from nanorand import Pcg64, Stream\n"
">>> rng = Pcg64.seed_from_u64(42)\n"
">>> saved = rng.state\n"
">>> first = rng.u64()\n"
">>> rng.state = saved\n"
">>> rng.u64() == first\n"
"True\n"
">>> Stream(bytes(32), rest=b\"abc\").state[48:]\n"
"b'abc'\n");

PyDoc_STRVAR(state_dict_doc,
"The state as a dict of strings, for JSON and similar formats. `from_state` and `state` accept it.\n"
"\n"
"It has the name of the generator and the hexadecimal digits of `state`.\n"
"\n"
"Examples\n"
"--------\n"
">>> import json\n"
">>> from nanorand import WyRand\n"
">>> WyRand(42).state_dict\n"
"{'generator': 'WyRand', 'state': '2a00000000000000'}\n"
">>> WyRand.from_state(json.loads(json.dumps(WyRand(42).state_dict)))\n"
"WyRand(0x2a)\n");

PyDoc_STRVAR(from_state_doc,
"from_state($type, /, state)\n"
"--\n"
"\n"
"Return a generator with a saved state.\n"
"\n"
"Parameters\n"
"----------\n"
"state : bytes, bytearray, memoryview or dict\n"
"    The state, as the attributes `state` and `state_dict` return it.\n"
"\n"
"Raises\n"
"------\n"
"WrongLength\n"
"    If the state has another length than the states of this class.\n"
"ForeignState\n"
"    If the state is a dict, and not the `state_dict` of a generator of this class.\n"
"\n"
"Examples\n"
"--------\n"
">>> from nanorand import WyRand\n"
">>> WyRand.from_state(bytes([42, 0, 0, 0, 0, 0, 0, 0]))\n"
"WyRand(0x2a)\n");

PyDoc_STRVAR(seed_from_u64_doc,
"seed_from_u64($type, /, number)\n"
"--\n"
"\n"
"Return a generator whose seed is made from a number, which may be small: 0, 1, 2, .., a port, a\n"
"year.\n"
"\n"
"The seed, or the key and then the nonce, is the output of SplitMix64 for this number (Guy Steele,\n"
"Doug Lea and Christine Flood, 2014, with the constants of Sebastiano Vigna), each word of 64 bits in\n"
"little-endian order. Different numbers produce different states. There are only 2^64 such keys, so\n"
"they keep no secret.\n"
"\n"
"Parameters\n"
"----------\n"
"number : int\n"
"    From 0 to 2^64 - 1.\n"
"\n"
"Raises\n"
"------\n"
"OutOfBounds\n"
"    If the number is negative, or 2^64 or more.\n"
"\n"
"Examples\n"
"--------\n"
">>> from nanorand import WyRand\n"
">>> WyRand.seed_from_u64(2026)\n"
"WyRand(0xdb9c559891948d23)\n");

PyDoc_STRVAR(from_entropy_doc,
"from_entropy($type, /)\n"
"--\n"
"\n"
"Return a generator whose seed, or key and nonce, comes from the operating system, by `os.urandom`.\n"
"\n"
"This makes `WyRand` and `Pcg64` no more secure. The ChaCha classes and `Stream` are not vetted\n"
"cryptographic generators. For keys, tokens and passwords, or if there is an adversary, use a vetted\n"
"generator.\n"
"\n"
"Examples\n"
"--------\n"
">>> from nanorand import Stream\n"
">>> Stream.from_entropy() == Stream.from_entropy()\n"
"False\n");

PyDoc_STRVAR(copy_doc,
"copy($self, /)\n"
"--\n"
"\n"
"Return a generator with the same state.\n"
"\n"
"Examples\n"
"--------\n"
">>> from nanorand import WyRand\n"
">>> rng = WyRand.seed_from_u64(42)\n"
">>> rng.copy().u64() == rng.u64()\n"
"True\n");

PyDoc_STRVAR(part_doc,
"part($self, /, index, draws)\n"
"--\n"
"\n"
"Return a generator at the beginning of part `index` of this generator's stream, divided into parts\n"
"of `draws` draws.\n"
"\n"
"Use one part for each task. A draw is what `u64` takes. The part begins `index * draws` draws ahead;\n"
"this generator does not change. Parts of the same length do not overlap, as long as no task draws\n"
"more than `draws` draws.\n"
"\n"
"Take an odd length, such as 10**9 + 1 or 2**40 + 1. Two draws of `WyRand` or `Pcg64` are correlated if\n"
"the distance between them is divisible by a large power of two, and the same places of two parts are\n"
"a multiple of the length apart.\n"
"\n"
"Parameters\n"
"----------\n"
"index : int\n"
"    Index of the part, counted from 0.\n"
"draws : int\n"
"    Length of each part, in draws, from 1 to 2^64 - 1.\n"
"\n"
"Raises\n"
"------\n"
"PastPeriod\n"
"    If the part ends beyond the period, which is 2^64 draws for `WyRand` and the ChaCha classes,\n"
"    2^126 for `Pcg64`, and 2^67 for `Stream`.\n"
"OutOfBounds\n"
"    If `index` or `draws` is negative, or 2^64 or more, or if `draws` is 0.\n"
"\n"
"Warns\n"
"-----\n"
"UserWarning\n"
"    If `draws` is a multiple of 2^16, for `WyRand` and `Pcg64`.\n"
"\n"
"Examples\n"
"--------\n"
">>> from nanorand import Pcg64\n"
">>> rng = Pcg64.seed_from_u64(42)\n"
">>> parts = [rng.part(index, 2) for index in range(3)]\n"
">>> drawn = [part.u64() for part in parts for _ in range(2)]\n"
">>> drawn == [rng.u64() for _ in range(6)]\n"
"True\n");

static PyMethodDef calls[] = {
    {"from_state", CALL(call_from_state), METH_CLASS | METH_FASTCALL | METH_KEYWORDS, from_state_doc},
    {"seed_from_u64", CALL(call_seed_from_u64), METH_CLASS | METH_FASTCALL | METH_KEYWORDS, seed_from_u64_doc},
    {"from_entropy", call_from_entropy, METH_CLASS | METH_NOARGS, from_entropy_doc},
    {"copy", call_copy, METH_NOARGS, copy_doc},
    {"part", CALL(call_part), METH_FASTCALL | METH_KEYWORDS, part_doc},
    {"__reduce__", call_reduce, METH_NOARGS, NULL},
    {NULL, NULL, 0, NULL},
};

static PyGetSetDef parts[] = {
    {"state", get_state, put_state, state_doc, NULL},
    {"state_dict", get_state_dict, NULL, state_dict_doc, NULL},
    {NULL, NULL, NULL, NULL, NULL},
};

static PyMemberDef members[] = {
    {"__weaklistoffset__", T_PYSSIZET, offsetof(Generator, weak_references), READONLY, NULL},
    {NULL, 0, 0, 0, NULL},
};

static PyType_Slot slots[] = {
    {Py_tp_doc, SLOT(generator_doc)},
    {Py_tp_new, SLOT(make_none)},
    {Py_tp_dealloc, SLOT(free_generator)},
    {Py_tp_richcompare, SLOT(compare)},
    {Py_tp_methods, calls},
    {Py_tp_getset, parts},
    {Py_tp_members, members},
    {0, NULL},
};

PyType_Spec generator_spec = {
    .name = "nanorand.generators.Generator",
    .basicsize = sizeof(Generator),
    .flags = Py_TPFLAGS_DEFAULT | Py_TPFLAGS_BASETYPE,
    .slots = slots,
};
