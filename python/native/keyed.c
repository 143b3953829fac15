/* The generators with a key, a nonce and a counter: ChaCha8, ChaCha12, ChaCha20 and Stream. */
#include "native.h"

#include <string.h>

/* ---- Constructors. ---- */

/* The nonce and the counter are zero if they are NULL. */
static int take_chacha(PyObject *key, PyObject *nonce, PyObject *counter, nanorand_chacha *chacha)
{
    memset(chacha, 0, sizeof *chacha);
    if (counter != NULL && take_u64("counter", counter, UINT64_MAX, &chacha->counter) < 0) {
        return -1;
    }
    if (take_octets_of("key", key, sizeof chacha->key, chacha->key) < 0) {
        return -1;
    }
    return nonce == NULL ? 0 : take_octets_of("nonce", nonce, sizeof chacha->nonce, chacha->nonce);
}

static int start_chacha(PyObject *self, PyObject *placed, PyObject *named)
{
    static char *names[] = {"key", "nonce", "counter", NULL};
    PyObject *key, *nonce = NULL, *counter = NULL;
    nanorand_chacha chacha;
    if (take_constructor(self, placed, named, "O|OO", names, &key, &nonce, &counter) < 0
        || take_chacha(key, nonce, counter, &chacha) < 0) {
        return -1;
    }
    return set_state((Generator *)self, &chacha);
}

/* Reads the buffered bytes, at most 63, which are delivered first. */
static int take_rest(PyObject *value, nanorand_keystream *stream)
{
    PyObject *rest = take_octets("rest", value);
    if (rest == NULL) {
        return -1;
    }
    size_t length = (size_t)PyBytes_GET_SIZE(rest);
    int fits = length < 64;
    if (fits) {
        memcpy(stream->group + sizeof stream->group - length, PyBytes_AS_STRING(rest), length);
        stream->buffered = length;
    } else {
        raise_text("WrongLength", "rest has %zu bytes, not 0 to 63", length);
    }
    Py_DECREF(rest);
    return fits ? 0 : -1;
}

static int start_stream(PyObject *self, PyObject *placed, PyObject *named)
{
    static char *names[] = {"key", "nonce", "counter", "rest", NULL};
    PyObject *key, *nonce = NULL, *counter = NULL, *rest = NULL;
    nanorand_keystream stream = {.buffered = 0};
    if (take_constructor(self, placed, named, "O|OOO", names, &key, &nonce, &counter, &rest) < 0
        || take_chacha(key, nonce, counter, &stream.chacha) < 0 || (rest != NULL && take_rest(rest, &stream) < 0)) {
        return -1;
    }
    return set_state((Generator *)self, &stream);
}

/* ---- Parts of the state. ---- */

/* Returns the bytes of the state from `first` to before `end`, or to the end of the state. */
static PyObject *part_of(PyObject *self, size_t first, size_t end)
{
    uint8_t bytes[LONGEST_STATE];
    Py_ssize_t length = read_state((Generator *)self, bytes);
    if (length < 0) {
        return NULL;
    }
    size_t last = (size_t)length < end ? (size_t)length : end;
    return PyBytes_FromStringAndSize((const char *)bytes + first, (Py_ssize_t)(last - first));
}

static PyObject *get_key(PyObject *self, void *Py_UNUSED(closure))
{
    return part_of(self, offsetof(nanorand_chacha, key), offsetof(nanorand_chacha, nonce));
}

static PyObject *get_nonce(PyObject *self, void *Py_UNUSED(closure))
{
    return part_of(self, offsetof(nanorand_chacha, nonce), offsetof(nanorand_chacha, counter));
}

static PyObject *get_rest(PyObject *self, void *Py_UNUSED(closure))
{
    return part_of(self, sizeof(nanorand_chacha), LONGEST_STATE);
}

/* Reads the counter and the number of buffered bytes. */
static int read_counter(PyObject *self, uint64_t *counter, Py_ssize_t *buffered)
{
    uint8_t bytes[LONGEST_STATE];
    Py_ssize_t length = read_state((Generator *)self, bytes);
    if (length < 0) {
        return -1;
    }
    memcpy(counter, bytes + offsetof(nanorand_chacha, counter), sizeof *counter);
    *buffered = length - (Py_ssize_t)sizeof(nanorand_chacha);
    return 0;
}

static PyObject *get_counter(PyObject *self, void *Py_UNUSED(closure))
{
    uint64_t counter;
    Py_ssize_t buffered;
    return read_counter(self, &counter, &buffered) < 0 ? NULL : PyLong_FromUnsignedLongLong(counter);
}

/* ---- Positions in a stream. ---- */

enum { BLOCK = 64 };

/* The buffered bytes are the last ones of the block before the counter. */
static PyObject *get_position(PyObject *self, void *Py_UNUSED(closure))
{
    uint64_t counter;
    Py_ssize_t buffered;
    if (read_counter(self, &counter, &buffered) < 0) {
        return NULL;
    }
    uint64_t block = buffered == 0 ? counter : counter - 1;
    uint64_t place = buffered == 0 ? 0 : BLOCK - (uint64_t)buffered;
    return number_of_halves(block >> 58, block << 6 | place);
}

static PyObject *call_seek(PyObject *self, PyObject *const *given, Py_ssize_t placed, PyObject *names)
{
    static const Parameters wanted = {"seek", 1, 1, 1, {"position"}};
    Generator *rng = (Generator *)self;
    PyObject *value;
    nanorand_pcg64 position;
    if (take_arguments(&wanted, given, placed, names, &value) < 0
        || take_wide("position", value, 63, "0..=1180591620717411303423", &position) < 0 || ready(rng) < 0) {
        return NULL;
    }
    uint8_t before[BLOCK];
    nanorand_keystream *stream = (nanorand_keystream *)rng->state;
    stream->chacha.counter = position.high << 58 | position.low >> 6;
    stream->buffered = 0;
    rng->kind->fill_bytes(stream, before, position.low % BLOCK);
    Py_RETURN_NONE;
}

/* ---- Texts. ---- */

/* The text shows neither the key nor any byte to come. */
static PyObject *show_chacha(PyObject *self)
{
    uint64_t counter;
    Py_ssize_t buffered;
    if (read_counter(self, &counter, &buffered) < 0) {
        return NULL;
    }
    return PyUnicode_FromFormat("<%s counter=%llu>", type_name(self), (unsigned long long)counter);
}

static PyObject *show_stream(PyObject *self)
{
    uint64_t counter;
    Py_ssize_t buffered;
    if (read_counter(self, &counter, &buffered) < 0) {
        return NULL;
    }
    return PyUnicode_FromFormat("<%s counter=%llu buffered=%zd>", type_name(self), (unsigned long long)counter,
                                buffered);
}

/* ---- Blocks. ---- */

static PyObject *call_jump(PyObject *self, PyObject *const *given, Py_ssize_t placed, PyObject *names)
{
    PyObject *value;
    uint64_t draws;
    if (take_arguments(&jump_parameters, given, placed, names, &value) < 0
        || take_u64("draws", value, UINT64_MAX, &draws) < 0 || ready((Generator *)self) < 0) {
        return NULL;
    }
    ((nanorand_chacha *)((Generator *)self)->state)->counter += draws;
    Py_RETURN_NONE;
}

static PyObject *call_block(PyObject *self, PyObject *Py_UNUSED(nothing))
{
    Generator *rng = (Generator *)self;
    PyObject *block = PyBytes_FromStringAndSize(NULL, BLOCK);
    if (block == NULL || ready(rng) < 0) {
        Py_XDECREF(block);
        return NULL;
    }
    rng->kind->block(rng->state, (uint8_t *)PyBytes_AS_STRING(block));
    return block;
}

/* ---- The types. ---- */

PyDoc_STRVAR(key_doc,
"The key, as 32 bytes.\n"
"\n"
"Examples\n"
"--------\n"
">>> from nanorand import ChaCha20\n"
">>> ChaCha20(b\"k\" * 32).key == b\"k\" * 32\n"
"True\n");

PyDoc_STRVAR(nonce_doc,
"The nonce, as 8 bytes.\n"
"\n"
"Examples\n"
"--------\n"
">>> from nanorand import ChaCha20\n"
">>> ChaCha20(bytes(32), b\"a nonce.\").nonce\n"
"b'a nonce.'\n");

PyDoc_STRVAR(counter_doc,
"The index of the next block to be computed. After 2^64 - 1 it is 0 again.\n"
"\n"
"Examples\n"
"--------\n"
">>> from nanorand import ChaCha20\n"
">>> rng = ChaCha20(bytes(32), counter=2**64 - 1)\n"
">>> block = rng.block()\n"
">>> rng.counter\n"
"0\n");

PyDoc_STRVAR(rest_doc,
"The buffered bytes, in the order in which they will be delivered.\n"
"\n"
"Examples\n"
"--------\n"
">>> from nanorand import Stream\n"
">>> rng = Stream(bytes(32))\n"
">>> byte = rng.bytes(1)\n"
">>> len(rng.rest)\n"
"63\n");

PyDoc_STRVAR(position_doc,
"The number of bytes of the keystream before the next one: 64 times the block, plus the place in it.\n"
"\n"
"It is below 2^70, where the keystream begins again.\n"
"\n"
"Examples\n"
"--------\n"
">>> from nanorand import Stream\n"
">>> rng = Stream(bytes(32))\n"
">>> drawn = rng.bytes(100)\n"
">>> rng.position\n"
"100\n");

PyDoc_STRVAR(seek_doc,
"seek($self, /, position)\n"
"--\n"
"\n"
"Move to a position of the keystream, in constant time. What was buffered is dropped.\n"
"\n"
"Parameters\n"
"----------\n"
"position : int\n"
"    Number of bytes of the keystream before the next one, from 0 to 2^70 - 1.\n"
"\n"
"Raises\n"
"------\n"
"OutOfBounds\n"
"    If `position` is negative, or 2^70 or more.\n"
"\n"
"Examples\n"
"--------\n"
">>> from nanorand import Stream\n"
">>> rng = Stream(bytes(32))\n"
">>> drawn = rng.bytes(100)\n"
">>> rng.seek(90)\n"
">>> rng.bytes(10) == drawn[90:]\n"
"True\n");

PyDoc_STRVAR(jump_doc,
"jump($self, /, draws)\n"
"--\n"
"\n"
"Jump ahead by `draws` blocks of 64 bytes, in constant time.\n"
"\n"
"Parameters\n"
"----------\n"
"draws : int\n"
"    Number of blocks, from 0 to 2^64 - 1.\n"
"\n"
"Raises\n"
"------\n"
"OutOfBounds\n"
"    If `draws` is negative, or 2^64 or more.\n"
"\n"
"Examples\n"
"--------\n"
">>> from nanorand import ChaCha20\n"
">>> rng = ChaCha20(bytes(32), counter=5)\n"
">>> rng.jump(2**64 - 1)\n"
">>> rng.counter\n"
"4\n");

PyDoc_STRVAR(block_doc,
"block($self, /)\n"
"--\n"
"\n"
"Return the next block, as 64 bytes.\n"
"\n"
"Examples\n"
"--------\n"
">>> from nanorand import ChaCha8\n"
">>> ChaCha8(bytes(32)).block()[:4].hex()\n"
"'3e00ef2f'\n");

#define NO_NONCE "b'\\x00\\x00\\x00\\x00\\x00\\x00\\x00\\x00'"

PyDoc_STRVAR(chacha8_doc,
"ChaCha8(key, nonce=" NO_NONCE ", counter=0)\n"
"--\n"
"\n"
"ChaCha with 8 rounds, which computes a block of 64 bytes for each request.\n"
"\n"
"A request is one read from the generator, so a number of 8 bytes takes 64 bytes: draw many bytes at\n"
"once by `bytes` or `fill`.\n"
"\n"
"It is not a vetted cryptographic generator: it does not erase keys from memory, and does not reseed\n"
"itself. For keys, tokens and passwords, or if there is an adversary, use a vetted generator.\n"
"\n"
"Parameters\n"
"----------\n"
"key : bytes, bytearray or memoryview\n"
"    32 bytes.\n"
"nonce : bytes, bytearray or memoryview, optional\n"
"    8 bytes.\n"
"counter : int, optional\n"
"    Index of the first block, from 0 to 2^64 - 1.\n"
"\n"
"Raises\n"
"------\n"
"WrongLength\n"
"    If the key or the nonce has another length.\n"
"OutOfBounds\n"
"    If the counter is negative, or 2^64 or more.\n"
"\n"
"Examples\n"
"--------\n"
">>> from nanorand import ChaCha8\n"
">>> ChaCha8(bytes(32)).bytes(4).hex()\n"
"'3e00ef2f'\n");

PyDoc_STRVAR(chacha12_doc,
"ChaCha12(key, nonce=" NO_NONCE ", counter=0)\n"
"--\n"
"\n"
"ChaCha with 12 rounds, which computes a block of 64 bytes for each request.\n"
"\n"
"A request is one read from the generator, so a number of 8 bytes takes 64 bytes: draw many bytes at\n"
"once by `bytes` or `fill`.\n"
"\n"
"It is not a vetted cryptographic generator: it does not erase keys from memory, and does not reseed\n"
"itself. For keys, tokens and passwords, or if there is an adversary, use a vetted generator.\n"
"\n"
"Parameters\n"
"----------\n"
"key : bytes, bytearray or memoryview\n"
"    32 bytes.\n"
"nonce : bytes, bytearray or memoryview, optional\n"
"    8 bytes.\n"
"counter : int, optional\n"
"    Index of the first block, from 0 to 2^64 - 1.\n"
"\n"
"Raises\n"
"------\n"
"WrongLength\n"
"    If the key or the nonce has another length.\n"
"OutOfBounds\n"
"    If the counter is negative, or 2^64 or more.\n"
"\n"
"Examples\n"
"--------\n"
">>> from nanorand import ChaCha12\n"
">>> ChaCha12(bytes(32)).bytes(4).hex()\n"
"'9bf49a6a'\n");

PyDoc_STRVAR(chacha20_doc,
"ChaCha20(key, nonce=" NO_NONCE ", counter=0)\n"
"--\n"
"\n"
"ChaCha with 20 rounds, which computes a block of 64 bytes for each request.\n"
"\n"
"A request is one read from the generator, so a number of 8 bytes takes 64 bytes. `Stream` wastes no\n"
"bytes, and is faster.\n"
"\n"
"It is not a vetted cryptographic generator: it does not erase keys from memory, and does not reseed\n"
"itself. For keys, tokens and passwords, or if there is an adversary, use a vetted generator.\n"
"\n"
"Parameters\n"
"----------\n"
"key : bytes, bytearray or memoryview\n"
"    32 bytes.\n"
"nonce : bytes, bytearray or memoryview, optional\n"
"    8 bytes.\n"
"counter : int, optional\n"
"    Index of the first block, from 0 to 2^64 - 1.\n"
"\n"
"Raises\n"
"------\n"
"WrongLength\n"
"    If the key or the nonce has another length.\n"
"OutOfBounds\n"
"    If the counter is negative, or 2^64 or more.\n"
"\n"
"Examples\n"
"--------\n"
">>> from nanorand import ChaCha20\n"
">>> ChaCha20(bytes(32)).bytes(4).hex()\n"
"'76b8e0ad'\n");

PyDoc_STRVAR(stream_doc,
"Stream(key, nonce=" NO_NONCE ", counter=0, rest=b'')\n"
"--\n"
"\n"
"The keystream of ChaCha20 as one unbroken stream of bytes, of which eight blocks are computed at\n"
"once.\n"
"\n"
"It is not a vetted cryptographic generator: it does not erase keys from memory, and does not reseed\n"
"itself. For keys, tokens and passwords, or if there is an adversary, use a vetted generator.\n"
"\n"
"Parameters\n"
"----------\n"
"key : bytes, bytearray or memoryview\n"
"    32 bytes.\n"
"nonce : bytes, bytearray or memoryview, optional\n"
"    8 bytes.\n"
"counter : int, optional\n"
"    Index of the first block of 64 bytes, from 0 to 2^64 - 1.\n"
"rest : bytes, bytearray or memoryview, optional\n"
"    At most 63 buffered bytes, which are delivered first.\n"
"\n"
"Raises\n"
"------\n"
"WrongLength\n"
"    If the key, the nonce or `rest` has another length.\n"
"OutOfBounds\n"
"    If the counter is negative, or 2^64 or more.\n"
"\n"
"Examples\n"
"--------\n"
">>> from nanorand import Stream\n"
">>> whole = Stream(bytes(32)).bytes(100)\n"
">>> rng = Stream(bytes(32))\n"
">>> rng.bytes(33) + rng.bytes(67) == whole\n"
"True\n");

static PyGetSetDef chacha_parts[] = {
    {"key", get_key, NULL, key_doc, NULL},
    {"nonce", get_nonce, NULL, nonce_doc, NULL},
    {"counter", get_counter, NULL, counter_doc, NULL},
    {NULL, NULL, NULL, NULL, NULL},
};

static PyGetSetDef stream_parts[] = {
    {"key", get_key, NULL, key_doc, NULL},
    {"nonce", get_nonce, NULL, nonce_doc, NULL},
    {"counter", get_counter, NULL, counter_doc, NULL},
    {"rest", get_rest, NULL, rest_doc, NULL},
    {"position", get_position, NULL, position_doc, NULL},
    {NULL, NULL, NULL, NULL, NULL},
};

static PyMethodDef chacha_calls[] = {
    {"jump", CALL(call_jump), METH_FASTCALL | METH_KEYWORDS, jump_doc},
    {"block", call_block, METH_NOARGS, block_doc},
    {NULL, NULL, 0, NULL},
};

static PyMethodDef stream_calls[] = {
    {"seek", CALL(call_seek), METH_FASTCALL | METH_KEYWORDS, seek_doc},
    {NULL, NULL, 0, NULL},
};

GENERATOR_CLASS(chacha8, "ChaCha8", nanorand_chacha, start_chacha, show_chacha, chacha_parts, chacha_calls)
GENERATOR_CLASS(chacha12, "ChaCha12", nanorand_chacha, start_chacha, show_chacha, chacha_parts, chacha_calls)
GENERATOR_CLASS(chacha20, "ChaCha20", nanorand_chacha, start_chacha, show_chacha, chacha_parts, chacha_calls)
GENERATOR_CLASS(stream, "Stream", nanorand_keystream, start_stream, show_stream, stream_parts, stream_calls)
