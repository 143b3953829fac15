/* Fills buffers (bytearray, array, memoryview and NumPy arrays) in place: nothing is copied. */
#include "native.h"

#include <string.h>

/* ---- Buffers. ---- */

/* A buffer without a format has bytes. */
static const char *whole_format_of(const Py_buffer *view)
{
    return view->format == NULL ? "B" : view->format;
}

/* The format letter of a buffer's items if it is a single one, in this machine's byte order, and 0 otherwise. */
static char format_of(const Py_buffer *view)
{
    const char *format = whole_format_of(view);
    if (format[0] != '\0' && strchr("@=<", format[0]) != NULL) {
        format++;
    }
    return format[0] != '\0' && format[1] == '\0' ? format[0] : '\0'; /* GCOVR_EXCL_BR_LINE: none is empty. */
}

static int fits_formats(const Py_buffer *view, const char *formats)
{
    char format = format_of(view);
    int width = view->itemsize == 1 || view->itemsize == 2 || view->itemsize == 4 || view->itemsize == 8;
    return format != '\0' && width && strchr(formats, format) != NULL;
}

static int check_buffer(const Py_buffer *view, const char *formats)
{
    if (view->readonly) {
        PyErr_SetString(PyExc_BufferError, "buffer is read-only");
    } else if (!PyBuffer_IsContiguous(view, 'C')) {
        PyErr_SetString(PyExc_BufferError, "buffer is not C-contiguous");
    } else if (!fits_formats(view, formats)) {
        PyErr_Format(PyExc_TypeError, "buffer has items of the format '%.100s', not one of '%s'", whole_format_of(view),
                     formats);
    } else {
        return 0;
    }
    return -1;
}

/* Opens a writable view of a buffer whose items have one of the formats. The caller releases it. */
static int open_buffer(PyObject *buffer, const char *formats, Py_buffer *view)
{
    if (!PyObject_CheckBuffer(buffer)) {
        PyErr_Format(PyExc_TypeError, "buffer is a %s, not a writable buffer", type_name(buffer));
        return -1;
    }
    if (PyObject_GetBuffer(buffer, view, PyBUF_FULL_RO) < 0) {
        return -1;
    }
    if (check_buffer(view, formats) < 0) {
        PyBuffer_Release(view);
        return -1;
    }
    return 0;
}

/* ---- Words. ---- */

enum { LONGEST_BLOCK = 64, AHEAD = 256 * LONGEST_BLOCK, MOST_AHEAD = AHEAD / sizeof(uint32_t) };

/* Words that are drawn by one request, and the generator before it. Each word begins `step` bytes after the last. */
typedef struct {
    uint8_t bytes[AHEAD];
    size_t step;
    Saved before;
} Words;

/* The bytes that a word takes: a whole block, unless requests join without a break. */
static size_t step_of(const Kind *kind, size_t width)
{
    return kind->block_length == 0 ? width : kind->block_length;
}

/* How many words to draw ahead for the items that are still to be filled. */
static size_t count_of(size_t items, size_t step)
{
    return items < AHEAD / step ? items : AHEAD / step;
}

/* Draws words for the items that are still to be filled, and returns how many. */
static size_t draw_words(Words *words, Generator *rng, size_t items)
{
    size_t count = count_of(items, words->step);
    keep_state(rng, &words->before);
    rng->kind->fill_bytes(rng->state, words->bytes, count * words->step);
    return count;
}

/* Leaves the generator after the first `count` of these words. */
static void return_words(Words *words, Generator *rng, size_t count)
{
    memcpy(rng->state, words->before.bytes, rng->kind->size);
    rng->kind->fill_bytes(rng->state, words->bytes, count * words->step);
}

static inline uint64_t word_at(const uint8_t *bytes)
{
    uint64_t word;
    memcpy(&word, bytes, sizeof word);
    return word;
}

static inline uint32_t short_word_at(const uint8_t *bytes)
{
    uint32_t word;
    memcpy(&word, bytes, sizeof word);
    return word;
}

/* ---- Items. ---- */

/* The bounds of a range, as their 64 bits. */
typedef struct {
    uint64_t first, last;
} Span;

/* Fills the items of a view, and returns a status. */
typedef nanorand_status Fill(Generator *rng, const Py_buffer *view, const Span *span);

static nanorand_status fill_bytes(Generator *rng, const Py_buffer *view, const Span *Py_UNUSED(span))
{
    rng->kind->fill_bytes(rng->state, view->buf, (size_t)view->len);
    return NANORAND_OK;
}

/* ---- Numbers of a range. ---- */

/*
 * Each number below `size` has as many words as every other one: those whose product with the size has the number as
 * its upper half. So that they are equally many, `rejects` words are rejected (Daniel Lemire, "Fast Random Integer
 * Generation in an Interval", 2019). This is the rule of the library's ranges.
 */
__extension__ typedef unsigned __int128 Product;

enum { MOST_WORDS = 128 }; /* for one number */

/* Whether a word of 64 bits names a number, which is written. A size of 0 stands for 2^64. */
static inline int names_wide(uint64_t word, uint64_t size, uint64_t rejects, uint64_t *number)
{
    Product product = (Product)word * size;
    *number = size == 0 ? word : (uint64_t)(product >> 64);
    return (uint64_t)product >= rejects;
}

/* The same for a word of 32 bits, and a size of at most 2^32. */
static inline int names_narrow(uint32_t word, uint64_t size, uint32_t rejects, uint64_t *number)
{
    uint64_t product = word * size;
    *number = product >> 32;
    return (uint32_t)product >= rejects;
}

/* Numbers of a range of 64-bit words, or else of 32-bit words, and how many words were rejected since the last one. */
typedef struct {
    uint64_t first, size, rejects;
    unsigned rejected;
    uint64_t found[MOST_AHEAD];
} Numbers;

static void begin_numbers(Numbers *numbers, const Span *span, int wide)
{
    const uint64_t all = wide ? 0 : (uint64_t)1 << 32; /* 0 stands for 2^64 */
    numbers->first = span->first;
    numbers->size = span->last - span->first + 1;
    numbers->rejects = numbers->size == 0 ? 0 : (all - numbers->size) % numbers->size;
    numbers->rejected = 0;
}

/*
 * Finds the numbers that words name, and returns how many. It ends early if MOST_WORDS in a row were rejected. Each
 * number is written, and the next one takes its place if the word was rejected: a branch would be mispredicted.
 */
static inline __attribute__((always_inline)) size_t find_numbers(Numbers *numbers, const Words *words, size_t *count,
                                                                 const int wide)
{
    const uint64_t size = numbers->size, rejects = numbers->rejects;
    const size_t step = words->step;
    size_t found = 0;
    for (size_t place = 0; place < *count; place++) {
        const uint8_t *bytes = words->bytes + place * step;
        uint64_t number;
        int named = wide ? names_wide(word_at(bytes), size, rejects, &number)
                         : names_narrow(short_word_at(bytes), size, (uint32_t)rejects, &number);
        numbers->found[found] = numbers->first + number;
        found += (size_t)named;
        numbers->rejected = named ? 0 : numbers->rejected + 1;
        if (numbers->rejected == MOST_WORDS) {
            *count = place + 1;
        }
    }
    return found;
}

/* Writes the lowest bytes of numbers to items of a width that is a constant where this is called. */
static inline __attribute__((always_inline)) void write_items(uint8_t *items, const size_t width,
                                                              const uint64_t *numbers, size_t count)
{
    for (size_t i = 0; i < count; i++) {
        memcpy(items + i * width, &numbers[i], width);
    }
}

static void write_numbers(uint8_t *items, size_t width, const uint64_t *numbers, size_t count)
{
    switch (width) {
    case 1:
        write_items(items, 1, numbers, count);
        break;
    case 2:
        write_items(items, 2, numbers, count);
        break;
    case 4:
        write_items(items, 4, numbers, count);
        break;
    default:
        write_items(items, 8, numbers, count);
        break;
    }
}

static nanorand_status fill_range(Generator *rng, const Py_buffer *view, const Span *span)
{
    const size_t width = (size_t)view->itemsize, items = (size_t)view->len / width;
    const int wide = width == sizeof(uint64_t);
    Words words;
    Numbers numbers;
    words.step = step_of(rng->kind, wide ? sizeof(uint64_t) : sizeof(uint32_t));
    begin_numbers(&numbers, span, wide);
    for (size_t filled = 0; filled < items;) {
        size_t count = draw_words(&words, rng, items - filled);
        size_t found = wide ? find_numbers(&numbers, &words, &count, 1) : find_numbers(&numbers, &words, &count, 0);
        write_numbers((uint8_t *)view->buf + filled * width, width, numbers.found, found);
        filled += found;
        if (numbers.rejected == MOST_WORDS) {
            return_words(&words, rng, count);
            return NANORAND_EXHAUSTED;
        }
    }
    return NANORAND_OK;
}

/* ---- Floats. ---- */

/* Converts words to items, which may be in the same place. */
static void convert_doubles(uint8_t *items, const uint8_t *words, size_t step, size_t count)
{
    for (size_t i = 0; i < count; i++) {
        double number = unit_of(word_at(words + i * step));
        memcpy(items + i * sizeof number, &number, sizeof number);
    }
}

/* A float has 24 bits of precision. */
static void convert_floats(uint8_t *items, const uint8_t *words, size_t step, size_t count)
{
    for (size_t i = 0; i < count; i++) {
        float number = (float)(word_at(words + i * step) >> 40) * 0x1p-24f;
        memcpy(items + i * sizeof number, &number, sizeof number);
    }
}

/* Fills items of one word each. Words that take as many bytes as an item are drawn and converted in place. */
static nanorand_status fill_converted(Generator *rng, const Py_buffer *view,
                              void convert(uint8_t *items, const uint8_t *words, size_t step, size_t count))
{
    const size_t width = (size_t)view->itemsize, items = (size_t)view->len / width;
    const size_t step = step_of(rng->kind, sizeof(uint64_t));
    uint8_t scratch[AHEAD];
    for (size_t filled = 0; filled < items;) {
        uint8_t *place = (uint8_t *)view->buf + filled * width, *words = step == width ? place : scratch;
        size_t count = count_of(items - filled, step);
        rng->kind->fill_bytes(rng->state, words, count * step);
        convert(place, words, step, count);
        filled += count;
    }
    return NANORAND_OK;
}

static nanorand_status fill_doubles(Generator *rng, const Py_buffer *view, const Span *Py_UNUSED(span))
{
    return fill_converted(rng, view, convert_doubles);
}

static nanorand_status fill_floats(Generator *rng, const Py_buffer *view, const Span *Py_UNUSED(span))
{
    return fill_converted(rng, view, convert_floats);
}

/* Fills a view in one turn, and releases it. */
static PyObject *fill_view(Generator *rng, Py_buffer *view, Fill *fill, const Span *span)
{
    Turn turn;
    PyObject *done = NULL;
    if (begin_turn(rng, (size_t)view->len, &turn) == 0) {
        nanorand_status status = fill(rng, view, span);
        end_turn(rng, &turn);
        done = none_of(status);
    }
    PyBuffer_Release(view);
    return done;
}

/* ---- The functions. ---- */

static PyObject *call_fill(PyObject *self, PyObject *const *given, Py_ssize_t placed, PyObject *names)
{
    static const Parameters wanted = {"fill", 1, 1, 1, {"buffer"}};
    PyObject *buffer;
    Py_buffer view;
    if (take_arguments(&wanted, given, placed, names, &buffer) < 0 || open_buffer(buffer, "BHILQbhilqc", &view) < 0) {
        return NULL;
    }
    return fill_view((Generator *)self, &view, fill_bytes, NULL);
}

static int is_signed(const Py_buffer *view)
{
    return strchr("bhilq", format_of(view)) != NULL;
}

/* Reads both bounds, which the items must be able to hold. */
static int take_span(const Py_buffer *view, PyObject *const *bounds, Span *span)
{
    int unused = 64 - 8 * (int)view->itemsize + is_signed(view);
    const uint64_t greatest = UINT64_MAX >> unused;
    const int64_t least = is_signed(view) ? -(int64_t)greatest - 1 : 0;
    Whole first, last;
    if (take_whole("first", bounds[0], least, greatest, &first) < 0
        || take_whole("last", bounds[1], least, greatest, &last) < 0) {
        return -1;
    }
    if (is_above(first, last)) {
        raise_empty(first, last);
        return -1;
    }
    *span = (Span){first.bits, last.bits};
    return 0;
}

static PyObject *call_fill_range(PyObject *self, PyObject *const *given, Py_ssize_t placed, PyObject *names)
{
    static const Parameters wanted = {"fill_range", 3, 3, 3, {"buffer", "first", "last"}};
    PyObject *values[3];
    Py_buffer view;
    Span span;
    if (take_arguments(&wanted, given, placed, names, values) < 0 || open_buffer(values[0], "BHILQbhilq", &view) < 0) {
        return NULL;
    }
    if (take_span(&view, values + 1, &span) < 0) {
        PyBuffer_Release(&view);
        return NULL;
    }
    return fill_view((Generator *)self, &view, fill_range, &span);
}

static PyObject *call_fill_random(PyObject *self, PyObject *const *given, Py_ssize_t placed, PyObject *names)
{
    static const Parameters wanted = {"fill_random", 1, 1, 1, {"buffer"}};
    PyObject *buffer;
    Py_buffer view;
    if (take_arguments(&wanted, given, placed, names, &buffer) < 0 || open_buffer(buffer, "df", &view) < 0) {
        return NULL;
    }
    return fill_view((Generator *)self, &view, format_of(&view) == 'd' ? fill_doubles : fill_floats, NULL);
}

/* ---- The methods. ---- */

PyDoc_STRVAR(fill_doc,
"fill($self, /, buffer)\n"
"--\n"
"\n"
"Fill a buffer with the next bytes, by one request (one read from the generator). They are the bytes\n"
"that `bytes` returns.\n"
"\n"
"Parameters\n"
"----------\n"
"buffer : writable buffer\n"
"    Contiguous memory of bytes or integers, such as a bytearray, an array, a memoryview or a NumPy\n"
"    array. An empty buffer draws nothing.\n"
"\n"
"Raises\n"
"------\n"
"TypeError\n"
"    If the items are of another kind. Nothing was drawn.\n"
"BufferError\n"
"    If the memory is read-only or not C-contiguous. Nothing was drawn.\n"
"\n"
"Examples\n"
"--------\n"
">>> from nanorand import Stream\n"
">>> buffer = bytearray(4)\n"
">>> Stream(bytes(32)).fill(buffer)\n"
">>> buffer.hex()\n"
"'76b8e0ad'\n");

PyDoc_STRVAR(fill_range_doc,
"fill_range($self, /, buffer, first, last)\n"
"--\n"
"\n"
"Fill a buffer with random integers from `first` to `last`, both included, one draw for each item.\n"
"\n"
"Items of 8 bytes get the numbers that `range(first, last)` returns, and narrower items get `first` +\n"
"`range32(0, last - first)`.\n"
"\n"
"Parameters\n"
"----------\n"
"buffer : writable buffer\n"
"    Contiguous memory of integers, of the formats B, H, I, L, Q, and signed b, h, i, l, q. An empty\n"
"    buffer draws nothing.\n"
"first, last : int\n"
"    Bounds that the items can hold.\n"
"\n"
"Raises\n"
"------\n"
"OutOfBounds\n"
"    If an item cannot hold a bound. Nothing was drawn.\n"
"EmptyRange\n"
"    If `first` is greater than `last`. Nothing was drawn.\n"
"TypeError\n"
"    If the items are of another kind. Nothing was drawn.\n"
"BufferError\n"
"    If the memory is read-only or not C-contiguous. Nothing was drawn.\n"
"Exhausted\n"
"    If 128 words (random integers of 64 bits, or 32 for narrower items) in a row were rejected for\n"
"    one item. The items before it are written, and the words stay consumed.\n"
"\n"
"Notes\n"
"-----\n"
"Each item is one request (one read from the generator), which takes a block of 64 bytes from the\n"
"ChaCha classes. To fill a buffer with uniform bytes, use `fill`.\n"
"\n"
"Examples\n"
"--------\n"
">>> from array import array\n"
">>> from nanorand import WyRand\n"
">>> dice = array(\"B\", bytes(6))\n"
">>> WyRand.seed_from_u64(42).fill_range(dice, 1, 6)\n"
">>> dice\n"
"array('B', [5, 2, 3, 1, 4, 6])\n");

PyDoc_STRVAR(fill_random_doc,
"fill_random($self, /, buffer)\n"
"--\n"
"\n"
"Fill a buffer with random floats in [0.0, 1.0), one `u64` for each item.\n"
"\n"
"Items of the format d get the numbers that `random()` returns. Items of the format f get the upper\n"
"24 bits of the `u64`, times 2^-24.\n"
"\n"
"Parameters\n"
"----------\n"
"buffer : writable buffer\n"
"    Contiguous memory of floats, of the formats d and f.\n"
"\n"
"Raises\n"
"------\n"
"TypeError\n"
"    If the items are of another kind. Nothing was drawn.\n"
"BufferError\n"
"    If the memory is read-only or not C-contiguous. Nothing was drawn.\n"
"\n"
"Examples\n"
"--------\n"
">>> from array import array\n"
">>> from nanorand import WyRand\n"
">>> floats = array(\"d\", [0, 0])\n"
">>> WyRand.seed_from_u64(42).fill_random(floats)\n"
">>> rng = WyRand.seed_from_u64(42)\n"
">>> floats.tolist() == [rng.random(), rng.random()]\n"
"True\n");

PyMethodDef fill_calls[] = {
    {"fill", CALL(call_fill), METH_FASTCALL | METH_KEYWORDS, fill_doc},
    {"fill_range", CALL(call_fill_range), METH_FASTCALL | METH_KEYWORDS, fill_range_doc},
    {"fill_random", CALL(call_fill_random), METH_FASTCALL | METH_KEYWORDS, fill_random_doc},
    {NULL, NULL, 0, NULL},
};
