/* The functions of the library for CPython, on its stable ABI: what the package has by ctypes and in Python where this is missing. They
 * take addresses and numbers, at which the package has looked, and answer a number, a bool, or the fields of a struct; those that
 * write into a buffer take its size, and answer the fields and the bytes. */
#define Py_LIMITED_API 0x030B0000
#include <Python.h>
#include <string.h>

#include "fillaqut.h"

/* Whether so many are given, addresses and numbers; None is the null address. Else an exception is set. */
static bool taken(size_t *it, int expected, PyObject *const *given, Py_ssize_t count) {
    if (count != expected) return PyErr_Format(PyExc_TypeError, "%d arguments are expected, and %zd given", expected, count), false;
    for (int at = 0; at < expected; at++) it[at] = given[at] == Py_None ? 0 : PyLong_AsSize_t(given[at]);
    return !PyErr_Occurred();
}

/* A struct sequence of these numbers. */
static PyObject *fields(PyTypeObject *type, int count, const size_t *numbers) {
    PyObject *made = PyStructSequence_New(type);
    for (int at = 0; made && at < count; at++) {
        PyObject *it = PyLong_FromSize_t(numbers[at]);
        if (!it) return Py_DECREF(made), NULL;
        PyStructSequence_SetItem(made, at, it);
    }
    return made;
}

/* A page of so many bytes is read without the lock of the interpreter: what is given up, or NULL. */
static size_t long_page = SIZE_MAX;

static PyThreadState *without_lock(size_t length) {
    return length < long_page ? NULL : PyEval_SaveThread();
}

static void with_lock(PyThreadState *given_up) {
    if (given_up) PyEval_RestoreThread(given_up);
}

/* Room for a text: its own, or memory that is asked for. */
struct buffer {
    uint8_t *bytes;
    size_t size;
    uint8_t own[4096];
};

static bool has_room(struct buffer *buffer, size_t size) {
    buffer->size = size;
    buffer->bytes = size <= sizeof buffer->own ? buffer->own : PyMem_Malloc(size);
    if (!buffer->bytes) PyErr_NoMemory();
    return buffer->bytes;
}

static void leave(struct buffer *buffer) {
    if (buffer->bytes != buffer->own) PyMem_Free(buffer->bytes);
}

/* Whether there is another buffer of this size, in place of this one. */
static bool has_other_room(struct buffer *buffer, size_t size) {
    leave(buffer);
    return has_room(buffer, size);
}

/* What was found and the text in the buffer, which is left. */
static PyObject *with_text(PyObject *found, struct buffer *buffer, size_t length) {
    PyObject *text = found ? PyBytes_FromStringAndSize((const char *)buffer->bytes, (Py_ssize_t)length) : NULL;
    PyObject *both = text ? PyTuple_Pack(2, found, text) : NULL;
    leave(buffer);
    Py_XDECREF(text);
    Py_XDECREF(found);
    return both;
}

#define ANSWER(name, type, count, ...)                                                                                         \
    static PyStructSequence_Desc struct_##name = {"fillaqut._fast." #name, NULL, fields_##name, count};                 \
    static PyTypeObject *type_##name;                                                                                          \
    static PyObject *of_##name(struct type it) { return fields(type_##name, count, (const size_t[]){__VA_ARGS__}); }
#define ANSWER2(name, type, a, b)                                                                                              \
    static PyStructSequence_Field fields_##name[] = {{#a, NULL}, {#b, NULL}, {NULL, NULL}};                                    \
    ANSWER(name, type, 2, it.a, it.b)
#define ANSWER3(name, type, a, b, c)                                                                                           \
    static PyStructSequence_Field fields_##name[] = {{#a, NULL}, {#b, NULL}, {#c, NULL}, {NULL, NULL}};                        \
    ANSWER(name, type, 3, it.a, it.b, it.c)
#define ANSWER4(name, type, a, b, c, d)                                                                                        \
    static PyStructSequence_Field fields_##name[] = {{#a, NULL}, {#b, NULL}, {#c, NULL}, {#d, NULL}, {NULL, NULL}};            \
    ANSWER(name, type, 4, it.a, it.b, it.c, it.d)
#define ANSWER5(name, type, a, b, c, d, e)                                                                                     \
    static PyStructSequence_Field fields_##name[] = {{#a, NULL}, {#b, NULL}, {#c, NULL}, {#d, NULL}, {#e, NULL}, {NULL, NULL}}; \
    ANSWER(name, type, 5, it.a, it.b, it.c, it.d, it.e)
#define ANSWER8(name, type, a, b, c, d, e, f, g, h)                                                                            \
    static PyStructSequence_Field fields_##name[] = {                                                                          \
        {#a, NULL}, {#b, NULL}, {#c, NULL}, {#d, NULL}, {#e, NULL}, {#f, NULL}, {#g, NULL}, {#h, NULL}, {NULL, NULL}};         \
    ANSWER(name, type, 8, it.a, it.b, it.c, it.d, it.e, it.f, it.g, it.h)
/* What calls a function; `page` is the length of the page where it reads a whole one, and else 0. */
#define SCANNER_OF(page, name, made, expected, ...)                                                                            \
    static __typeof__(mds_##name) *its_##name;                                                                                 \
    static PyObject *call_##name(PyObject *module, PyObject *const *given, Py_ssize_t count) {                                 \
        size_t it[expected];                                                                                                   \
        (void)module;                                                                                                          \
        if (!taken(it, expected, given, count)) return NULL;                                                                   \
        PyThreadState *given_up = without_lock(page);                                                                          \
        __typeof__(its_##name(__VA_ARGS__)) found = its_##name(__VA_ARGS__);                                                   \
        with_lock(given_up);                                                                                                   \
        return made(found);                                                                                                    \
    }
#define WRITER_OF(page, name, type, made, expected, ...)                                                                       \
    static __typeof__(mds_##name) *its_##name;                                                                                 \
    static struct type write_##name(const size_t *it, struct buffer *buffer) {                                                 \
        PyThreadState *given_up = without_lock(page);                                                                          \
        struct type found = its_##name(__VA_ARGS__, buffer->bytes, buffer->size);                                              \
        with_lock(given_up);                                                                                                   \
        return found;                                                                                                          \
    }                                                                                                                          \
    static PyObject *call_##name(PyObject *module, PyObject *const *given, Py_ssize_t count) {                                 \
        size_t it[expected + 1];                                                                                               \
        struct buffer buffer;                                                                                                  \
        (void)module;                                                                                                          \
        if (!taken(it, expected + 1, given, count) || !has_room(&buffer, it[expected])) return NULL;                           \
        struct type found = write_##name(it, &buffer);                                                                         \
        while (found.status == MDS_TOO_SHORT && has_other_room(&buffer, found.length)) found = write_##name(it, &buffer);      \
        return with_text(buffer.bytes ? made(found) : NULL, &buffer, found.status == MDS_OK ? found.length : 0);               \
    }
#define SCANNER(...) SCANNER_OF(0, __VA_ARGS__)
#define WRITER(...) WRITER_OF(0, __VA_ARGS__)
#define PAGE_SCANNER(...) SCANNER_OF(it[1], __VA_ARGS__)
#define PAGE_WRITER(...) WRITER_OF(it[1], __VA_ARGS__)
#include "calls.h"

/* The address of the bytes of a buffer, which somebody else holds. */
static PyObject *address_of(PyObject *module, PyObject *buffer) {
    Py_buffer view;
    (void)module;
    if (PyObject_GetBuffer(buffer, &view, PyBUF_SIMPLE) < 0) return NULL;
    PyObject *found = PyLong_FromVoidPtr(view.buf);
    PyBuffer_Release(&view);
    return found;
}

/* The address of the UTF-8 of a str, which Python keeps with it. */
static PyObject *address_of_text(PyObject *module, PyObject *text) {
    (void)module;
    const char *found = PyUnicode_AsUTF8AndSize(text, NULL);
    return found ? PyLong_FromVoidPtr((void *)found) : NULL;
}

/* How many bytes stand there. */
static PyObject *size_of_text(PyObject *module, PyObject *text) {
    Py_ssize_t size;
    (void)module;
    return PyUnicode_AsUTF8AndSize(text, &size) ? PyLong_FromSsize_t(size) : NULL;
}

#define STEP 64

static size_t after_character(const uint8_t *text, size_t at) {
    do at++;
    while ((text[at] & 0xC0) == 0x80);
    return at;
}

static size_t byte_of(const uint8_t *text, const size_t *marks, size_t place) {
    size_t at = marks[place / STEP];
    for (size_t left = place % STEP; left > 0; left--) at = after_character(text, at);
    return at;
}

/* Of a str, the address of the places in its UTF-8 of every STEP-th character and of the end, and two places of the str: the address
 * of that UTF-8, the byte of the first place, and how many bytes stand there up to the last. */
static PyObject *span(PyObject *module, PyObject *const *given, Py_ssize_t count) {
    size_t it[3];
    (void)module;
    if (!taken(it, 3, given + 1, count - 1)) return NULL;
    const char *text = PyUnicode_AsUTF8AndSize(given[0], NULL);
    if (!text) return NULL;
    size_t first = byte_of((const uint8_t *)text, (const size_t *)it[0], it[1]);
    size_t last = byte_of((const uint8_t *)text, (const size_t *)it[0], it[2]);
    return Py_BuildValue("NNN", PyLong_FromVoidPtr((void *)text), PyLong_FromSize_t(first), PyLong_FromSize_t(last - first));
}

/* Of a str, such an address, how many places stand there, and a byte: its place in the str, or that of its character. */
static PyObject *index_of(PyObject *module, PyObject *const *given, Py_ssize_t count) {
    size_t it[3];
    (void)module;
    if (!taken(it, 3, given + 1, count - 1)) return NULL;
    const uint8_t *text = (const uint8_t *)PyUnicode_AsUTF8AndSize(given[0], NULL);
    if (!text) return NULL;
    const size_t *marks = (const size_t *)it[0];
    size_t block = 0, past = it[1] - 1;
    size_t byte = it[2] < marks[past] ? it[2] : marks[past];
    while (past - block > 1) { /* the block begins at the byte or before it, and `past` stands after it */
        size_t middle = block + (past - block) / 2;
        if (marks[middle] <= byte) block = middle;
        else past = middle;
    }
    size_t index = block * STEP, at = marks[block];
    while (at < byte && (at = after_character(text, at)) <= byte) index++;
    return PyLong_FromSize_t(index);
}

/* Puts the kinds and the elements of so many events, which are below 256, and where they start and stop, into columns. */
static void split(const struct mds_event *events, size_t count, uint8_t *kinds, uint8_t *elements, size_t *starts, size_t *stops) {
    for (size_t at = 0; at < count; at++) {
        kinds[at] = (uint8_t)events[at].kind;
        elements[at] = (uint8_t)events[at].element;
        starts[at] = events[at].start;
        stops[at] = events[at].end;
    }
}

/* So of the addresses of events and of columns. */
static PyObject *split_events(PyObject *module, PyObject *const *given, Py_ssize_t count) {
    size_t it[6];
    (void)module;
    if (!taken(it, 6, given, count)) return NULL;
    PyThreadState *given_up = without_lock(it[1]);
    split((void *)it[0], it[1], (void *)it[2], (void *)it[3], (void *)it[4], (void *)it[5]);
    with_lock(given_up);
    Py_RETURN_NONE;
}

#define NEAR 8 /* of so many bytes each it is kept how many characters stand before them */

/* How many characters begin there. */
static size_t characters(const uint8_t *text, size_t from, size_t to) {
    size_t found = 0;
    for (size_t at = from; at < to; at++) found += (text[at] & 0xC0) != 0x80;
    return found;
}

/* How many of NEAR bytes begin one: all but those whose upper bits are 10. */
static size_t near_characters(const uint8_t *text) {
    const uint64_t ones = 0x0101010101010101;
    uint64_t bytes;
    memcpy(&bytes, text, NEAR);
    return NEAR - ((bytes >> 7 & ~(bytes >> 6) & ones) * ones >> 56);
}

/* Puts how many characters stand before each NEAR-th byte of a text there, where it begins with 0. */
static void count_near(size_t *before, const uint8_t *text, size_t length) {
    for (size_t step = 0; step < length / NEAR; step++) before[step + 1] = before[step] + near_characters(text + step * NEAR);
}

/* Puts in the place of each of so many places of bytes how many characters stand before it, and so many more. */
static void count_places(size_t *places, size_t count, const size_t *before, const uint8_t *text, size_t more) {
    for (size_t at = 0; at < count; at++) {
        size_t step = places[at] / NEAR;
        places[at] = more + before[step] + characters(text, step * NEAR, places[at]);
    }
}

/* So of a text in UTF-8, its address and length, and of places of its bytes, their address and how many they are, and so many more. */
static PyObject *count_characters(PyObject *module, PyObject *const *given, Py_ssize_t count) {
    size_t it[5];
    (void)module;
    if (!taken(it, 5, given, count)) return NULL;
    size_t *before = PyMem_Calloc(it[1] / NEAR + 1, sizeof *before);
    if (!before) return PyErr_NoMemory();
    PyThreadState *given_up = without_lock(it[1]);
    count_near(before, (const uint8_t *)it[0], it[1]);
    count_places((size_t *)it[2], it[3], before, (const uint8_t *)it[0], it[4]);
    with_lock(given_up);
    PyMem_Free(before);
    Py_RETURN_NONE;
}

/* Whether the dict has an address under the name, which the function takes. */
static bool is_bound(PyObject *addresses, const char *name, void *function) {
    PyObject *it = PyDict_GetItemString(addresses, name);
    void *found = it ? PyLong_AsVoidPtr(it) : NULL;
    if (!found && !PyErr_Occurred()) PyErr_SetString(PyExc_KeyError, name);
    memcpy(function, &found, sizeof found);
    return found;
}

/* Takes the addresses of the library's functions, by their names, and the length of a long page. */
static PyObject *bind(PyObject *module, PyObject *const *given, Py_ssize_t count) {
    (void)module;
    if (!taken(&long_page, 1, given + 1, count - 1)) return NULL;
    PyObject *addresses = given[0];
#define BIND(name)                                                                                                             \
    if (!is_bound(addresses, #name, &its_##name)) return NULL;
    EACH_FUNCTION(BIND)
    Py_RETURN_NONE;
}

static PyMethodDef METHODS[] = {
#define METHOD(name) {#name, (PyCFunction)(void (*)(void))call_##name, METH_FASTCALL, NULL},
    EACH_FUNCTION(METHOD)
    {"address_of", address_of, METH_O, NULL},
    {"address_of_text", address_of_text, METH_O, NULL},
    {"bind", (PyCFunction)(void (*)(void))bind, METH_FASTCALL, NULL},
    {"count_characters", (PyCFunction)(void (*)(void))count_characters, METH_FASTCALL, NULL},
    {"index_of", (PyCFunction)(void (*)(void))index_of, METH_FASTCALL, NULL},
    {"size_of_text", size_of_text, METH_O, NULL},
    {"split_events", (PyCFunction)(void (*)(void))split_events, METH_FASTCALL, NULL},
    {"span", (PyCFunction)(void (*)(void))span, METH_FASTCALL, NULL},
    {NULL, NULL, 0, NULL},
};

static struct PyModuleDef MODULE = {PyModuleDef_HEAD_INIT, "_fast", NULL, -1, METHODS, NULL, NULL, NULL, NULL};

PyMODINIT_FUNC PyInit__fast(void) {
#define TYPE(name)                                                                                                             \
    if (!(type_##name = PyStructSequence_NewType(&struct_##name))) return NULL;
    EACH_ANSWER(TYPE)
    return PyModule_Create(&MODULE);
}
