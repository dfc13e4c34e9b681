/* The calls of zerotrie that a program makes one by one, for CPython: look-ups and listings of a
 * Reader, which a trie is, look-ups of a Table, which Index is, and steps of a Place, which Cursor
 * is. _readers.py has these types once more, by ctypes, and takes these if they are there.
 *
 * A short call keeps the lock of the interpreter, as a look-up takes less time than to release it.
 * A long one releases it, and holds a reference to the bytes meanwhile. What may run code in
 * Python, such as to ask a number or a key of another type, comes before anything that the object
 * holds is read. */
#define Py_LIMITED_API 0x03090000
#define PY_SSIZE_T_CLEAN
#include <Python.h>
#include <stdlib.h>
#include <string.h>

#include "zerotrie.h"

/* The functions of the library, and their names in the same order. __init__.py loads the library,
 * which stays loaded, and passes their addresses to bind(). */
static struct {
    __typeof__(zerotrie_get) *get;
    __typeof__(zerotrie_longest_prefix) *longest_prefix;
    __typeof__(zerotrie_longest_prefix_at) *longest_prefix_at;
    __typeof__(zerotrie_common_prefixes) *common_prefixes;
    __typeof__(zerotrie_list_some) *list_some;
    __typeof__(zerotrie_search_some) *search_some;
    __typeof__(zerotrie_sorted_some) *sorted_some;
    __typeof__(zerotrie_last_within) *last_within;
    __typeof__(zerotrie_index_get) *index_get;
    __typeof__(zerotrie_cursor_new) *cursor_new;
    __typeof__(zerotrie_with_prefix) *with_prefix;
    __typeof__(zerotrie_cursor_step) *cursor_step;
    __typeof__(zerotrie_cursor_take_value) *cursor_take_value;
    __typeof__(zerotrie_cursor_probe) *cursor_probe;
} library;
static const char *const names[] = {
    "zerotrie_get", "zerotrie_longest_prefix", "zerotrie_longest_prefix_at",
    "zerotrie_common_prefixes", "zerotrie_list_some", "zerotrie_search_some",
    "zerotrie_sorted_some", "zerotrie_last_within", "zerotrie_index_get", "zerotrie_cursor_new",
    "zerotrie_with_prefix", "zerotrie_cursor_step", "zerotrie_cursor_take_value",
    "zerotrie_cursor_probe",
};
enum { NAMES = sizeof names / sizeof *names };

/* From this many keys on get_many() lets other threads run. */
enum { MANY = 256 };
/* This many prefixes of a text are found without an allocation. */
enum { FEW = 32 };
/* A key of this many bytes that _end() returns needs no room of its own. */
enum { SHORT = 256 };

/* The number that a Table holds in place of a kind. _readers.py has the same. */
#define INDEX 0xFFFFFFFF

/* A Reader, a Table or a Place: a kind, bytes that `view` keeps in place, whether keys are returned as text,
 * and the cursor of a Place. Before it is set up it has neither view nor bytes, and no view once
 * closed. */
typedef struct {
    PyObject_HEAD
    PyObject *view;
    const uint8_t *bytes;
    size_t len;
    uint32_t kind;
    bool text;
    zerotrie_cursor cursor;
} Held;

/* None, as a result. Py_RETURN_NONE of Python 3.12's headers counts no reference, and an older
 * Python that runs it needs one. */
static PyObject *none(void) {
    return Py_BuildValue("");
}

/* What the object holds. NULL and an exception if it is not set up, or closed. */
static Held *held_by(PyObject *object) {
    Held *held = (Held *)object;
    if (held->view)
        return held;
    if (held->bytes)
        PyErr_SetString(PyExc_ValueError, "the trie is closed");
    else
        PyErr_SetString(PyExc_AttributeError,
                        "nothing is set up here: __init__() was not called, or failed");
    return NULL;
}

/* Sets the object up, once: _hold(view, kind, address, length, text). The view keeps that many
 * bytes at the address. */
static PyObject *hold(PyObject *object, PyObject *args) {
    Held *held = (Held *)object;
    PyObject *view;
    unsigned int kind;
    unsigned long long address;
    Py_ssize_t len;
    int text = 0;
    if (!PyArg_ParseTuple(args, "OIKn|p:_hold", &view, &kind, &address, &len, &text))
        return NULL;
    if (held->bytes) {
        PyErr_SetString(PyExc_TypeError,
                        "this is set up already, and stays as it is: make another one");
        return NULL;
    }
    held->kind = kind;
    held->bytes = (const uint8_t *)(uintptr_t)address;
    held->len = (size_t)len;
    held->text = text;
    held->cursor = library.cursor_new(held->bytes, held->len);
    Py_INCREF(view);
    held->view = view;
    return none();
}

/* Shows the collector of cycles what the object refers to. */
static int traverse(PyObject *object, visitproc visit, void *arg) {
    Py_VISIT(Py_TYPE(object));
    Py_VISIT(((Held *)object)->view);
    return 0;
}

/* Drops the bytes. From here on the object is closed. */
static int clear(PyObject *object) {
    Py_CLEAR(((Held *)object)->view);
    return 0;
}

/* Ends the object. */
static void dealloc(PyObject *object) {
    PyTypeObject *type = Py_TYPE(object);
    PyObject_GC_UnTrack(object);
    (void)clear(object);
    PyObject_GC_Del(object);
    Py_DECREF(type);
}

/* Says in words that the object is of no type that serves, if the exception is a TypeError: "a key
 * is text or bytes, not int". */
static void in_words(const char *what, PyObject *given) {
    PyObject *name;
    if (!PyErr_ExceptionMatches(PyExc_TypeError))
        return;
    PyErr_Clear();
    name = PyObject_GetAttrString((PyObject *)Py_TYPE(given), "__name__");
    if (name)
        PyErr_Format(PyExc_TypeError, "%s, not %S", what, name);
    Py_XDECREF(name);
}

/* A new reference to a `bytes` of the key, whose bytes go to *text. NULL and an exception if it is
 * no key. */
static PyObject *bytes_of(PyObject *key, zerotrie_bytes *text) {
    PyObject *bytes;
    char *start;
    Py_ssize_t len;
    if (PyBytes_CheckExact(key)) {
        Py_INCREF(key);
        bytes = key;
    } else if (PyUnicode_Check(key)) {
        bytes = PyUnicode_AsUTF8String(key);
    } else {
        /* a copy, as what has a buffer may change it; a number has none */
        PyObject *view = PyMemoryView_FromObject(key);
        bytes = view ? PyObject_Bytes(view) : NULL;
        if (!view)
            in_words("a key is text or bytes", key);
        Py_XDECREF(view);
    }
    if (bytes && PyBytes_AsStringAndSize(bytes, &start, &len) < 0)
        Py_CLEAR(bytes);
    if (bytes)
        *text = zerotrie_bytes_of(start, (size_t)len);
    return bytes;
}

/* Bytes of a key as they are returned: `bytes`, or text. */
static PyObject *word_of(bool text, const uint8_t *start, size_t len) {
    if (text)
        return PyUnicode_DecodeUTF8((const char *)start, (Py_ssize_t)len, NULL);
    return PyBytes_FromStringAndSize((const char *)start, (Py_ssize_t)len);
}

/* A pair of a key and its value, as it is returned. */
static PyObject *pair_of(bool text, const uint8_t *start, size_t len, size_t value) {
    PyObject *key = word_of(text, start, len), *number = key ? PyLong_FromSize_t(value) : NULL;
    PyObject *pair = number ? PyTuple_Pack(2, key, number) : NULL;
    Py_XDECREF(key);
    Py_XDECREF(number);
    return pair;
}

/* 1 if the trie or the index has the key, whose value goes to *value. 0 if not. -1 and an exception if it is no
 * key. */
static int find(PyObject *object, PyObject *key, size_t *value) {
    zerotrie_bytes text;
    PyObject *bytes = bytes_of(key, &text);
    Held *held = bytes ? held_by(object) : NULL;
    int found = -1;
    if (held && held->kind == INDEX)
        found = library.index_get(held->bytes, held->len, text.ptr, text.len, value);
    else if (held)
        found = library.get(held->kind, held->bytes, held->len, text.ptr, text.len, value);
    Py_XDECREF(bytes);
    return found;
}

/* trie[key] */
static PyObject *reader_getitem(PyObject *object, PyObject *key) {
    size_t value;
    int found = find(object, key, &value);
    if (found > 0)
        return PyLong_FromSize_t(value);
    if (!found) {
        /* the error is made here: to raise a key that is a tuple or an error would spread it, or
         * raise the key itself */
        PyObject *error = PyObject_CallFunctionObjArgs(PyExc_KeyError, key, NULL);
        if (error)
            PyErr_SetObject(PyExc_KeyError, error);
        Py_XDECREF(error);
    }
    return NULL;
}

/* key in trie. What can be no key is none. */
static int reader_contains(PyObject *object, PyObject *key) {
    size_t value;
    const int found = find(object, key, &value);
    if (found >= 0
        || (!PyErr_ExceptionMatches(PyExc_TypeError)
            && !PyErr_ExceptionMatches(PyExc_UnicodeEncodeError)))
        return found;
    PyErr_Clear();
    return held_by(object) ? 0 : -1;
}

/* The front of a Py_buffer. Each Python has this function and this slot; the headers of the stable
 * ABI show them from 3.11 on. */
typedef struct {
    void *start;
    PyObject *owner;
} Buffer;
PyAPI_FUNC(int) PyObject_GetBuffer(PyObject *, Buffer *, int);
enum { GET_BUFFER = 1 };

/* memoryview(trie): the bytes without the tag, read-only, as the view has them. */
static int get_buffer(PyObject *object, Buffer *buffer, int flags) {
    Held *held = held_by(object);
    if (held)
        return PyObject_GetBuffer(held->view, buffer, flags);
    buffer->owner = NULL;
    return -1;
}

/* trie.get(key, default=None) */
static PyObject *reader_get(PyObject *object, PyObject *args, PyObject *words) {
    static char *parameters[] = { "key", "default", NULL };
    PyObject *key, *result = Py_None;
    size_t value;
    int found;
    if (!words && PyTuple_Size(args) == 1)
        key = PyTuple_GetItem(args, 0);
    else if (!PyArg_ParseTupleAndKeywords(args, words, "O|O:get", parameters, &key, &result))
        return NULL;
    /* held, as the words may be those of somebody else, who changes them meanwhile */
    Py_INCREF(key);
    Py_INCREF(result);
    found = find(object, key, &value);
    Py_DECREF(key);
    if (found) {
        Py_DECREF(result);
        result = found > 0 ? PyLong_FromSize_t(value) : NULL;
    }
    return result;
}

/* A new reference to a `bytes` of the delimiters, which go to *borders. NULL and an exception if
 * they are none: a delimiter is one byte, and a character beyond ASCII has more. */
static PyObject *delimiters_of(PyObject *given, zerotrie_bytes *borders) {
    PyObject *bytes = bytes_of(given, borders);
    if (bytes && PyUnicode_Check(given) && PyUnicode_GetLength(given) != PyBytes_Size(bytes)) {
        PyErr_SetString(PyExc_ValueError, "a delimiter is one byte: name ASCII characters");
        Py_CLEAR(bytes);
    }
    return bytes;
}

/* trie.longest_prefix(text, at=None) */
static PyObject *reader_longest_prefix(PyObject *object, PyObject *args, PyObject *words) {
    static char *parameters[] = { "", "at", NULL };
    PyObject *given, *at = Py_None, *bytes, *borders = NULL, *result = NULL;
    zerotrie_bytes text, ends;
    size_t len, value;
    Held *held;
    bool found = false;
    if (!words && PyTuple_Size(args) == 1)
        given = PyTuple_GetItem(args, 0);
    else if (!PyArg_ParseTupleAndKeywords(args, words, "O|O:longest_prefix", parameters, &given,
                                          &at))
        return NULL;
    Py_INCREF(given);
    Py_INCREF(at);
    bytes = bytes_of(given, &text);
    if (bytes && at != Py_None)
        borders = delimiters_of(at, &ends);
    held = bytes && (at == Py_None || borders) ? held_by(object) : NULL;
    if (held && borders)
        found = library.longest_prefix_at(held->kind, held->bytes, held->len, text.ptr, text.len,
                                          ends.ptr, ends.len, &len, &value);
    else if (held)
        found = library.longest_prefix(held->kind, held->bytes, held->len, text.ptr, text.len, &len,
                                       &value);
    if (held)
        result = found ? pair_of(held->text, text.ptr, len, value) : none();
    Py_XDECREF(bytes);
    Py_XDECREF(borders);
    Py_DECREF(given);
    Py_DECREF(at);
    return result;
}

/* A list of the beginnings of the text that have these lengths, with their values. */
static PyObject *fronts_of(bool text, const uint8_t *start, size_t count, const size_t *lens,
                           const size_t *values) {
    PyObject *list = PyList_New((Py_ssize_t)count);
    for (size_t number = 0; list && number < count; number++) {
        PyObject *pair = pair_of(text, start, lens[number], values[number]);
        if (!pair || PyList_SetItem(list, (Py_ssize_t)number, pair) < 0)
            Py_CLEAR(list);
    }
    return list;
}

/* trie.prefixes(text) */
static PyObject *reader_prefixes(PyObject *object, PyObject *given) {
    size_t few[2 * FEW], *rooms = few, room = FEW, count;
    zerotrie_bytes text;
    PyObject *bytes = bytes_of(given, &text), *result = NULL;
    Held *held = bytes ? held_by(object) : NULL;
    while (held) {
        count = library.common_prefixes(held->kind, held->bytes, held->len, text.ptr, text.len,
                                        rooms, room, rooms + room, room);
        if (count <= room) {
            result = fronts_of(held->text, text.ptr, count, rooms, rooms + room);
            break;
        }
        if (rooms != few)
            free(rooms);
        room = count;
        rooms = malloc(2 * sizeof *rooms * room);
        if (!rooms) {
            rooms = few;
            PyErr_NoMemory();
            break;
        }
    }
    if (rooms != few)
        free(rooms);
    Py_XDECREF(bytes);
    return result;
}

/* Whether the object is a number of so many bits, which goes to *number. If not, an exception says
 * what it should be. */
static bool number_of(PyObject *given, const char *words, const char *what, unsigned bits,
                      size_t *number) {
    PyObject *whole = PyNumber_Index(given);
    if (!whole) {
        in_words(words, given);
        return false;
    }
    *number = PyLong_AsSize_t(whole);
    Py_DECREF(whole);
    if (!PyErr_Occurred() && *number >> (bits - 1) <= 1)
        return true;
    PyErr_Format(PyExc_OverflowError, "%s is from 0 to 2**%u - 1", what, bits);
    return false;
}

/* The length of a row of a column that has no key. */
#define GAP SIZE_MAX

/* Whether a row of a column has no key: it is None, or NaN. _pairs.py has the same. */
static bool is_gap(PyObject *key) {
    double number;
    if (!PyFloat_Check(key))
        return key == Py_None;
    number = PyFloat_AsDouble(key);
    return number != number;
}

/* Looks the keys up, and replaces each by its value, or by `missing`. It releases the lock if they
 * are many. */
static void look_up(Held *held, const zerotrie_bytes *keys, size_t count, size_t missing,
                    size_t *values) {
    PyObject *view = held->view;
    const uint8_t *bytes = held->bytes;
    size_t len = held->len;
    uint32_t kind = held->kind;
    PyThreadState *state;
    Py_INCREF(view);
    state = count < MANY ? NULL : PyEval_SaveThread();
    for (size_t number = 0; number < count; number++) {
        const zerotrie_bytes key = keys[number];
        values[number] = missing;
        if (key.len == GAP)
            continue;
        (void)!(kind == INDEX ? library.index_get(bytes, len, key.ptr, key.len, values + number)
                              : library.get(kind, bytes, len, key.ptr, key.len, values + number));
    }
    if (state)
        PyEval_RestoreThread(state);
    Py_DECREF(view);
}

/* The values of a list of keys and gaps, as the bytes of an array. It makes each key of the list a
 * `bytes`, which keeps its bytes in place. */
static PyObject *values_of(PyObject *object, PyObject *list, size_t missing) {
    Py_ssize_t count = PyList_Size(list);
    zerotrie_bytes *keys = malloc((size_t)count * sizeof *keys + 1);
    const Py_ssize_t size = count * (Py_ssize_t)sizeof(size_t);
    PyObject *values = keys ? PyBytes_FromStringAndSize(NULL, size) : NULL;
    Held *held = NULL;
    Py_ssize_t number = 0;
    if (!keys)
        PyErr_NoMemory();
    for (; values && number < count; number++) {
        PyObject *key = PyList_GetItem(list, number), *bytes;
        if (key && is_gap(key)) {
            keys[number].len = GAP;
            continue;
        }
        bytes = key ? bytes_of(key, keys + number) : NULL;
        if (!bytes || PyList_SetItem(list, number, bytes) < 0)
            break;
    }
    if (values && number == count)
        held = held_by(object);
    if (held)
        look_up(held, keys, (size_t)count, missing, (size_t *)(void *)PyBytes_AsString(values));
    else
        Py_CLEAR(values);
    free(keys);
    return values;
}

/* _values_of(keys, missing): the value of each key, as the bytes of an array. */
static PyObject *reader_values_of(PyObject *object, PyObject *args) {
    PyObject *keys, *given, *list, *values = NULL;
    size_t missing;
    if (!PyArg_ParseTuple(args, "OO:_values_of", &keys, &given))
        return NULL;
    /* a list of this call's own, whose keys nobody else replaces */
    list = PySequence_List(keys);
    if (list && number_of(given, "missing is a whole number", "missing", 64, &missing))
        values = values_of(object, list, missing);
    Py_XDECREF(list);
    return values;
}

/* What a listing is asked for. __init__.py has the same numbers. */
enum { KEYS, VALUES, PAIRS, COUNT };

/* A part of a listing: rooms for keys, where each ends, and values; and how many there are. */
typedef struct {
    uint8_t *keys;
    size_t room, places, *ends, *values, count, next_len;
    uint32_t status;
} Part;

/* The list of what was asked for; a range, if only the number was. */
static PyObject *list_of(const Part *part, long what, bool text) {
    PyObject *list;
    size_t from = 0;
    if (what == COUNT)
        return PyObject_CallFunction((PyObject *)&PyRange_Type, "n", (Py_ssize_t)part->count);
    list = PyList_New((Py_ssize_t)part->count);
    for (size_t number = 0; list && number < part->count; number++) {
        const uint8_t *key = part->keys + from;
        const size_t len = part->ends[number] - from;
        PyObject *made = what == KEYS     ? word_of(text, key, len)
                         : what == VALUES ? PyLong_FromSize_t(part->values[number])
                                          : pair_of(text, key, len, part->values[number]);
        if (!made || PyList_SetItem(list, (Py_ssize_t)number, made) < 0)
            Py_CLEAR(list);
        from = part->ends[number];
    }
    return list;
}

/* Lists a part of a listing between the bounds of a search in the order of bytes, behind the key
 * `last`, or from the lower bound if it is null. */
static uint32_t sorted_part(uint32_t kind, const uint8_t *bytes, size_t len,
                            const zerotrie_search *search, const zerotrie_bytes *last, Part *part) {
    const zerotrie_bytes from = last ? *last : search->text;
    return library.sorted_some(kind, bytes, len, last ? ZEROTRIE_EXCLUDED : search->from_bound,
                               from.ptr, from.len, search->to_bound, search->to.ptr, search->to.len,
                               part->keys, part->room, part->ends, part->places, part->values,
                               part->places, &part->count, &part->next_len);
}

/* Lists a part behind the key `last`, or from the front if it is null; of what a search finds if
 * that is not null, or of its range of keys as they are stored. It releases the lock. */
static void list_part(Held *held, zerotrie_bytes front, const zerotrie_search *search,
                      bool is_range, const zerotrie_bytes *last, Part *part) {
    const zerotrie_bytes after = last ? *last : zerotrie_bytes_of(NULL, 0);
    PyObject *view = held->view;
    const uint8_t *bytes = held->bytes;
    size_t len = held->len;
    uint32_t kind = held->kind;
    PyThreadState *state;
    Py_INCREF(view);
    state = PyEval_SaveThread();
    if (search && is_range)
        part->status = sorted_part(kind, bytes, len, search, last, part);
    else if (search)
        part->status = library.search_some(kind, bytes, len, front.ptr, front.len, search,
                                           last != NULL, after.ptr, after.len, part->keys,
                                           part->room, part->ends, part->places, part->values,
                                           part->places, &part->count, &part->next_len);
    else
        part->status = library.list_some(kind, bytes, len, front.ptr, front.len, last != NULL,
                                         after.ptr, after.len, part->keys, part->room, part->ends,
                                         part->places, part->values, part->places, &part->count,
                                         &part->next_len);
    PyEval_RestoreThread(state);
    Py_DECREF(view);
}

/* The result of _part(): a list, the last key, the status, and the length of the next key. */
static PyObject *told_of(const Part *part, long what, bool text, PyObject *last) {
    PyObject *list = list_of(part, what, text);
    size_t from = part->count > 1 ? part->ends[part->count - 2] : 0;
    if (!list)
        return NULL;
    if (!part->count)
        return Py_BuildValue("(NOIn)", list, last, part->status, (Py_ssize_t)part->next_len);
    return Py_BuildValue("(Ny#In)", list, (const char *)part->keys + from,
                         (Py_ssize_t)(part->ends[part->count - 1] - from), part->status,
                         (Py_ssize_t)part->next_len);
}

/* _part(what, front, last, room, places, search, is_range): the pairs of a listing behind the key
 * `last`, or the first ones if it is None, as many as there is room for; those that are found by the
 * search at this address, if it is not 0; or those of its range, as they are stored. */
static PyObject *reader_part(PyObject *object, PyObject *args) {
    PyObject *front, *last, *result = NULL;
    zerotrie_bytes begins, after;
    Py_ssize_t room, places;
    unsigned long long search = 0;
    int is_range = 0;
    long what;
    Part part = { 0 };
    Held *held = held_by(object);
    if (!held
        || !PyArg_ParseTuple(args, "lSOnn|Kp:_part", &what, &front, &last, &room, &places, &search,
                             &is_range))
        return NULL;
    begins = zerotrie_bytes_of(PyBytes_AsString(front), (size_t)PyBytes_Size(front));
    if (last != Py_None) {
        if (!PyBytes_Check(last)) {
            PyErr_SetString(PyExc_TypeError, "the last key is bytes");
            return NULL;
        }
        after = zerotrie_bytes_of(PyBytes_AsString(last), (size_t)PyBytes_Size(last));
    }
    part.room = (size_t)room;
    part.places = (size_t)places;
    part.keys = malloc(part.room + 1);
    part.ends = malloc(2 * sizeof *part.ends * part.places + 1);
    part.values = part.ends + part.places;
    if (part.keys && part.ends) {
        list_part(held, begins, (const zerotrie_search *)(uintptr_t)search, is_range != 0,
                  last == Py_None ? NULL : &after, &part);
        result = told_of(&part, what, held->text, last);
    } else {
        PyErr_NoMemory();
    }
    free(part.keys);
    free(part.ends);
    return result;
}

/* Writes the key of the last pair up to an upper bound, or of the first one from a lower bound on,
 * in the order of bytes. Returns ZEROTRIE_DONE, ZEROTRIE_NO_ENTRY, an error, or
 * ZEROTRIE_BUFFER_TOO_SMALL if the key, of *len bytes, has no room. */
static uint32_t end_within(const Held *held, bool is_last, zerotrie_bound bound,
                           zerotrie_bytes key, uint8_t *room, size_t size, size_t *len,
                           size_t *value) {
    size_t count = 0, next_len = 0;
    uint32_t status;
    if (is_last)
        return library.last_within(held->kind, held->bytes, held->len, ZEROTRIE_UNBOUNDED, key.ptr,
                                   0, bound, key.ptr, key.len, room, size, len, value);
    status = library.sorted_some(held->kind, held->bytes, held->len, bound, key.ptr, key.len,
                                 ZEROTRIE_UNBOUNDED, key.ptr, 0, room, size, len, 1, value, 1,
                                 &count, &next_len);
    if (count)
        return ZEROTRIE_DONE;
    *len = next_len;
    return status == ZEROTRIE_DONE ? ZEROTRIE_NO_ENTRY : status;
}

/* _end(is_last, bound, key): the last pair up to a bound, or the first one from it on. */
static PyObject *reader_end(PyObject *object, PyObject *args) {
    uint8_t few[SHORT], *room = few, *grown = NULL;
    size_t size = sizeof few, len = 0, value = 0;
    uint32_t status = ZEROTRIE_BUFFER_TOO_SMALL;
    int is_last, bound;
    zerotrie_bytes key;
    PyObject *given, *bytes, *result = NULL;
    Held *held;
    if (!PyArg_ParseTuple(args, "piO:_end", &is_last, &bound, &given))
        return NULL;
    bytes = bytes_of(given, &key);
    held = bytes ? held_by(object) : NULL;
    while (held && room && status == ZEROTRIE_BUFFER_TOO_SMALL) {
        status = end_within(held, is_last != 0, (zerotrie_bound)bound, key, room, size, &len, &value);
        if (status == ZEROTRIE_BUFFER_TOO_SMALL) {
            free(grown);
            room = grown = malloc(size = len);
        }
    }
    if (held && status == ZEROTRIE_DONE)
        result = pair_of(held->text, room, len, value);
    else if (held && status == ZEROTRIE_NO_ENTRY)
        result = none();
    else if (held)
        PyErr_NoMemory();
    free(grown);
    Py_XDECREF(bytes);
    return result;
}

/* _lent(): the view, the kind, where its bytes are, and how many they are. */
static PyObject *reader_lent(PyObject *object, PyObject *Py_UNUSED(unused)) {
    Held *held = held_by(object);
    if (!held)
        return NULL;
    return Py_BuildValue("(OIKn)", held->view, held->kind,
                         (unsigned long long)(uintptr_t)held->bytes, (Py_ssize_t)held->len);
}

/* _close(): drops the bytes. */
static PyObject *reader_close(PyObject *object, PyObject *Py_UNUSED(unused)) {
    (void)clear(object);
    return none();
}

/* Reader[Word], as annotations and base classes write it, is Reader. */
static PyObject *reader_of(PyObject *type, PyObject *Py_UNUSED(word)) {
    Py_INCREF(type);
    return type;
}

/* cursor.step(byte) */
static PyObject *place_step(PyObject *object, PyObject *given) {
    size_t byte;
    uint8_t edge;
    Held *held = NULL;
    if (number_of(given, "a byte is a whole number", "a byte", 8, &byte))
        held = held_by(object);
    if (held
        && library.cursor_step(held->kind, held->bytes, held->len, &held->cursor, (uint8_t)byte,
                               &edge))
        return PyLong_FromLong(edge);
    return held ? none() : NULL;
}

/* cursor.probe(index) */
static PyObject *place_probe(PyObject *object, PyObject *given) {
    size_t index;
    uint8_t edge;
    uint16_t siblings;
    Held *held = NULL;
    if (number_of(given, "an index is a whole number", "an index", 64, &index))
        held = held_by(object);
    if (held
        && library.cursor_probe(held->kind, held->bytes, held->len, &held->cursor, index, &edge,
                                &siblings))
        return Py_BuildValue("(ii)", edge, siblings);
    return held ? none() : NULL;
}

/* cursor.take_value() */
static PyObject *place_take_value(PyObject *object, PyObject *Py_UNUSED(unused)) {
    size_t value;
    Held *held = held_by(object);
    if (held && library.cursor_take_value(held->bytes, held->len, &held->cursor, &value))
        return PyLong_FromSize_t(value);
    return held ? none() : NULL;
}

/* _go(prefix): from the front of the trie, goes behind a prefix. Returns whether a key begins with
 * it. */
static PyObject *place_go(PyObject *object, PyObject *prefix) {
    zerotrie_bytes text;
    PyObject *bytes = bytes_of(prefix, &text), *result = NULL;
    Held *held = bytes ? held_by(object) : NULL;
    if (held) {
        held->cursor = library.with_prefix(held->kind, held->bytes, held->len, text.ptr, text.len);
        result = PyBool_FromLong(!zerotrie_cursor_is_empty(held->cursor));
    }
    Py_XDECREF(bytes);
    return result;
}

/* _copied(): a Place of the same type that holds the same. */
static PyObject *place_copied(PyObject *object, PyObject *Py_UNUSED(unused)) {
    Held *held = held_by(object), *made = NULL;
    if (held)
        made = (Held *)PyType_GenericAlloc(Py_TYPE(object), 0);
    if (made) {
        made->kind = held->kind;
        made->bytes = held->bytes;
        made->len = held->len;
        made->cursor = held->cursor;
        Py_INCREF(held->view);
        made->view = held->view;
    }
    return (PyObject *)made;
}

/* cursor.run */
static PyObject *place_run(PyObject *object, void *Py_UNUSED(unused)) {
    Held *held = held_by(object);
    zerotrie_bytes run;
    if (!held)
        return NULL;
    run = zerotrie_cursor_run(held->bytes, held->len, held->cursor);
    return PyBytes_FromStringAndSize((const char *)run.ptr, (Py_ssize_t)run.len);
}

/* bool(cursor) */
static int place_bool(PyObject *object) {
    Held *held = held_by(object);
    return held ? !zerotrie_cursor_is_empty(held->cursor) : -1;
}

/* bind(addresses): where the functions are, in the order of NAMES. */
static PyObject *bind(PyObject *Py_UNUSED(module), PyObject *addresses) {
    void *found[NAMES];
    if (PySequence_Size(addresses) != NAMES)
        return PyErr_Format(PyExc_ValueError, "bind() takes %d addresses", NAMES);
    for (Py_ssize_t number = 0; number < NAMES; number++) {
        PyObject *address = PySequence_GetItem(addresses, number);
        found[number] = address ? PyLong_AsVoidPtr(address) : NULL;
        Py_XDECREF(address);
        if (PyErr_Occurred())
            return NULL;
    }
    memcpy(&library, found, sizeof library);
    return none();
}

/* A pointer to a function among pointers to data, for which ISO C has no cast. */
#define SLOT(id, function) { id, __extension__(void *)(function) }
#define HOLD SLOT(Py_tp_dealloc, dealloc), SLOT(Py_tp_traverse, traverse), SLOT(Py_tp_clear, clear)
#define READ                                                                                       \
    SLOT(Py_mp_subscript, reader_getitem), SLOT(Py_sq_contains, reader_contains),                  \
        SLOT(GET_BUFFER, get_buffer)
#define WORDS(function) (PyCFunction)(void (*)(void))(function), METH_VARARGS | METH_KEYWORDS
#define DOC(signature, text) signature "\n--\n\n" text
/* Headers of Python 3.10 leave the version tag out of the default. Without it Python 3.9.2 releases
 * a method once too often when it makes a subclass with a metaclass: then no class can be made. */
#define FLAGS                                                                                      \
    Py_TPFLAGS_DEFAULT | Py_TPFLAGS_HAVE_VERSION_TAG | Py_TPFLAGS_BASETYPE | Py_TPFLAGS_HAVE_GC

static PyMethodDef reader_methods[] = {
    { "_hold", hold, METH_VARARGS, NULL },
    { "_lent", reader_lent, METH_NOARGS, NULL },
    { "_close", reader_close, METH_NOARGS, NULL },
    { "_part", reader_part, METH_VARARGS, NULL },
    { "_end", reader_end, METH_VARARGS, NULL },
    { "_values_of", reader_values_of, METH_VARARGS, NULL },
    { "__class_getitem__", reader_of, METH_O | METH_CLASS, NULL },
    { "get", WORDS(reader_get),
      DOC("get($self, /, key, default=None)", "The value of the key, or `default`.") },
    { "longest_prefix", WORDS(reader_longest_prefix),
      DOC("longest_prefix($self, text, /, at=None)",
          "The longest key that the text begins with, and its value. None: it begins with no key."
          "\n\nWith `at`, which names delimiters, it is the longest key after which the text ends or "
          "continues with one\nof them; the empty key counts too.") },
    { "prefixes", reader_prefixes, METH_O,
      DOC("prefixes($self, text, /)",
          "All keys that the text begins with, and their values, the shortest first.") },
    { NULL, NULL, 0, NULL },
};
static PyType_Slot reader_slots[] = {
    HOLD, READ, { Py_tp_methods, reader_methods }, { 0, NULL },
};
static PyType_Spec reader = { "zerotrie._fast.Reader", sizeof(Held), 0, FLAGS, reader_slots };

static PyMethodDef table_methods[] = {
    { "_hold", hold, METH_VARARGS, NULL },
    { "_lent", reader_lent, METH_NOARGS, NULL },
    { "_values_of", reader_values_of, METH_VARARGS, NULL },
    { "get", WORDS(reader_get),
      DOC("get($self, /, key, default=None)", "The value of the key, or `default`.") },
    { NULL, NULL, 0, NULL },
};
static PyType_Slot table_slots[] = {
    HOLD, READ, { Py_tp_methods, table_methods }, { 0, NULL },
};
static PyType_Spec table = { "zerotrie._fast.Table", sizeof(Held), 0, FLAGS, table_slots };

/* The bytes of a dense table, whose look-ups go by ctypes. */
static PyMethodDef record_methods[] = {
    { "_hold", hold, METH_VARARGS, NULL },
    { "_lent", reader_lent, METH_NOARGS, NULL },
    { NULL, NULL, 0, NULL },
};
static PyType_Slot record_slots[] = {
    HOLD, SLOT(GET_BUFFER, get_buffer), { Py_tp_methods, record_methods }, { 0, NULL },
};
static PyType_Spec record = { "zerotrie._fast.Record", sizeof(Held), 0, FLAGS, record_slots };

static PyMethodDef place_methods[] = {
    { "_hold", hold, METH_VARARGS, NULL },
    { "_go", place_go, METH_O, NULL },
    { "_copied", place_copied, METH_NOARGS, NULL },
    { "step", place_step, METH_O,
      DOC("step($self, byte, /)",
          "Follows the edge that is the byte to the kind, and returns its byte as it is stored. "
          "None: nothing is left.") },
    { "probe", place_probe, METH_O,
      DOC("probe($self, index, /)",
          "Follows edge number `index`, from 0, and returns its byte and how many edges there are. "
          "None: nothing is left.") },
    { "take_value", place_take_value, METH_NOARGS,
      DOC("take_value($self, /)",
          "Takes the value of the key that ends here. None: no key does, or it was taken.") },
    { NULL, NULL, 0, NULL },
};
static PyGetSetDef place_parts[] = {
    { "run", place_run, NULL,
      "What is left of the span that it is in: each key continues with it. Empty outside of spans.",
      NULL },
    { NULL, NULL, NULL, NULL, NULL },
};
static PyType_Slot place_slots[] = {
    HOLD, SLOT(Py_nb_bool, place_bool), { Py_tp_methods, place_methods },
    { Py_tp_getset, place_parts }, { 0, NULL },
};
static PyType_Spec place = { "zerotrie._fast.Place", sizeof(Held), 0, FLAGS, place_slots };

/* Adds an object, which it takes over, to the module. */
static int add(PyObject *module, const char *name, PyObject *object) {
    if (object && PyModule_AddObject(module, name, object) == 0)
        return 0;
    Py_XDECREF(object);
    return -1;
}

/* The names of the functions that bind() takes. */
static PyObject *names_wanted(void) {
    PyObject *list = PyList_New(NAMES);
    for (Py_ssize_t number = 0; list && number < NAMES; number++) {
        PyObject *name = PyUnicode_FromString(names[number]);
        if (!name || PyList_SetItem(list, number, name) < 0)
            Py_CLEAR(list);
    }
    return list;
}

/* Fills the module: its types, and the names. */
static int fill(PyObject *module) {
    if (add(module, "Reader", PyType_FromSpec(&reader)) < 0)
        return -1;
    if (add(module, "Table", PyType_FromSpec(&table)) < 0)
        return -1;
    if (add(module, "Record", PyType_FromSpec(&record)) < 0)
        return -1;
    if (add(module, "Place", PyType_FromSpec(&place)) < 0)
        return -1;
    return add(module, "NAMES", names_wanted());
}

static PyMethodDef functions[] = { { "bind", bind, METH_O, NULL }, { NULL, NULL, 0, NULL } };
static PyModuleDef_Slot steps[] = { SLOT(Py_mod_exec, fill), { 0, NULL } };
static PyModuleDef definition = {
    PyModuleDef_HEAD_INIT, "zerotrie._fast", NULL, 0, functions, steps, NULL, NULL, NULL,
};

PyMODINIT_FUNC PyInit__fast(void);

/* What the interpreter calls to import the module. */
PyMODINIT_FUNC PyInit__fast(void) {
    return PyModuleDef_Init(&definition);
}
