/* Keys and values, as Python has them and as the library has them. */
#include "native.h"

enum { LEAST_TUPLE = 2, WORDS = 8 };

bool clsm_has_arguments(Py_ssize_t given, Py_ssize_t wanted) {
    if (given == wanted) return true;
    PyErr_Format(PyExc_TypeError, "%zd arguments were given, not %zd", given, wanted);
    return false;
}

/* Whether the object is an int, or stands for one; if not, what it should be is the error. */
static bool is_int(PyObject *object, const char *what) {
    if (PyIndex_Check(object)) return true;
    PyErr_Format(PyExc_TypeError, "%s, not %R", what, (PyObject *)Py_TYPE(object));
    return false;
}

/* The number from 0 to 2^64 - 1 that the object is, or stands for. */
static bool read_number(PyObject *object, const char *range, uint64_t *number) {
    PyObject *index = PyNumber_Index(object);
    if (!index) return false;
    *number = PyLong_AsUnsignedLongLong(index);
    Py_DECREF(index);
    if (*number != UINT64_MAX || !PyErr_Occurred()) return true;
    if (PyErr_ExceptionMatches(PyExc_OverflowError)) PyErr_SetString(PyExc_ValueError, range);
    return false;
}

bool clsm_read_key(PyObject *object, uint64_t *key) {
    return is_int(object, "a key is an int")
           && read_number(object, "a key is from 0 to 2**64 - 1", key);
}

bool clsm_read_word(PyObject *object, uint64_t *word) {
    return is_int(object, "a word is an int")
           && read_number(object, "a word is from 0 to 2**64 - 1", word);
}

static bool read_words(PyObject *tuple, clsm_value *value) {
    const Py_ssize_t size = PyTuple_Size(tuple);
    if (size < LEAST_TUPLE || size > WORDS) {
        PyErr_SetString(PyExc_ValueError, "a tuple has 2 to 8 words; for one word pass an int");
        return false;
    }
    for (Py_ssize_t i = 0; i < size; i++)
        if (!clsm_read_word(PyTuple_GetItem(tuple, i), &value->words[i])) return false;
    value->length = (uint64_t)size;
    return true;
}

bool clsm_read_value(PyObject *object, clsm_value *value) {
    if (PyTuple_Check(object)) return read_words(object, value);
    if (object == Py_None) {
        PyErr_SetString(PyExc_TypeError, "None is no value; remove removes a key");
        return false;
    }
    value->length = 1;
    return is_int(object, "a value is an int or a tuple of 2 to 8 ints")
           && clsm_read_word(object, &value->words[0]);
}

bool clsm_read_value_or_none(PyObject *object, clsm_value *value) {
    value->length = 0;
    return object == Py_None || clsm_read_value(object, value);
}

PyObject *clsm_new_value(const clsm_value *value) {
    if (value->length == 0) Py_RETURN_NONE;
    if (value->length == 1) return PyLong_FromUnsignedLongLong(value->words[0]);
    PyObject *tuple = PyTuple_New((Py_ssize_t)value->length);
    for (uint64_t i = 0; tuple && i < value->length; i++) {
        PyObject *word = PyLong_FromUnsignedLongLong(value->words[i]);
        if (!word || PyTuple_SetItem(tuple, (Py_ssize_t)i, word)) Py_CLEAR(tuple);
    }
    return tuple;
}

PyObject *clsm_new_row(const clsm_row *row) {
    PyObject *pair = PyTuple_New(2);
    PyObject *key = PyLong_FromUnsignedLongLong(row->key), *value = clsm_new_value(&row->value);
    if (pair && key && value) {
        PyTuple_SetItem(pair, 0, key);
        PyTuple_SetItem(pair, 1, value);
        return pair;
    }
    Py_XDECREF(pair);
    Py_XDECREF(key);
    Py_XDECREF(value);
    return NULL;
}
