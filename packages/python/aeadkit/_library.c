/* The calls of the library as functions of Python, for the classes of __init__.py and the functions of keywrap.py.

   The file is compiled once for each build of the library, with INIT as the name of the module's function. A struct of the
   library is a bytearray. A call reads its arguments where they are, holds their buffers until it returns, and lets other
   threads run if one of them is 2 KiB long or more. It returns what it wrote, or a tuple of its status and that. */
#define PY_SSIZE_T_CLEAN
#include <Python.h>
#include <aeadkit.h>
#include <stdint.h>
#include <string.h>

enum { MOST_ARGUMENTS = 5, LONG_BYTES = 2048 };

/* Raises the exception. */
static int refused(PyObject *exception, const char *message) {
    PyErr_SetString(exception, message);
    return 0;
}

/* Gets an argument: 's' a struct, 'r' bytes to read, 'o' the same or None, 't' a tag, 'c' bytes to change, 'n' a number, as the
   length of an empty buffer. Returns 0 after an exception. */
static int get(Py_buffer *view, char kind, PyObject *object) {
    if (kind == 'o' && object == Py_None) return 1;
    if (kind == 'n') {
        view->len = PyLong_AsSsize_t(object);
        return view->len >= 0 || (!PyErr_Occurred() && refused(PyExc_ValueError, "a number is not negative"));
    }
    if (PyObject_GetBuffer(object, view, kind == 's' ? PyBUF_WRITABLE : PyBUF_FULL_RO)) return 0;
    const char *format = view->format ? view->format : "B";
    format += *format == '<';
    if (!*format || !strchr("Bbc", *format) || format[1])
        return refused(PyExc_TypeError, "bytes are required, not items of another type");
    if (kind == 't' && view->len != AEADKIT_TAG_BYTES) return refused(PyExc_ValueError, "the tag is not 16 bytes long");
    if (kind == 'c' && view->readonly) return refused(PyExc_TypeError, "bytes to change are required, such as a bytearray, and these are read-only");
    if (PyBuffer_IsContiguous(view, 'C')) return 1;
    if (kind == 'c') return refused(PyExc_TypeError, "the bytes to change are not contiguous");
    PyObject *copy = PyBytes_FromObject(object);
    PyBuffer_Release(view);
    if (!copy || PyObject_GetBuffer(copy, view, PyBUF_SIMPLE)) return 0;
    Py_DECREF(copy);
    return 1;
}

static void release(Py_buffer *b) {
    for (int i = 0; i < MOST_ARGUMENTS; i++) PyBuffer_Release(&b[i]);
}

/* Gets the arguments of a call, of which each has a letter in `kinds`. */
static int get_all(Py_buffer *b, const char *kinds, PyObject *const *arguments, Py_ssize_t count) {
    int got = count == (Py_ssize_t)strlen(kinds) || refused(PyExc_TypeError, "wrong number of arguments");
    for (Py_ssize_t i = 0; got && i < count; i++) got = get(&b[i], kinds[i], arguments[i]);
    if (!got) release(b);
    return got;
}

static PyThreadState *let_others_run(const Py_buffer *b) {
    for (int i = 0; i < MOST_ARGUMENTS; i++)
        if (b[i].len >= LONG_BYTES) return PyEval_SaveThread();
    return NULL;
}

/* Whether a call would change another argument than the one that is to be changed. */
static int overlaps(const Py_buffer *b, int changed) {
    uintptr_t start = (uintptr_t)b[changed].buf, end = start + (size_t)b[changed].len;
    for (int i = 0; i < MOST_ARGUMENTS; i++) {
        uintptr_t other = (uintptr_t)b[i].buf;
        if (i != changed && b[i].len && b[changed].len && start < other + (size_t)b[i].len && other < end) return 1;
    }
    return 0;
}

/* The size tells which struct it is. An opening and a sealing under AES-GCM-SIV have one size, and are wiped alike. */
static uint32_t wiped(const Py_buffer *memory) {
    if (memory->len == AEADKIT_KEPT_KEY_BYTES) aeadkit_key_wipe(memory->buf);
    if (memory->len == AEADKIT_SEALER_BYTES) aeadkit_sealer_wipe(memory->buf);
    if (memory->len == AEADKIT_OPENER_BYTES) aeadkit_opener_wipe(memory->buf);
    return AEADKIT_DONE;
}

#define IN(i) b[i].buf, (size_t)b[i].len
#define OUT out, length
#define COPY memcpy(out, b[1].buf, length)
#define SHORTER(i, by) (b[i].len < (by) ? 0 : b[i].len - (by))

/* A function that returns bytes or a bytearray of the given size, of which `call` writes `length` bytes at `out`. */
#define FUNCTION(name, kinds, type, size, call) \
    static PyObject *name(PyObject *Py_UNUSED(module), PyObject *const *arguments, Py_ssize_t count) { \
        Py_buffer b[MOST_ARGUMENTS] = {{0}}; \
        if (!get_all(b, kinds, arguments, count)) return NULL; \
        size_t length = (size_t)(size); \
        PyObject *output = type##_FromStringAndSize(NULL, (Py_ssize_t)length); \
        void *out = output ? type##_AsString(output) : NULL; \
        PyThreadState *thread = let_others_run(b); \
        uint32_t status = out ? (call) : 0; \
        if (thread) PyEval_RestoreThread(thread); \
        release(b); \
        if (output && status) return Py_BuildValue("(IN)", status, output); \
        if (!output || (size_t)type##_Size(output) == length) return output; \
        PyObject *whole = output; \
        output = PySequence_GetSlice(whole, 0, (Py_ssize_t)length); \
        Py_DECREF(whole); \
        return output; \
    }

FUNCTION(key_init, "nr", PyByteArray, AEADKIT_KEPT_KEY_BYTES, aeadkit_key_init(out, (uint32_t)b[0].len, IN(1)))
FUNCTION(wipe, "s", PyBytes, 0, wiped(&b[0]))
FUNCTION(seal, "srro", PyBytes, b[2].len + AEADKIT_TAG_BYTES, aeadkit_seal_with(b[0].buf, IN(1), IN(2), IN(3), OUT))
FUNCTION(open_, "srro", PyBytes, SHORTER(2, AEADKIT_TAG_BYTES), aeadkit_open_with(b[0].buf, IN(1), IN(2), IN(3), OUT))
FUNCTION(seal_in_place, "srco", PyBytes, AEADKIT_TAG_BYTES,
         overlaps(b, 2) ? AEADKIT_OVERLAP : aeadkit_seal_in_place_with(b[0].buf, IN(1), IN(2), IN(3), out))
FUNCTION(open_in_place, "srcto", PyBytes, 0,
         overlaps(b, 2) ? AEADKIT_OVERLAP : aeadkit_open_in_place_with(b[0].buf, IN(1), IN(2), IN(4), b[3].buf))

FUNCTION(sealer_init, "sro", PyByteArray, AEADKIT_SEALER_BYTES, aeadkit_sealer_init_with(out, b[0].buf, IN(1), IN(2)))
FUNCTION(sealer_update, "sr", PyBytes, b[1].len, (COPY, aeadkit_sealer_update(b[0].buf, OUT)))
FUNCTION(sealer_update_in_place, "sc", PyBytes, 0, aeadkit_sealer_update(b[0].buf, IN(1)))
FUNCTION(sealer_finish, "s", PyBytes, AEADKIT_TAG_BYTES, aeadkit_sealer_finish(b[0].buf, out))

FUNCTION(opener_init, "srto", PyByteArray, AEADKIT_OPENER_BYTES,
         aeadkit_opener_init_with(out, b[0].buf, IN(1), IN(3), b[2].buf))
FUNCTION(opener_check, "sr", PyBytes, 0, aeadkit_opener_check(b[0].buf, IN(1)))
FUNCTION(opener_begin_second, "s", PyBytes, 0, aeadkit_opener_begin_second(b[0].buf))
FUNCTION(opener_update, "sr", PyBytes, b[1].len, (COPY, aeadkit_opener_update(b[0].buf, OUT)))
FUNCTION(opener_update_in_place, "sc", PyBytes, 0, aeadkit_opener_update(b[0].buf, IN(1)))
FUNCTION(opener_finish, "s", PyBytes, 0, aeadkit_opener_finish(b[0].buf))

FUNCTION(siv_init, "sro", PyByteArray, AEADKIT_SIV_BYTES, aeadkit_siv_init_with(out, b[0].buf, IN(1), IN(2)))
FUNCTION(siv_absorb, "sr", PyBytes, 0, aeadkit_siv_absorb(b[0].buf, IN(1)))
FUNCTION(siv_begin_second, "s", PyBytes, AEADKIT_TAG_BYTES, aeadkit_siv_begin_second(b[0].buf, out))
FUNCTION(siv_update, "sr", PyBytes, b[1].len, (COPY, aeadkit_siv_update(b[0].buf, OUT)))
FUNCTION(siv_update_in_place, "sc", PyBytes, 0, aeadkit_siv_update(b[0].buf, IN(1)))
FUNCTION(siv_finish, "s", PyBytes, 0, aeadkit_siv_finish(b[0].buf))

FUNCTION(wrap, "rr", PyBytes, b[1].len + AEADKIT_WRAP_BYTES, aeadkit_wrap(IN(0), IN(1), OUT))
FUNCTION(unwrap, "rr", PyBytes, SHORTER(1, AEADKIT_WRAP_BYTES), aeadkit_unwrap(IN(0), IN(1), OUT))
FUNCTION(wrap_padded, "rr", PyBytes, (b[1].len + 7) / 8 * 8 + AEADKIT_WRAP_BYTES, aeadkit_wrap_padded(IN(0), IN(1), OUT))
FUNCTION(unwrap_padded, "rr", PyBytes, SHORTER(1, AEADKIT_WRAP_BYTES), aeadkit_unwrap_padded(IN(0), IN(1), OUT, &length))

/* The length of a suite's key and its limits for texts and associated data. */
static PyObject *facts(PyObject *Py_UNUSED(module), PyObject *suite) {
    uint32_t number = (uint32_t)PyLong_AsUnsignedLong(suite);
    return Py_BuildValue("nKK", (Py_ssize_t)aeadkit_key_length(number), (unsigned long long)aeadkit_text_limit(number),
                         (unsigned long long)aeadkit_aad_limit(number));
}

#define METHOD(name, function) {name, (PyCFunction)(void (*)(void))function, METH_FASTCALL, NULL}
#define SAME(name) METHOD(#name, name)
static PyMethodDef methods[] = {
    SAME(key_init), SAME(wipe), SAME(seal), METHOD("open", open_), SAME(seal_in_place), SAME(open_in_place),
    SAME(sealer_init), SAME(sealer_update), SAME(sealer_update_in_place), SAME(sealer_finish),
    SAME(opener_init), SAME(opener_check), SAME(opener_begin_second), SAME(opener_update), SAME(opener_update_in_place),
    SAME(opener_finish), SAME(siv_init), SAME(siv_absorb), SAME(siv_begin_second), SAME(siv_update),
    SAME(siv_update_in_place), SAME(siv_finish), SAME(wrap), SAME(unwrap), SAME(wrap_padded), SAME(unwrap_padded),
    {"facts", facts, METH_O, NULL}, {0}};

/* Whether the package has a build for x86-64-v3 and the processor runs it: one that has these three has the rest too. */
static int runs_v3(void) {
#ifdef WITH_V3
    return __builtin_cpu_supports("avx2") && __builtin_cpu_supports("bmi2") && __builtin_cpu_supports("fma");
#else
    return 0;
#endif
}

static int fill(PyObject *module) {
    if (aeadkit_version() != AEADKIT_VERSION_NUMBER) {
        PyErr_SetString(PyExc_ImportError, "libaeadkit.a and aeadkit.h have different versions");
        return -1;
    }
    if (PyModule_AddStringConstant(module, "VERSION", AEADKIT_VERSION)) return -1;
    return PyModule_AddIntConstant(module, "RUNS_V3", runs_v3());
}

static PyModuleDef_Slot slots[] = {{Py_mod_exec, (void *)fill}, {0}};
static PyModuleDef definition = {PyModuleDef_HEAD_INIT, .m_name = "aeadkit._library", .m_methods = methods, .m_slots = slots};

PyMODINIT_FUNC INIT(void) { return PyModuleDef_Init(&definition); }
