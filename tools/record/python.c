/* The line of Python code from which MPI was called. See sites.c.
 *
 * Only the thread that has Python's lock may call Python's functions. The recorder must not wait for the
 * lock, since the thread that has it may wait for this one. So it calls Python in two cases: this thread has
 * the lock, or it is the only thread that Python knows, so that nobody else can have the lock.
 *
 * Modules such as mpi4py release the lock around their calls, and other threads may run meanwhile. Then, with
 * Python 3.11, the line is read directly from memory: while a thread is inside a call of MPI its own frames
 * don't change. That is done only after reading has given the same as asking Python.
 */
#define _GNU_SOURCE
#include "sites.h"
#include <dlfcn.h>
#include <stdbool.h>
#include <stddef.h>
#include <string.h>

/* Python's functions, if the process has them. They are looked up by name, since the recorder isn't linked
 * with Python. */
static struct {
    bool is_there;
    int (*is_initialized)(void);
    int (*has_lock)(void);
    int (*take_lock)(void);
    void (*give_lock)(int);
    void *(*state)(void);
    void *(*first_interpreter)(void);
    void *(*next_interpreter)(void *);
    void *(*first_state)(void *);
    void *(*next_state)(void *);
    void *(*frame)(void);
    int (*line)(void *);
    void *(*code)(void *);
    void *(*attribute)(void *, const char *);
    const char *(*text)(void *);
    void (*drop)(void *);
    const char *(*version)(void);
    int (*last)(void *);
    int (*line_at)(void *, int);
} python;

#define FIND(member, name) ((*(void **)&python.member = dlsym(RTLD_DEFAULT, name)) != NULL)

/* ---- Read -------------------------------------------------------------------------------------- */

/* Offsets in structures of Python 3.11, in bytes. */
enum {
    STATE_FRAMES = 56, /* in a thread's state: the pointer to its frames */
    FRAMES_LAST = 8,   /* there: the innermost frame */
    FRAME_CODE = 32,   /* in a frame: its code */
    FRAME_AT = 56,     /* in a frame: the instruction that it is at */
    CODE_FILE = 112,   /* in code: the name of its file */
    TEXT_STATE = 32,   /* in a text: a word with its kind */
    TEXT_ASCII = 3 << 5,
    TEXT_BYTES = 48 /* in a text of that kind: its bytes */
};

static struct {
    bool is_other;  /* another version, or reading was wrong once */
    int right;      /* how often reading was right so far */
    long code_size; /* how many bytes after the start of code its first instruction is */
} layout;

typedef struct {
    char *code, *at, *file;
} Line;

static void *word_at(const void *place, int offset) { return *(void **)((char *)place + offset); }

static bool read_line(const void *state, Line *line) {
    const void *frames = word_at(state, STATE_FRAMES), *frame = frames ? word_at(frames, FRAMES_LAST) : NULL;
    if (!frame)
        return false;
    line->code = word_at(frame, FRAME_CODE);
    line->at = word_at(frame, FRAME_AT);
    line->file = line->code ? word_at(line->code, CODE_FILE) : NULL;
    return line->file;
}

static const char *bytes_of(const char *text) {
    int state = *(const int *)(text + TEXT_STATE);
    return (state & TEXT_ASCII) == TEXT_ASCII ? text + TEXT_BYTES : NULL;
}

/* Reads what was asked, and compares. The first time the length of code is learnt. */
static void compare(const void *frame, const void *code, const void *file, const char *name) {
    Line line;
    if (layout.is_other)
        return;
    bool is_same = read_line(python.state(), &line) && line.code == code && line.file == file;
    const char *bytes = is_same ? bytes_of(line.file) : NULL;
    long size = is_same ? line.at - line.code - python.last((void *)frame) : 0;
    is_same = is_same && size > 0 && (!bytes || bytes == name) && (!layout.right || size == layout.code_size);
    layout.code_size = size;
    layout.is_other = !is_same;
    layout.right += is_same;
}

static int read_site(const void *state) {
    Line line;
    if (!layout.right || layout.is_other || !read_line(state, &line))
        return 0;
    const char *name = bytes_of(line.file);
    return name ? site_of_line(name, python.line_at(line.code, line.at - line.code - layout.code_size)) : 0;
}

/* ---- Asked ------------------------------------------------------------------------------------- */

/* 0 where no Python code runs. */
static int ask_line(void) {
    void *frame = python.frame();
    if (!frame)
        return 0;
    int site = 0;
    void *code = python.code(frame), *file = python.attribute(code, "co_filename");
    const char *name = file ? python.text(file) : NULL;
    if (name) {
        site = site_of_line(name, python.line(frame));
        compare(frame, code, file, name);
    }
    if (file)
        python.drop(file);
    python.drop(code);
    return site;
}

/* With several interpreters Python can't say who has the lock. */
static bool can_ask(void *state) {
    void *interpreter = python.first_interpreter();
    if (!interpreter || python.next_interpreter(interpreter))
        return false;
    bool is_alone = python.first_state(interpreter) == state && !python.next_state(state);
    return is_alone || python.has_lock();
}

/* Reading is much faster. Once it was right often enough it is compared only now and then. */
enum { OFTEN = 16, NOW_AND_THEN = 256 };

static bool may_read(void) {
    static unsigned long calls;
    return layout.right >= OFTEN && !layout.is_other && ++calls % NOW_AND_THEN != 0;
}

int site_of_python(void) {
    if (!python.is_there || !python.is_initialized())
        return 0;
    void *state = python.state();
    if (!state)
        return 0;
    int site = may_read() ? read_site(state) : 0;
    if (site || !can_ask(state))
        return site ? site : read_site(state);
    int lock = python.take_lock();
    site = ask_line();
    python.give_lock(lock);
    return site;
}

bool find_python(void) {
    python.is_there =
        FIND(is_initialized, "Py_IsInitialized") && FIND(has_lock, "PyGILState_Check") &&
        FIND(take_lock, "PyGILState_Ensure") && FIND(give_lock, "PyGILState_Release") &&
        FIND(state, "PyGILState_GetThisThreadState") && FIND(first_interpreter, "PyInterpreterState_Head") &&
        FIND(next_interpreter, "PyInterpreterState_Next") &&
        FIND(first_state, "PyInterpreterState_ThreadHead") && FIND(next_state, "PyThreadState_Next") &&
        FIND(frame, "PyEval_GetFrame") && FIND(line, "PyFrame_GetLineNumber") &&
        FIND(code, "PyFrame_GetCode") && FIND(attribute, "PyObject_GetAttrString") &&
        FIND(text, "PyUnicode_AsUTF8") && FIND(drop, "Py_DecRef");
    layout.is_other = !(python.is_there && FIND(version, "Py_GetVersion") && FIND(last, "PyFrame_GetLasti") &&
                        FIND(line_at, "PyCode_Addr2Line") && strncmp(python.version(), "3.11.", 5) == 0);
    return python.is_there;
}
