/* A Python module that calls MPI, as mpi4py does: nobody but the module finds its MPI library. */
#include <Python.h>
#include <mpi.h>

enum { TAG = 5 };

static PyObject *begin(PyObject *module, PyObject *none) {
    int rank, ranks;
    (void)module, (void)none;
    MPI_Init(NULL, NULL);
    MPI_Comm_rank(MPI_COMM_WORLD, &rank);
    MPI_Comm_size(MPI_COMM_WORLD, &ranks);
    return Py_BuildValue("ii", rank, ranks);
}

static PyObject *send(PyObject *module, PyObject *peer) {
    int token = 0, rank = PyLong_AsLong(peer);
    (void)module;
    Py_BEGIN_ALLOW_THREADS;
    MPI_Ssend(&token, 1, MPI_INT, rank, TAG, MPI_COMM_WORLD);
    Py_END_ALLOW_THREADS;
    Py_RETURN_NONE;
}

static PyObject *receive(PyObject *module, PyObject *peer) {
    int token, rank = PyLong_AsLong(peer);
    (void)module;
    Py_BEGIN_ALLOW_THREADS;
    MPI_Recv(&token, 1, MPI_INT, rank, TAG, MPI_COMM_WORLD, MPI_STATUS_IGNORE);
    Py_END_ALLOW_THREADS;
    Py_RETURN_NONE;
}

static PyObject *end(PyObject *module, PyObject *none) {
    (void)module, (void)none;
    MPI_Finalize();
    Py_RETURN_NONE;
}

static PyMethodDef methods[] = {
    {"begin", begin, METH_NOARGS, NULL},
    {"send", send, METH_O, NULL},
    {"receive", receive, METH_O, NULL},
    {"end", end, METH_NOARGS, NULL},
    {NULL, NULL, 0, NULL},
};

static struct PyModuleDef module = {PyModuleDef_HEAD_INIT, "ring_module", NULL, -1, methods, NULL, NULL, NULL, NULL};

PyMODINIT_FUNC PyInit_ring_module(void) { return PyModule_Create(&module); }
