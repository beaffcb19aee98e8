/* What a set that never changes is, and the operators of two such sets of one kind. It is tested, not proved. */
#include "_lists.h"
#include <structmember.h>

typedef struct {
    PyObject_HEAD
    /* Its list and the kind of its elements, or NULL in a set that changes. */
    PyObject *now;
} Set;

static PyTypeObject set_type;

/* A set of a class. Takes the list over. */
static PyObject *set_over(PyTypeObject *type, PyObject *list, PyObject *kind)
{
    PyObject *now = list_and_kind(list, kind);
    Set *made = now == NULL ? NULL : (Set *)type->tp_alloc(type, 0);
    if (made == NULL) Py_XDECREF(now);
    else made->now = now;
    return (PyObject *)made;
}

/* Is given a list of the library's own and its kind. */
static PyObject *set_of(PyTypeObject *type, PyObject *const *args, Py_ssize_t n)
{
    return has_arguments(n, 2) ? set_over(type, Py_NewRef(args[0]), args[1]) : NULL;
}

static void set_dealloc(Set *self)
{
    Py_XDECREF(self->now);
    Py_TYPE(self)->tp_free(self);
}

/* By a call over both lists. If a set changes or their kinds differ, a method of the class does it. */
static PyObject *operated(PyObject *a, PyObject *b, _PyCFunctionFast call, const char *method, const char *in_place)
{
    bool is_left = PyObject_TypeCheck(a, &set_type);
    if (!is_left || !PyObject_TypeCheck(b, &set_type)) {
        PyObject *other = is_left ? b : a;
        if (!PyList_CheckExact(other) && !PyTuple_CheckExact(other) && !PyRange_Check(other)) Py_RETURN_NOTIMPLEMENTED;
        return PyErr_Format(PyExc_TypeError, "operators take sets alone: %s, and in place %s, takes pairs and ranges too", method + 1, in_place);
    }
    PyObject *left = ((Set *)a)->now, *right = ((Set *)b)->now;
    PyObject *kind = left == NULL ? NULL : PyTuple_GET_ITEM(left, 1);
    if (kind == NULL || right == NULL || kind != PyTuple_GET_ITEM(right, 1)) return PyObject_CallMethod(a, method, "O", b);
    return set_over(Py_TYPE(a), call(NULL, (PyObject *[]){PyTuple_GET_ITEM(left, 0), PyTuple_GET_ITEM(right, 0)}, 2), kind);
}

#define OPERATOR(name, in_place) \
    static PyObject *set_##name(PyObject *a, PyObject *b) { return operated(a, b, core_##name, "_" #name, in_place); }

OPERATOR(union, "update")
OPERATOR(intersection, "intersection_update")
OPERATOR(difference, "difference_update")
OPERATOR(symmetric_difference, "symmetric_difference_update")

static PyMethodDef methods[] = {
    {"_over", (PyCFunction)(void (*)(void))set_of, METH_FASTCALL | METH_CLASS, NULL},
    {NULL, NULL, 0, NULL},
};

/* `_seen` is what questions are asked of. */
static PyMemberDef members[] = {
    {"_now", T_OBJECT_EX, offsetof(Set, now), READONLY, NULL},
    {"_seen", T_OBJECT_EX, offsetof(Set, now), READONLY, NULL},
    {NULL, 0, 0, 0, NULL},
};

static PyTypeObject set_type = {
    PyVarObject_HEAD_INIT(NULL, 0)
    .tp_name = "range_sets._core.Set",
    .tp_basicsize = sizeof(Set),
    .tp_flags = Py_TPFLAGS_DEFAULT | Py_TPFLAGS_BASETYPE,
    .tp_dealloc = (destructor)set_dealloc,
    .tp_methods = methods,
    .tp_members = members,
    .tp_as_number = &(PyNumberMethods){.nb_or = set_union, .nb_and = set_intersection, .nb_subtract = set_difference,
                                       .nb_xor = set_symmetric_difference},
};

int add_sets(PyObject *module)
{
    set_type.tp_new = PyBaseObject_Type.tp_new;
    return PyModule_AddType(module, &set_type);
}
