/* How the variables of a model are listed, for model.h. */
#include "fmi3_functions.h"

/* An Enumeration is an Int64. */
enum type { TYPE_Float64, TYPE_Float32, TYPE_Int32, TYPE_Int64, TYPE_Boolean };

struct variable {
    fmi3ValueReference reference;
    enum type type;
    size_t place;
};

#define VARIABLE(reference, type, member) {reference, TYPE_##type, offsetof(struct model, member)}
