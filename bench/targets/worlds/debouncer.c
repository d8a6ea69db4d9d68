#include "world.h"

INPUT(debouncer, samples, bool)
OUTPUT(debouncer, changes, const T_Edge *, value->tag == C_Rise ? value->u.c_Rise.f0 : 65536u + value->u.c_Fall.f0)
WORLD(debouncer)
