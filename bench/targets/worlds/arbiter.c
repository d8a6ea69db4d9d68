#include "world.h"

INPUT(arbiter, left, T_Request)
INPUT(arbiter, right, T_Request)
OUTPUT(arbiter, grants, const T_Grant *, value->tag == C_Left ? value->u.c_Left.f0 : 256u + value->u.c_Right.f0)
WORLD(arbiter)
