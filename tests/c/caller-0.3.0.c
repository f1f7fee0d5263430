/* Making and the ten calls as an object compiled with the header of 0.3.0 has them. */
#include "before.h"
#include "header-0.3.0.h"

#define OF_RELEASE(name) name##_0_3_0
#include "caller.h"
