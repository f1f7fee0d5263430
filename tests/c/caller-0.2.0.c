/* Making and the ten calls as an object compiled with the header of 0.2.0 has them. */
#include "before.h"
#include "header-0.2.0.h"

#define OF_RELEASE(name) name##_0_2_0
#include "caller.h"
