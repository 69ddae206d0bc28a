/* Only what lapyrei.h names is seen outside. */
#pragma GCC visibility push(default)
#include "lapyrei.h"
#pragma GCC visibility pop
