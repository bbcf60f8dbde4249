/* Tells of which interface the core is: a part of another build finds no such name, and does not
 * link.
 */
#include "clsm_core.h"

const char CLSM_CORE_INTERFACE = 0;
