#ifndef _INTTYPES_H
#define _INTTYPES_H

#include <stdint.h>

#define PRIu64 __UINT64_FMTu__

#endif
