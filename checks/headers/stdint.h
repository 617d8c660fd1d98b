/* The C library's headers for the kit's own compiler, which comes without any: as much of them as include/, checks/ and examples/ ask. For
   x86-64 Linux alone. checks/c uses them; a compiler with headers of its own does without. */
#ifndef CHECKS_STDINT_H
#define CHECKS_STDINT_H

typedef unsigned char uint8_t;
typedef unsigned short uint16_t;
typedef unsigned int uint32_t;
typedef unsigned long uint64_t;
typedef int int32_t;

#endif
