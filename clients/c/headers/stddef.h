/* What urszovely.h and the example take of stddef.h, for a compiler that comes without it. */
#ifndef CLIENTS_STDDEF_H
#define CLIENTS_STDDEF_H

typedef __SIZE_TYPE__ size_t;

#define NULL ((void *)0)

#endif
