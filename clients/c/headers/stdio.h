/* What the example takes of stdio.h, for a compiler that comes without it. */
#ifndef CLIENTS_STDIO_H
#define CLIENTS_STDIO_H

int printf(const char *format, ...);

#endif
