/* Requests for memory, which memory.c counts and refuses. */
#ifndef REQUESTS_H
#define REQUESTS_H

#include <stddef.h>

/* How many were made, and which of them is refused. */
extern size_t requests, refused;

/* Calls what needs no memory. */
void asking_nothing(void);

#endif
