/* Declarations that the files of the example in C share. */
#ifndef ASN1V_EXAMPLE_H
#define ASN1V_EXAMPLE_H

#include <stdbool.h>

/* Prints what a line is about, and whether it is right. If it is not, the example fails. */
void expect(const char *what, bool right);

/* Reads, writes and rejects fields of all seven kinds. */
void example_of_fields(void);

#endif
